//! `ptl console`: one line in, one line out, for sixteen controllers.

#[cfg(test)]
mod tests;

use crate::engine::Engine;
use crate::script::{parse, Both, Line, Rack, Why, Worded, LINE_MAX, RACKS};
use std::io::{self, BufRead, BufReader, Read, Write};

/// Carries out the lines of the input. What is written comes out before more input is awaited.
pub fn console(engine: &dyn Engine, input: impl Read, mut output: impl Write) -> io::Result<()> {
    let mut input = BufReader::new(input);
    let mut racks: Vec<Rack> = (0..RACKS).map(|_| Rack::new()).collect();
    let mut line = Vec::new();
    loop {
        if input.buffer().is_empty() {
            output.flush()?;
        }
        let Some(fits) = read_line(&mut input, &mut line)? else {
            return output.flush();
        };
        let reply = match fits {
            true if is_silent(&line) => continue,
            true => obey(engine, &mut racks, &line),
            false => Err("line over 262144 bytes".into()),
        };
        match reply {
            Ok(reply) => writeln!(output, "{reply}")?,
            Err(why) => writeln!(output, "? {why}")?,
        }
    }
}

/// Blank lines and comments give no output.
fn is_silent(line: &[u8]) -> bool {
    line.is_empty() || line[0] == b'#'
}

/// Carries out one line; the output line.
fn obey(engine: &dyn Engine, racks: &mut [Rack], line: &[u8]) -> Result<String, Why> {
    let (at, line) = parse(line)?;
    match line {
        Line::Tool(tool) => racks[at].obey(&tool),
        Line::Command(command) => {
            let mut out = vec![0; command.out()];
            let reply = engine.run(&mut racks[at], &command, &mut out);
            Ok(reply.line(&command, &out))
        }
        Line::Both(both) => {
            let mut out = vec![0; both.out()];
            let Both::Merge { first, second, .. } = both;
            let reply = engine.merge(&racks[first], &racks[second], &mut out);
            Ok(reply.line_of_both(&both, &out))
        }
    }
}

/// Reads up to the next newline, which is dropped; the last line may lack it. None at the end of
/// the input. False if the line is too long, of which no more than the limit is kept.
fn read_line(input: &mut impl BufRead, line: &mut Vec<u8>) -> io::Result<Option<bool>> {
    line.clear();
    let (mut any, mut fits) = (false, true);
    loop {
        let chunk = input.fill_buf()?;
        if chunk.is_empty() {
            return Ok(any.then_some(fits));
        }
        any = true;
        let end = chunk.iter().position(|byte| *byte == b'\n');
        let piece = &chunk[..end.unwrap_or(chunk.len())];
        fits &= line.len() + piece.len() <= LINE_MAX;
        if fits {
            line.extend_from_slice(piece);
        }
        let taken = piece.len() + usize::from(end.is_some());
        input.consume(taken);
        if end.is_some() {
            return Ok(Some(fits));
        }
    }
}
