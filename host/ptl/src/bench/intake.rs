//! Taking in: all messages of a set into a store that fills up.

use super::data::Labels;
use super::messages::messages;
use super::rounds::{differing_byte, first_difference, rounds, Workload};
use super::table::Row;
use super::{floor, Plan, Sides, Stopped};
use crate::engine::Engine;
use crate::random::Random;
use crate::script::Rack;
use limits::{label_key_size, ANSWERS, STORE_MAX};
use ptl::{read_message, Actor, Message, State};

/// How often each answer was given.
pub type Answers = [usize; ANSWERS];

/// The messages, and a controller that has seen nothing.
struct Intake {
    messages: Vec<Vec<u8>>,
    start: Buffers,
}

#[derive(Clone)]
struct Buffers {
    rack: Rack,
    answers: Vec<u8>,
}

impl Workload for Intake {
    type Buffers = Buffers;

    fn start(&self) -> &Buffers {
        &self.start
    }

    fn run(&self, engine: &dyn Engine, buffers: &mut Buffers) {
        let answers = buffers.answers.iter_mut();
        for (message, answer) in self.messages.iter().zip(answers) {
            *answer = engine.take_in(&mut buffers.rack, message);
        }
    }

    fn difference(&self, product: &Buffers, other: &Buffers) -> Option<String> {
        let answers = [product.answers.as_slice(), &other.answers];
        first_difference("answer to message", answers)
            .or_else(|| differing_byte(&product.rack, &other.rack))
    }
}

/// Measures one set of labels with one set name.
pub fn measure(
    sides: Sides,
    plan: Plan,
    set: Labels,
    name: &[u8],
) -> Result<(Row, Answers), Stopped> {
    let intake = prepare(set, name, plan.messages);
    let summary = rounds(sides, &intake, plan.intake_rounds)?;
    let (answers, used) = watch(&intake, sides[0]);
    let row = Row {
        what: set.word(),
        bytes: name.len(),
        used: used.last().copied().unwrap_or(0),
        summary,
        floor: floor::time(&used, plan.intake_rounds),
    };
    Ok((row, answers))
}

/// The messages and a store that is short of room for the last of their keys.
fn prepare(set: Labels, name: &[u8], number: usize) -> Intake {
    let mut random = Random::new(name.len() as u64);
    let messages = messages(&mut random, set, name, number);
    let mut state = State::zero();
    state.set_actor(Actor(1));
    state.set_name(name);
    let room = keys_length(&messages, name.len()) * 9 / 10;
    let store = vec![0; room.min(STORE_MAX)];
    let start = Buffers {
        rack: Rack { state, store },
        answers: vec![u8::MAX; messages.len()],
    };
    Intake { messages, start }
}

/// The bytes of the keys of all adds within reach, counted once.
fn keys_length(messages: &[Vec<u8>], name: usize) -> usize {
    let mut adds = std::collections::BTreeMap::new();
    for message in messages {
        if let Ok(Message::Add { label, dot, .. }) = read_message(message) {
            if dot.counter.0 < 1_000_000 {
                adds.insert(dot, label_key_size(name, label.0.len()));
            }
        }
    }
    adds.values().sum()
}

/// How often each answer is given, and the used bytes that each call finds.
fn watch(intake: &Intake, engine: &dyn Engine) -> (Answers, Vec<usize>) {
    let mut rack = intake.start.rack.clone();
    let (mut answers, mut used) = ([0; ANSWERS], Vec::new());
    for message in &intake.messages {
        used.push(rack.used());
        let answer = engine.take_in(&mut rack, message);
        if let Some(count) = answers.get_mut(usize::from(answer)) {
            *count += 1;
        }
    }
    (answers, used)
}

#[cfg(test)]
mod tests {
    use super::super::data::{NAMES, SETS};
    use super::*;
    use crate::engine::Product;
    use limits::{KEY_MAX, STATE_SIZE};

    #[test]
    fn every_kind_of_message_is_among_them_and_the_store_fills_up() {
        for set in SETS {
            for name in NAMES {
                let intake = prepare(set, name, 4_000);
                assert_eq!(intake.messages.len(), 4_000);
                let (answers, used) = watch(&intake, &Product);
                for answer in [2, 3, 4, 5, 6, 7, 10, 12] {
                    assert!(answers[answer] > 10, "{set:?} {answers:?}");
                }
                assert!(answers[0] > 1_000, "{set:?} {answers:?}");
                assert_eq!((answers[1], answers[8], answers[11]), (0, 0, 0));
                let last = used.last().copied().unwrap_or(0);
                assert!(
                    intake.start.rack.store.len() - last <= KEY_MAX,
                    "{set:?} {last}"
                );
            }
        }
    }

    #[test]
    fn answers_states_and_stores_are_compared() {
        let intake = prepare(Labels::Short, b"R1", 50);
        let mut sound = intake.start.clone();
        intake.run(&Product, &mut sound);
        let with = |change: fn(&mut Buffers)| {
            let mut changed = sound.clone();
            change(&mut changed);
            intake.difference(&sound, &changed)
        };
        let first =
            |what: Option<String>| what.and_then(|what| what.split(':').next().map(str::to_string));
        assert_eq!(with(|_| ()), None);
        let answer = with(|buffers| buffers.answers[7] ^= 1);
        assert_eq!(first(answer).as_deref(), Some("answer to message 7"));
        let state = with(|buffers| buffers.rack.state.block_mut()[STATE_SIZE - 1] ^= 1);
        assert_eq!(first(state), Some(format!("state byte {}", STATE_SIZE - 1)));
        let store = with(|buffers| buffers.rack.store[5] ^= 1);
        assert_eq!(first(store).as_deref(), Some("store byte 5"));
    }
}
