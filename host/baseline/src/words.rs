//! Eight bytes as a number, and the search for a 00 among them.

/// Bytes of a word.
pub const WORD: usize = 8;

/// These eight bytes, the first of them lowest.
#[inline(always)]
pub fn low_first(bytes: &[u8], at: usize) -> u64 {
    u64::from_le_bytes(piece(bytes, at))
}

/// These eight bytes, the first of them highest: numbers are in the order of the bytes.
#[inline(always)]
pub fn high_first(bytes: &[u8], at: usize) -> u64 {
    u64::from_be_bytes(piece(bytes, at))
}

/// So many bytes from a place on; they are there.
#[inline(always)]
pub fn piece<const SIZE: usize>(bytes: &[u8], at: usize) -> [u8; SIZE] {
    let mut piece = [0; SIZE];
    piece.copy_from_slice(&bytes[at..at + SIZE]);
    piece
}

/// The highest bit of the first byte that is 00, and of some after it; none below. The word has its
/// first byte lowest.
#[inline(always)]
pub fn marks(word: u64) -> u64 {
    const ONES: u64 = u64::from_le_bytes([0x01; WORD]);
    const HIGHEST: u64 = u64::from_le_bytes([0x80; WORD]);
    word.wrapping_sub(ONES) & !word & HIGHEST
}

/// The place of the lowest mark; 8 if there is none.
#[inline(always)]
pub fn first_mark(marks: u64) -> usize {
    marks.trailing_zeros() as usize / WORD
}

/// The place of the first 00, looked for eight bytes at a time.
#[inline(always)]
pub fn first_zero(bytes: &[u8]) -> Option<usize> {
    let (words, last) = bytes.as_chunks();
    for (number, word) in words.iter().enumerate() {
        let marks = marks(u64::from_le_bytes(*word));
        if marks != 0 {
            return Some(WORD * number + first_mark(marks));
        }
    }
    let zero = last.iter().position(|byte| *byte == 0)?;
    Some(WORD * words.len() + zero)
}

#[test]
fn the_first_mark_is_the_first_zero() {
    const BYTES: [u8; 6] = [0x00, 0x01, 0x7F, 0x80, 0x81, 0xFF];
    for number in 0..BYTES.len().pow(WORD as u32) {
        let byte = |at: usize| BYTES[number / BYTES.len().pow(at as u32) % BYTES.len()];
        let bytes: [u8; WORD] = std::array::from_fn(byte);
        let zero = bytes.iter().position(|byte| *byte == 0);
        assert_eq!(
            first_mark(marks(low_first(&bytes, 0))),
            zero.unwrap_or(WORD)
        );
    }
}

#[test]
fn the_first_zero_is_found_at_every_place() {
    for length in 0..4 * WORD {
        let mut bytes = vec![0x01; length];
        assert_eq!(first_zero(&bytes), None);
        for at in (0..length).rev() {
            bytes[at] = 0;
            assert_eq!(first_zero(&bytes), Some(at));
        }
    }
}
