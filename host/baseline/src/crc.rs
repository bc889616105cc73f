//! The CRC-32 of IEEE 802.3, by a table.

/// The polynomial, reflected.
const POLYNOMIAL: u32 = 0xEDB8_8320;

/// What a byte makes of a CRC, for each byte.
static TABLE: [u32; 256] = {
    let mut table = [0; 256];
    let mut byte = 0;
    while byte < table.len() {
        table[byte] = remainder(byte as u32);
        byte += 1;
    }
    table
};

const fn remainder(mut crc: u32) -> u32 {
    let mut bit = 0;
    while bit < 8 {
        crc = (crc >> 1) ^ (POLYNOMIAL * (crc & 1));
        bit += 1;
    }
    crc
}

/// The CRC of these bytes.
pub fn crc32(bytes: &[u8]) -> u32 {
    let next = |crc: u32, byte: &u8| (crc >> 8) ^ TABLE[usize::from(crc as u8 ^ byte)];
    !bytes.iter().fold(!0, next)
}
