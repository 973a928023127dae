//! Answers as text: 32 hex digits, capital letters, and a line feed.

pub const LINE: usize = 33;

const fn digit(value: u8) -> u8 {
    if value < 10 {
        b'0' + value
    } else {
        b'A' + value - 10
    }
}

/// Both digits of every byte, so that a line is 16 table looks.
const PAIRS: [[u8; 2]; 256] = {
    let mut pairs = [[0; 2]; 256];
    let mut value = 0;
    while value < 256 {
        pairs[value] = [digit(value as u8 >> 4), digit(value as u8 & 15)];
        value += 1;
    }
    pairs
};

/// Writes one answer's line.
#[inline]
pub fn put_line(line: &mut [u8; LINE], answer: &[u8; 16]) {
    for (pair, byte) in line.chunks_exact_mut(2).zip(answer) {
        pair.copy_from_slice(&PAIRS[usize::from(*byte)]);
    }
    line[LINE - 1] = b'\n';
}

/// The hex digits of some bytes, for messages.
pub fn text(bytes: &[u8]) -> String {
    bytes
        .iter()
        .flat_map(|byte| PAIRS[usize::from(*byte)])
        .map(char::from)
        .collect()
}
