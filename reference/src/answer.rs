//! Answers: 16 bytes, packed most significant bit first.

use crate::chip::Chip;

/// The answer's codes.
#[derive(Clone, Copy, Debug, PartialEq, Eq)]
#[repr(u8)]
pub enum Code {
    Done = 0,
    BadRecord = 1,
    AbsentRegister = 2,
    PortShut = 3,
    NoRoom = 4,
    TooFewBytes = 5,
    BeyondLimit = 6,
    TestRegister = 7,
}

/// Why an access was not done, and what a read then gives.
#[derive(Clone, Copy, Debug, PartialEq, Eq)]
pub struct Refusal {
    pub code: Code,
    pub value: u16,
}

/// What settling did: moves, Normal-mode ACKs, and the bytes they sent.
#[derive(Clone, Copy, Debug, Default, PartialEq, Eq)]
pub struct Outcome {
    pub moves: u8,
    pub acks: u8,
    pub sent: [u8; 8],
    pub sent_count: usize,
}

impl Chip {
    /// The answer's fields in their order, from the state as it now is.
    #[inline]
    pub fn answer(&self, code: Code, value: u16, outcome: &Outcome) -> [u8; 16] {
        let driven = self.data_driven();
        // "Undriven data and parity are 0."
        let data = driven.unwrap_or(0);
        let parity = driven.is_some_and(odd_parity);
        let mut answer = [0; 16];
        answer[0] = (code as u8) << 5 | (self.irq() as u8) << 4 | outcome.acks;
        answer[1] = outcome.moves << 3
            | (driven.is_some() as u8) << 2
            | (self.drives_reset() as u8) << 1
            | parity as u8;
        answer[2..4].copy_from_slice(&value.to_be_bytes());
        answer[4] = self.control_driven();
        answer[5] = data;
        answer[6] = self.offset << 4 | self.scsi_fifo.count() as u8;
        answer[7] = self.host_fifo.count() as u8;
        answer[8..].copy_from_slice(&outcome.sent);
        answer
    }
}

/// "Parity driven makes the ones odd."
#[inline]
pub fn odd_parity(data: u8) -> bool {
    data.count_ones().is_multiple_of(2)
}
