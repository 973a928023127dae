//! A plain model of the AIC-6360 by the exact rules of document 01,
//! with document 001 (the data book) where document 01 is silent.
//!
//! One call of [`step`] is one event: record in, answer out.

pub mod access;
pub mod answer;
pub mod chip;
pub mod counter;
pub mod edges;
pub mod event;
pub mod fifo;
pub mod hex;
pub mod image;
pub mod random;
pub mod registers;
pub mod sequencer;
pub mod settling;
pub mod streams;
pub mod ticks;
pub mod words;

pub use chip::Chip;

use answer::{Code, Outcome};
use event::{decode, Event};

/// One event: the record's own effect (A), edges (B), settling (C) and the
/// standing conditions (D), then the answer. Ticks go through them one by one.
#[inline]
pub fn step(chip: &mut Chip, record: &[u8]) -> [u8; 16] {
    // "record not 4 bytes or not well formed": code 1, state same.
    let Some(event) = decode(record) else {
        return chip.answer(Code::BadRecord, 0, &Outcome::default());
    };
    if let Event::Ticks(ticks @ 1..) = event {
        let outcome = chip.pass_ticks(ticks);
        return chip.answer(Code::Done, 0, &outcome);
    }
    // Rises and falls speak against the end of the last event.
    let before = chip.remember();
    let value = match chip.own_effect(event) {
        Ok(value) => value,
        // "A refused access has ACKs and moves 0 and no sent bytes; the other
        // fields show the unchanged state." It runs none of A to D.
        Err(refusal) => return chip.answer(refusal.code, refusal.value, &Outcome::default()),
    };
    let code = chip.edges(before, false);
    let mut outcome = Outcome::default();
    chip.settle(&mut outcome);
    chip.standing_conditions();
    chip.answer(code, value, &outcome)
}
