//! Request R-3: words through the data port in one call, as a block.
//!
//! A chip *rests* if an event of 0 ticks would not change it. A word at the
//! port of such a chip changes no line that an edge or a standing condition
//! looks at, so that settling alone has something to do, and what it does for
//! all the words can be said at once.

use crate::answer::{Code, Outcome, Refusal};
use crate::chip::Chip;
use crate::event::Event;
use crate::image::{read, write};
use crate::registers::*;

const WORD: usize = 2;
/// "Sent bytes go to a lent buffer of 8 bytes for each word asked for".
const SENT_FOR_A_WORD: usize = 8;

/// "the number of words done and of bytes sent, and the refusal that stopped
/// them".
#[derive(Clone, Copy, Debug, PartialEq, Eq)]
pub struct Transfer {
    pub done: usize,
    pub sent: usize,
    pub code: Code,
}

impl Transfer {
    /// Stopped before any word.
    const fn stopped(code: Code) -> Transfer {
        Transfer {
            done: 0,
            sent: 0,
            code,
        }
    }

    /// The same after a first word that has sent some bytes.
    fn after_a_word(self, sent: usize) -> Transfer {
        Transfer {
            done: 1 + self.done,
            sent: sent + self.sent,
            code: self.code,
        }
    }
}

/// Writes the words of the data, up to the first refusal; the bytes that this
/// sends come first in their buffer.
pub fn write_words(chip: &mut Chip, data: &[u8], words: usize, sent: &mut [u8]) -> Transfer {
    if !write_fits(data, words, sent) {
        return Transfer::stopped(Code::BadRecord);
    }
    if words == 0 || chip.rests() {
        return write_block(chip, data, sent);
    }
    // Any event leaves a chip that rests: the first word is one.
    let (word, rest) = data.split_at(WORD);
    let value = u16::from_le_bytes([word[0], word[1]]);
    match single(chip, Event::WordWrite { value }) {
        Ok((_, outcome)) => {
            let (first, later) = sent.split_at_mut(outcome.sent_count);
            first.copy_from_slice(&outcome.sent[..outcome.sent_count]);
            write_block(chip, rest, later).after_a_word(outcome.sent_count)
        }
        Err(refusal) => Transfer::stopped(refusal.code),
    }
}

/// Reads words into the data, up to the first refusal.
pub fn read_words(chip: &mut Chip, data: &mut [u8], words: usize) -> Transfer {
    if !two_bytes_a_word(data, words) {
        return Transfer::stopped(Code::BadRecord);
    }
    if words == 0 || chip.rests() {
        return read_block(chip, data);
    }
    let (word, rest) = data.split_at_mut(WORD);
    match single(chip, Event::WordRead) {
        Ok((value, _)) => {
            word.copy_from_slice(&value.to_le_bytes());
            read_block(chip, rest).after_a_word(0)
        }
        Err(refusal) => Transfer::stopped(refusal.code),
    }
}

/// The same over an image: one that a step would refuse is code 1, and nothing
/// is written. An image that is accepted is of a chip that rests.
#[inline]
pub fn write_words_image(image: &mut [u8], data: &[u8], words: usize, sent: &mut [u8]) -> Transfer {
    match read(image) {
        Some(mut chip) if write_fits(data, words, sent) => {
            let transfer = write_block(&mut chip, data, sent);
            if transfer.done > 0 {
                write(&chip, image);
            }
            transfer
        }
        _ => Transfer::stopped(Code::BadRecord),
    }
}

/// The same for reading.
#[inline]
pub fn read_words_image(image: &mut [u8], data: &mut [u8], words: usize) -> Transfer {
    match read(image) {
        Some(mut chip) if two_bytes_a_word(data, words) => {
            let transfer = read_block(&mut chip, data);
            if transfer.done > 0 {
                write(&chip, image);
            }
            transfer
        }
        _ => Transfer::stopped(Code::BadRecord),
    }
}

// Buffers. A product that the machine's word can't hold is no buffer's length.

#[inline]
fn two_bytes_a_word(data: &[u8], words: usize) -> bool {
    words.checked_mul(WORD) == Some(data.len())
}

/// "a data buffer not of two bytes a word, or in a write call a sent buffer too
/// small, is code 1".
#[inline]
fn write_fits(data: &[u8], words: usize, sent: &[u8]) -> bool {
    let large_enough = words
        .checked_mul(SENT_FOR_A_WORD)
        .is_some_and(|least| least <= sent.len());
    two_bytes_a_word(data, words) && large_enough
}

// One word, for a chip that does not rest.

fn single(chip: &mut Chip, event: Event) -> Result<(u16, Outcome), Refusal> {
    let before = chip.remember();
    let value = chip.own_effect(event)?;
    chip.edges(before, false);
    let mut outcome = Outcome::default();
    chip.settle(&mut outcome);
    chip.standing_conditions();
    Ok((value, outcome))
}

// Blocks. The chip rests, the data is of whole words.

/// The bytes go first to the REQs that wait for them, then fill the SCSI FIFO,
/// then the host FIFO.
///
/// At rest no REQ waits unless both FIFOs are empty, and with a path the SCSI
/// FIFO has room only if the host FIFO is empty: no byte overtakes another. A
/// word has room as long as two bytes of all this room are left, since the host
/// FIFO is filled last.
fn write_block(chip: &mut Chip, data: &[u8], sent: &mut [u8]) -> Transfer {
    if data.is_empty() {
        return Transfer::stopped(Code::Done);
    }
    if chip.port_shut(false, true) {
        return Transfer::stopped(Code::PortShut);
    }
    let waiting = chip.requests_waiting();
    let ahead = if chip.path() {
        chip.scsi_fifo.room()
    } else {
        0
    };
    let room = waiting + ahead + chip.host_fifo.room();
    let taken = data.len().min(room - room % WORD);
    let (answers, kept) = data[..taken].split_at(taken.min(waiting));
    let (first, last) = kept.split_at(kept.len().min(ahead));
    chip.send_block(answers);
    sent[..answers.len()].copy_from_slice(answers);
    chip.scsi_fifo.put_all(first);
    chip.host_fifo.put_all(last);
    Transfer {
        done: taken / WORD,
        sent: answers.len(),
        code: code_of(taken, data.len(), Code::NoRoom),
    }
}

/// The bytes of the host FIFO, then, with a path, those of the SCSI FIFO.
///
/// The byte of an asynchronous REQ that waits comes behind them. At rest it
/// waits only if both FIFOs are full, so that it makes no further word: 136
/// bytes are 68 words. Settling once behind the block does what settling after
/// each word would: it moves what is left, takes that byte, and answers
/// synchronous REQs down to the number of bytes that the SCSI FIFO still holds.
fn read_block(chip: &mut Chip, data: &mut [u8]) -> Transfer {
    if data.is_empty() {
        return Transfer::stopped(Code::Done);
    }
    if chip.port_shut(false, false) {
        return Transfer::stopped(Code::PortShut);
    }
    let behind = if chip.path() {
        chip.scsi_fifo.count()
    } else {
        0
    };
    let held = chip.host_fifo.count() + behind;
    let taken = data.len().min(held - held % WORD);
    let code = code_of(taken, data.len(), Code::TooFewBytes);
    if taken == 0 {
        return Transfer::stopped(code);
    }
    let (first, last) = data[..taken].split_at_mut(taken.min(chip.host_fifo.count()));
    chip.host_fifo.take_all(first);
    chip.scsi_fifo.take_all(last);
    chip.settle(&mut Outcome::default());
    Transfer {
        done: taken / WORD,
        sent: 0,
        code,
    }
}

#[inline]
fn code_of(taken: usize, asked: usize, refusal: Code) -> Code {
    if taken < asked {
        refusal
    } else {
        Code::Done
    }
}

impl Chip {
    /// "a chip that 0 ticks would change" does not.
    pub fn rests(&self) -> bool {
        let mut after = self.clone();
        after.pass_no_ticks();
        after == *self
    }

    /// The REQs of Normal mode that only wait for a byte to go out, where there
    /// is a path for writing: one if asynchronous, all that are outstanding if
    /// synchronous.
    #[inline]
    fn requests_waiting(&self) -> usize {
        if !self.scsi_enabled() || !self.path() || !self.matched() {
            0
        } else if self.synchronous() {
            self.offset.into()
        } else {
            usize::from(self.sees(REQ) && !self.automatic_ack)
        }
    }

    /// Answers as many waiting REQs as there are bytes.
    #[inline]
    fn send_block(&mut self, bytes: &[u8]) {
        let Some(last) = bytes.last() else {
            return;
        };
        self.last_sent = *last;
        if self.synchronous() {
            self.offset -= bytes.len() as u8;
        } else {
            self.automatic_ack = true;
        }
        for _ in bytes {
            self.count_ack();
        }
    }
}
