//! Steps C and D: moves between the FIFOs, Normal-mode handshakes, and the
//! conditions that stand at an event's end.

use crate::answer::Outcome;
use crate::chip::{Chip, Mode};
use crate::registers::*;

impl Chip {
    /// "Repeat the first that is possible, until neither is".
    #[inline]
    pub fn settle(&mut self, outcome: &mut Outcome) {
        // Both rules need the path, and settling does not change it.
        if !self.path() {
            return;
        }
        loop {
            if self.move_byte() {
                outcome.moves += 1;
            } else if !self.handshake(outcome) {
                return;
            }
        }
    }

    /// "Move a byte between the FIFOs, if path and there is a byte and room."
    #[inline]
    fn move_byte(&mut self) -> bool {
        if self.host_writes() {
            let possible = !self.host_fifo.is_empty() && !self.scsi_fifo.is_full();
            if possible {
                let byte = self.host_fifo.take();
                self.scsi_fifo.put(byte);
            }
            possible
        } else {
            let possible = !self.scsi_fifo.is_empty() && !self.host_fifo.is_full();
            if possible {
                let byte = self.scsi_fifo.take();
                self.host_fifo.put(byte);
            }
            possible
        }
    }

    /// "Handshake, if SCSIEN, path, matched."
    #[inline]
    fn handshake(&mut self, outcome: &mut Outcome) -> bool {
        if !self.scsi_enabled() || !self.matched() {
            return false;
        }
        let done = if self.synchronous() {
            self.synchronous_handshake(outcome)
        } else {
            self.asynchronous_handshake(outcome)
        };
        if done {
            outcome.acks += 1;
            self.count_ack();
        }
        done
    }

    /// "Asynchronous: REQ seen, automatic ACK off; inbound needs fewer than 8
    /// bytes held and stores the data seen; outbound needs a byte held and
    /// sends the oldest; ACK on."
    #[inline]
    fn asynchronous_handshake(&mut self, outcome: &mut Outcome) -> bool {
        if !self.sees(REQ) || self.automatic_ack {
            return false;
        }
        if self.sees(IO) {
            if self.scsi_fifo.is_full() {
                return false;
            }
            let data = self.data_seen();
            self.scsi_fifo.put(data);
        } else {
            if self.scsi_fifo.is_empty() {
                return false;
            }
            self.send_oldest(outcome);
        }
        self.automatic_ack = true;
        true
    }

    /// "Synchronous: offset above 0; outbound needs a byte held and sends the
    /// oldest; inbound needs offset above the SCSI FIFO count; offset goes down
    /// one, and the ACK pulse is over within the event."
    #[inline]
    fn synchronous_handshake(&mut self, outcome: &mut Outcome) -> bool {
        if self.offset == 0 {
            return false;
        }
        if self.sees(IO) {
            if usize::from(self.offset) <= self.scsi_fifo.count() {
                return false;
            }
        } else {
            if self.scsi_fifo.is_empty() {
                return false;
            }
            self.send_oldest(outcome);
        }
        self.offset -= 1;
        true
    }

    #[inline]
    fn send_oldest(&mut self, outcome: &mut Outcome) {
        let byte = self.scsi_fifo.take();
        outcome.sent[outcome.sent_count] = byte;
        outcome.sent_count += 1;
        self.last_sent = byte;
    }

    /// Step D, and REQINIT's fall.
    #[inline]
    pub fn standing_conditions(&mut self) {
        match self.mode() {
            // "Normal mode with DMAEN, SCSIEN and no path sets FWERR."
            Mode::Normal if self.scsi_enabled() && !self.path() => self.errors |= FWERR,
            // "Automatic mode, matched, REQ seen, automatic ACK off sets SPIORDY."
            Mode::Automatic if !self.automatic_ack && self.sees(REQ) && self.matched() => {
                self.raise0(SPIORDY)
            }
            _ => {}
        }
        // "While ENSPCHK is 0, SCSIPERR is held at 0".
        if self.sxfrctl1 & ENSPCHK == 0 {
            self.status1 &= !SCSIPERR;
        }
        // "REQINIT also falls when ACK is seen."
        if self.sees(ACK) {
            self.status1 &= !REQINIT;
        }
    }
}
