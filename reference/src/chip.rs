//! The chip's state, the lines it drives and sees, and the conditions that
//! the rules name: connected, matched, path, synchronous, INSTAT, IRQ.

use crate::counter::{self, Direction};
use crate::event::Lines;
use crate::fifo::Fifo;
use crate::registers::*;
use crate::sequencer::{Phase, Sequencer};

/// "Modes by SPIOEN, DMAEN: 0,0 Manual; 1,0 Automatic; 0,1 Normal; 1,1 none."
#[derive(Clone, Copy, Debug, PartialEq, Eq)]
pub enum Mode {
    Manual,
    Automatic,
    Normal,
    None,
}

/// All that lasts from one event to the next.
#[derive(Clone, Debug, Default, PartialEq, Eq)]
pub struct Chip {
    pub scsiseq: u8,
    pub sxfrctl0: u8,
    pub sxfrctl1: u8,
    /// 343h as written: expected phase 7-5, ATN 4, SELO, BSYO, REQO, ACKO.
    pub scsisig: u8,
    pub scsirate: u8,
    /// 345h as written: OID 6-4, TID 2-0.
    pub scsiid: u8,
    /// 345h on read: the data that others drove at the last reselection.
    pub selid: u8,
    /// The latch that a write to 346h fills.
    pub data_latch: u8,
    /// The transfer counter, 24 bits.
    pub counter: u32,
    /// SELDO, SELDI, SELINGO, SPIORDY, in their places of 34Bh.
    pub status0: u8,
    /// SELTO, SCSIRSTI, BUSFREE, SCSIPERR, PHASECHG, REQINIT, in their places of
    /// 34Ch.
    pub status1: u8,
    /// Interrupt latches, in the places of their statuses.
    pub latches0: u8,
    pub latches1: u8,
    /// 34Bh bit 5 was written while SELDI was 1: bus free clears it.
    pub seldi_noted: bool,
    /// Request R-2: the parity of the last inbound byte was bad.
    pub kept_parity_bad: bool,
    /// SYNCERR and FWERR, in their places of 34Fh.
    pub errors: u8,
    pub simode0: u8,
    pub simode1: u8,
    pub dmacntrl0: u8,
    /// 353h: PWRDWN, ENSTK32 and the stack pointer.
    pub dmacntrl1: u8,
    pub brstcntrl: u8,
    pub stack: [u8; 32],
    /// The place in the ID string that the next read of 35Fh gives.
    pub id_place: u8,
    pub scsi_fifo: Fifo<8>,
    pub host_fifo: Fifo<128>,
    /// REQs received for which no ACKs have been issued.
    pub offset: u8,
    /// The ACK that the chip drives of itself, in Normal and Automatic mode.
    pub automatic_ack: bool,
    /// The byte last sent by a Normal-mode ACK.
    pub last_sent: u8,
    /// Ticks with neither BSY nor SEL seen, stopping at 8.
    pub quiet_ticks: u8,
    pub sequencer: Sequencer,
    pub others: Lines,
}

/// What an event's edges are measured against.
#[derive(Clone, Copy, Debug)]
pub struct Before {
    pub request: bool,
    pub reset: bool,
    pub mismatched: bool,
}

impl Chip {
    /// "Power reset: everything 0 and empty, all lines released, those others
    /// drive included."
    pub fn new() -> Chip {
        Chip::default()
    }

    #[inline]
    pub fn remember(&self) -> Before {
        Before {
            request: self.sees(REQ),
            reset: self.sees_reset(),
            mismatched: self.mismatched(),
        }
    }

    #[inline]
    pub fn mode(&self) -> Mode {
        match (self.sxfrctl0 & SPIOEN != 0, self.sxfrctl0 & DMAEN != 0) {
            (false, false) => Mode::Manual,
            (true, false) => Mode::Automatic,
            (false, true) => Mode::Normal,
            (true, true) => Mode::None,
        }
    }

    #[inline]
    pub fn scsi_enabled(&self) -> bool {
        self.sxfrctl0 & SCSIEN != 0
    }

    /// WRITE of 352h: "1 is host to SCSI".
    #[inline]
    pub fn host_writes(&self) -> bool {
        self.dmacntrl0 & WRITE != 0
    }

    // Lines driven.

    /// "The chip drives RST (SCSIRSTO)".
    #[inline]
    pub fn drives_reset(&self) -> bool {
        self.scsiseq & SCSIRSTO != 0
    }

    /// "ACKO drives ACK in Manual mode only"; automatic ACK in any mode.
    #[inline]
    fn drives_ack(&self) -> bool {
        self.automatic_ack || (self.scsisig & ACK != 0 && self.mode() == Mode::Manual)
    }

    /// "ATN, SEL, BSY (343h bits 4 to 2) and ACK; never CD, IO, MSG, REQ", and
    /// the lines of the sequencer.
    #[inline]
    pub fn control_driven(&self) -> u8 {
        let ack = if self.drives_ack() { ACK } else { 0 };
        self.scsisig & (ATN | SEL | BSY) | ack | self.sequencer.phase.lines()
    }

    /// "Data is driven when connected and IO not seen: the latch in Manual and
    /// Automatic, the byte last sent in Normal while automatic ACK is on."
    ///
    /// R-1: "Where the sequencer gives data, that is what is driven, whatever
    /// the mode".
    #[inline]
    pub fn data_driven(&self) -> Option<u8> {
        if !self.connected() {
            // Where the sequencer gives data the chip is not connected.
            return self.ids_driven();
        }
        if self.sees(IO) {
            return None;
        }
        match self.mode() {
            Mode::Manual | Mode::Automatic => Some(self.data_latch),
            Mode::Normal if self.automatic_ack => Some(self.last_sent),
            _ => None,
        }
    }

    // Lines seen: "if others or the chip drive it".

    #[inline]
    pub fn control_seen(&self) -> u8 {
        self.others.control | self.control_driven()
    }

    #[inline]
    pub fn sees(&self, line: u8) -> bool {
        self.control_seen() & line != 0
    }

    #[inline]
    pub fn sees_reset(&self) -> bool {
        self.others.reset || self.drives_reset()
    }

    #[inline]
    pub fn data_seen(&self) -> u8 {
        self.others.data | self.data_driven().unwrap_or(0)
    }

    // Named conditions.

    /// "Connected: BSY seen, SEL and RST not", and, R-1, "the phase is not
    /// arbitrating: the chip's own arbitration is no connection."
    #[inline]
    pub fn connected(&self) -> bool {
        self.control_seen() & (BSY | SEL) == BSY
            && !self.sees_reset()
            && self.sequencer.phase != Phase::Arbitrating
    }

    #[inline]
    fn phase_as_expected(&self) -> bool {
        (self.control_seen() ^ self.scsisig) & PHASE == 0
    }

    /// "Matched: connected and CD, IO, MSG equal 343h bits 7-5."
    #[inline]
    pub fn matched(&self) -> bool {
        self.connected() && self.phase_as_expected()
    }

    /// "connected and not matched", as PHASECHG and PHASEMIS use it.
    #[inline]
    pub fn mismatched(&self) -> bool {
        self.connected() && !self.phase_as_expected()
    }

    /// "Path: Normal, and WRITE differs from IOEXP (343h bit 6)."
    #[inline]
    pub fn path(&self) -> bool {
        let expects_inbound = self.scsisig & IO != 0;
        self.mode() == Mode::Normal && self.host_writes() != expects_inbound
    }

    /// "Synchronous: SOFS not 0, CD and MSG not seen".
    #[inline]
    pub fn synchronous(&self) -> bool {
        self.scsirate & SOFS != 0 && !self.sees(CD | MSG)
    }

    /// "limit = smaller of SOFS and 8".
    #[inline]
    pub fn limit(&self) -> u8 {
        (self.scsirate & SOFS).min(8)
    }

    // Statuses and interrupts.

    /// "PHASEMIS is live: connected, not matched, REQINIT."
    #[inline]
    pub fn phase_mismatch(&self) -> bool {
        self.status1 & REQINIT != 0 && self.mismatched()
    }

    /// "INSTAT is any latch, enabled PHASEMIS, or SWINT."
    #[inline]
    pub fn interrupt_status(&self) -> bool {
        self.latches0 != 0
            || self.latches1 != 0
            || (self.simode1 & PHASEMIS != 0 && self.phase_mismatch())
            || self.dmacntrl0 & SWINT != 0
    }

    /// "IRQ is INSTAT and INTEN."
    #[inline]
    pub fn irq(&self) -> bool {
        self.dmacntrl0 & INTEN != 0 && self.interrupt_status()
    }

    /// Sets a status of 34Bh; "a latch sets when its status rises ... while
    /// enabled", so a status already 1 sets none.
    #[inline]
    pub fn raise0(&mut self, status: u8) {
        let rising = status & !self.status0;
        self.status0 |= rising;
        self.latches0 |= rising & self.simode0;
    }

    /// The same for 34Ch.
    #[inline]
    pub fn raise1(&mut self, status: u8) {
        let rising = status & !self.status1;
        self.status1 |= rising;
        self.latches1 |= rising & self.simode1;
    }

    /// An ACK of Normal or Automatic mode "adds one to the counter, modulo
    /// 16,777,216, and clears REQINIT"; an initiator shows no end passed.
    #[inline]
    pub fn count_ack(&mut self) {
        (self.counter, _) = counter::step(Direction::Up, self.counter);
        self.status1 &= !REQINIT;
    }
}
