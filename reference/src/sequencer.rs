//! Request R-1: the sequencer of automatic selection and reselection.
//!
//! It comes in twice in an event: in step A a write to 340h may give up, in
//! step B it takes its turn between the quiet ticks and PHASECHG.

use crate::chip::Chip;
use crate::registers::*;

/// Where the sequencer stands. A phase's number has the lines that the
/// sequencer drives in their places of 343h.
#[derive(Clone, Copy, Debug, Default, PartialEq, Eq)]
#[repr(u8)]
pub enum Phase {
    #[default]
    Idle = 0,
    /// For the bus to be free.
    Waiting = 1,
    /// BSY and the own ID are on the bus.
    Arbitrating = BSY,
    /// SEL is there too, until the others have left the bus.
    Clearing = BSY | SEL,
    /// SEL and both IDs, until the target drives BSY.
    Selecting = SEL,
    /// The same after a timeout, until the processor gives up.
    Holding = SEL | 1,
    /// A reselection that names the own ID.
    Answering = 2,
    /// BSY is driven until the target releases SEL.
    Answered = BSY | 1,
}

/// A phase and the ticks spent in it.
#[derive(Clone, Copy, Debug, Default, PartialEq, Eq)]
pub struct Sequencer {
    pub phase: Phase,
    pub ticks: u32,
}

/// "bus free delay 16 ticks, arbitration 48, bus clear 16, bus settle 8".
const BUS_FREE_DELAY: u32 = 16;
const ARBITRATION_DELAY: u32 = 48;
const BUS_CLEAR_DELAY: u32 = 16;
const BUS_SETTLE_DELAY: u32 = 8;

/// "the timeouts of 342h", by STIMESEL.
const TIMEOUTS: [u32; 4] = [5_120_000, 2_560_000, 1_280_000, 640_000];

/// Quiet ticks, the bus free delay and an arbitration: the ticks from one lost
/// arbitration to the next.
pub const LOST_ROUND: u32 = BUS_FREE as u32 + BUS_FREE_DELAY + ARBITRATION_DELAY;

impl Phase {
    /// The control lines that the sequencer drives.
    #[inline]
    pub const fn lines(self) -> u8 {
        self as u8 & (BSY | SEL)
    }
}

impl Chip {
    /// "own = 1 shifted by OID".
    #[inline]
    fn own_id(&self) -> u8 {
        1 << (self.scsiid >> 4 & 7)
    }

    /// "other = 1 shifted by TID".
    #[inline]
    fn other_id(&self) -> u8 {
        1 << (self.scsiid & 7)
    }

    /// The data that the sequencer drives, whatever the mode.
    #[inline]
    pub fn ids_driven(&self) -> Option<u8> {
        match self.sequencer.phase {
            Phase::Arbitrating | Phase::Clearing => Some(self.own_id()),
            Phase::Selecting | Phase::Holding => Some(self.own_id() | self.other_id()),
            _ => None,
        }
    }

    /// "Asked: ENSELO set and TEMODEO clear (340h)."
    #[inline]
    fn asked(&self) -> bool {
        self.scsiseq & (TEMODEO | ENSELO) == ENSELO
    }

    /// "Called: ENRESELI, others drive SEL and IO and the data bit of OID, BSY
    /// not seen."
    #[inline]
    fn called(&self) -> bool {
        self.scsiseq & ENRESELI != 0
            && self.others.control & (SEL | IO) == SEL | IO
            && self.others.data & self.own_id() != 0
            && !self.sees(BSY)
    }

    /// "Every change of phase starts at 0 ticks."
    #[inline]
    fn enter(&mut self, phase: Phase) {
        self.sequencer = Sequencer { phase, ticks: 0 };
    }

    /// Step A of a write to 340h: one "that leaves it not asked, while holding,
    /// or while selecting with ENSTIMER 0, makes the sequencer idle, and
    /// SELINGO 0 if it was selecting: the processor gives up."
    pub fn write_sequence_control(&mut self, value: u8) {
        self.scsiseq = value;
        if self.asked() {
            return;
        }
        match self.sequencer.phase {
            Phase::Holding => self.enter(Phase::Idle),
            Phase::Selecting if self.sxfrctl1 & ENSTIMER == 0 => {
                self.status0 &= !SELINGO;
                self.enter(Phase::Idle);
            }
            _ => {}
        }
    }

    /// The sequencer's place in step B. `was_free` says that the quiet ticks
    /// stood at 8 at the end of the last event.
    #[inline]
    pub fn sequence(&mut self, tick: bool, was_free: bool) {
        // Most events find nothing to do.
        let enabled = self.scsiseq & (ENSELO | ENRESELI) != 0;
        if enabled || self.sequencer.phase != Phase::Idle || self.sees_reset() {
            self.sequence_enabled(tick, was_free);
        }
    }

    fn sequence_enabled(&mut self, tick: bool, was_free: bool) {
        // "RST seen: idle, SELINGO 0, and nothing below."
        if self.sees_reset() {
            self.status0 &= !SELINGO;
            if self.sequencer.phase != Phase::Idle {
                self.enter(Phase::Idle);
            }
            return;
        }
        if tick {
            self.sequence_tick(was_free);
        }
        self.sequence_lines();
    }

    /// The ticks after which the phase ends by itself, where ticks bring it
    /// nearer: waiting counts on a free bus only, selecting with ENSTIMER only.
    #[inline]
    pub fn phase_length(&self, free: bool) -> Option<u32> {
        match self.sequencer.phase {
            Phase::Waiting if free => Some(BUS_FREE_DELAY),
            Phase::Arbitrating => Some(ARBITRATION_DELAY),
            Phase::Clearing => Some(BUS_CLEAR_DELAY + BUS_SETTLE_DELAY),
            Phase::Selecting if self.sxfrctl1 & ENSTIMER != 0 => {
                Some(TIMEOUTS[usize::from((self.sxfrctl1 & STIMESEL) >> 3)])
            }
            Phase::Answering => Some(BUS_SETTLE_DELAY),
            _ => None,
        }
    }

    #[inline]
    fn sequence_tick(&mut self, was_free: bool) {
        let free = was_free && !self.sees(BSY | SEL);
        match self.phase_length(free) {
            // "the other phases: nothing"; waiting and selecting start anew.
            None => {
                if matches!(self.sequencer.phase, Phase::Waiting | Phase::Selecting) {
                    self.sequencer.ticks = 0;
                }
            }
            Some(length) => {
                self.sequencer.ticks += 1;
                if self.sequencer.ticks >= length {
                    self.end_of_phase();
                }
            }
        }
    }

    fn end_of_phase(&mut self) {
        match self.sequencer.phase {
            Phase::Waiting => {
                self.status0 &= !SELINGO;
                self.quiet_ticks = 0;
                self.enter(Phase::Arbitrating);
            }
            Phase::Arbitrating => self.end_arbitration(),
            Phase::Clearing => {
                self.raise0(SELINGO);
                self.automatic_attention(ENAUTOATNO);
                self.enter(Phase::Selecting);
            }
            Phase::Selecting => self.time_out(),
            Phase::Answering => {
                self.selid = self.others.data;
                self.raise0(SELDI);
                self.seldi_noted = false;
                self.automatic_attention(ENAUTOATNI);
                self.enter(Phase::Answered);
            }
            Phase::Idle | Phase::Holding | Phase::Answered => {}
        }
    }

    /// "if others drive a data bit above OID, lost: waiting; else clearing."
    fn end_arbitration(&mut self) {
        let lost = self.others.data > (self.own_id() | (self.own_id() - 1));
        self.enter(if lost {
            Phase::Waiting
        } else {
            Phase::Clearing
        });
    }

    /// "SELTO rises, ENSELO becomes 0, and it is idle with ENSELTIMO, else
    /// holding. SELINGO stays".
    fn time_out(&mut self) {
        self.raise1(SELTO);
        self.scsiseq &= !ENSELO;
        self.enter(if self.simode1 & SELTO != 0 {
            Phase::Idle
        } else {
            Phase::Holding
        });
    }

    /// "with ENAUTOATNO 343h bit 4 is set", and so with ENAUTOATNI.
    fn automatic_attention(&mut self, enable: u8) {
        if self.scsiseq & enable != 0 {
            self.scsisig |= ATN;
        }
    }

    /// What follows from the lines and from 340h "in every event, ticks or not,
    /// in this order".
    #[inline]
    fn sequence_lines(&mut self) {
        let others = self.others.control;
        match self.sequencer.phase {
            Phase::Answering if !self.called() => self.enter(Phase::Idle),
            Phase::Answered if others & SEL == 0 => self.enter(Phase::Idle),
            // Lost.
            Phase::Arbitrating if others & SEL != 0 => self.enter(Phase::Waiting),
            Phase::Selecting | Phase::Holding if others & BSY != 0 => {
                self.raise0(SELDO);
                self.status0 &= !SELINGO;
                self.scsiseq &= !ENSELO;
                self.enter(Phase::Idle);
            }
            _ => {}
        }
        if self.sequencer.phase == Phase::Idle && self.asked() {
            self.enter(Phase::Waiting);
        }
        // "On a free bus the sequence is under way."
        if self.sequencer.phase == Phase::Waiting && !self.asked() && self.quiet_ticks < BUS_FREE {
            self.enter(Phase::Idle);
        }
        if matches!(self.sequencer.phase, Phase::Idle | Phase::Waiting) && self.called() {
            self.enter(Phase::Answering);
        }
    }
}
