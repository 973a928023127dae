//! Automatic selection and reselection: won, lost, timed out, given up, called
//! away, reset in each phase, one tick at a time or many phases in one event.

use super::{data_lines, records, Maker, RST_LINE};
use crate::registers::*;
use crate::sequencer::Phase;

const PHASES: [Phase; 8] = [
    Phase::Idle,
    Phase::Waiting,
    Phase::Arbitrating,
    Phase::Clearing,
    Phase::Selecting,
    Phase::Holding,
    Phase::Answering,
    Phase::Answered,
];

/// The bits of 340h that may go with ENSELO or ENRESELI.
const ATTENTIONS: u8 = ENAUTOATNO | ENAUTOATNI | ENAUTOATNP;

/// Events that cross phases, rounds and timeouts.
const LONG_TICKS: [u32; 14] = [
    24, 71, 72, 73, 88, 96, 144, 145, 500, 10_000, 640_100, 2_560_100, 5_120_100, 0xFF_FFFF,
];

impl Maker {
    /// The sequencer is brought to a phase, and then things happen to it.
    pub(super) fn selection(&mut self) {
        self.set_up_sequencer();
        if self.random.percent(20) {
            self.compete();
        }
        let phase = self.random.pick(&PHASES);
        self.bring_to(phase);
        self.look_at_selection();
        if self.random.percent(20) {
            self.bus_reset_now();
        }
        let steps = self.random.between(1, 5);
        for _ in 0..steps {
            self.selection_step();
            self.look_at_selection();
            self.noise();
        }
        self.leave_selection();
    }

    /// A selection with attention as a driver starts one up, then traffic.
    pub(super) fn start_up(&mut self) {
        self.set_up_sequencer();
        let phase = self.random.pick(&[CD | MSG, CD | MSG, CD, 0]);
        self.write(SCSISIG, phase);
        let stored = self.random.percent(40);
        if stored {
            self.store_words();
            self.write(SXFRCTL0, SCSIEN | DMAEN | CHEN);
        }
        let attentions = self.random.byte() & ATTENTIONS;
        let reselection = self.random.byte() & ENRESELI;
        self.write(SCSISEQ, ENSELO | ENAUTOATNO | attentions | reselection);
        if self.random.percent(40) {
            // Chapter 5 turns ENSELO off at once.
            self.write(SCSISEQ, ENAUTOATNO | attentions | reselection);
        }
        if self.random.percent(15) {
            self.compete();
        }
        self.pass_to(Phase::Selecting);
        if self.random.percent(20) {
            self.ticks_around_the_end();
        }
        let phase = if self.random.percent(80) {
            phase
        } else {
            self.random.byte() & PHASE
        };
        let request = self.random.byte() & REQ;
        self.drive_control(phase | BSY | request);
        self.look_at_selection();
        let traffic = self.random.pick(&[
            Maker::automatic_pio,
            Maker::manual_pio,
            Maker::write_run,
            Maker::read_run,
            Maker::phase_changes,
        ]);
        traffic(self);
        self.leave_selection();
    }

    /// A target calls, is answered, and goes on with traffic; SELDI is cleared
    /// before bus free, after it, or not at all.
    pub(super) fn reselection(&mut self) {
        self.set_up_sequencer();
        let attentions = self.random.byte() & ATTENTIONS;
        let asking = if self.random.percent(30) { ENSELO } else { 0 };
        self.write(SCSISEQ, ENRESELI | attentions | asking);
        let waited = self.random.below(20);
        self.ticks(waited);
        self.call();
        self.pass_to(Phase::Answered);
        self.look_at_selection();
        if self.random.percent(40) {
            self.write(SSTAT0, SELDI);
        }
        if self.random.percent(80) {
            let lines = self.lines | u32::from(BSY);
            self.drive(lines);
        }
        self.drive_control(IO | BSY);
        self.read(SCSIID);
        let traffic = self.random.pick(&[
            Maker::automatic_pio,
            Maker::manual_pio,
            Maker::read_run,
            Maker::phase_changes,
            Maker::look_at_selection,
            Maker::look_at_selection,
        ]);
        traffic(self);
        if self.random.percent(40) {
            self.write(SSTAT0, SELDI);
        }
        self.leave_selection();
    }

    /// Long events on a bus where a higher ID stands, or nobody answers.
    pub(super) fn long_ticks(&mut self) {
        self.set_up_sequencer();
        if self.random.percent(40) {
            self.bytes_for_bus_free();
        }
        if self.random.percent(50) {
            self.compete();
        }
        let attentions = self.random.byte() & ATTENTIONS;
        self.write(SCSISEQ, ENSELO | attentions);
        let steps = self.random.between(1, 6);
        for _ in 0..steps {
            let count = self.random.pick(&LONG_TICKS);
            let count = if self.random.percent(50) {
                self.random.below(count) + 1
            } else {
                count
            };
            self.ticks(count);
            self.look_at_selection();
            if self.random.percent(30) {
                self.selection_step();
            }
            if self.random.percent(30) {
                self.write(SCSISEQ, ENSELO | attentions);
            }
        }
        self.leave_selection();
    }

    /// IDs, timer, enables, mostly on a bus that is free.
    fn set_up_sequencer(&mut self) {
        let value = if self.random.percent(20) {
            self.random.byte() & (ENSELO | ENRESELI)
        } else {
            0
        };
        self.write(SCSISEQ, value);
        if self.random.percent(85) {
            self.drive(0);
        }
        let quiet = self.random.pick(&[8, 8, 8, 8, 8, 20, 9, 7, 0]);
        self.ticks(quiet);
        let ids = self.random.byte();
        self.write(SCSIID, ids);
        let timer = if self.random.percent(60) { ENSTIMER } else { 0 };
        let rest = self.random.byte() & (STIMESEL | ENSPCHK);
        self.write(SXFRCTL1, timer | rest);
        for offset in [SIMODE0, SIMODE1] {
            if self.random.percent(60) {
                let enables = self.random.byte();
                self.write(offset, enables);
            }
        }
        if self.random.percent(40) {
            self.clear_interrupts();
        }
    }

    /// Words that wait in the host FIFO for a path out.
    fn store_words(&mut self) {
        self.write(SXFRCTL0, CHEN);
        self.write(DMACNTRL0, ENDMA | WRITE);
        let words = self.random.between(1, 5);
        for _ in 0..words {
            self.port_access(false, false);
        }
    }

    /// An inbound phase expected while the host writes: bus free makes that a
    /// path, and the bytes move on the way through a long event.
    fn bytes_for_bus_free(&mut self) {
        self.drive_control(BSY);
        self.store_words();
        self.write(SCSISIG, IO);
        self.write(SXFRCTL0, DMAEN | CHEN);
        self.drive_control(0);
    }

    fn own_id(&self) -> u8 {
        1 << (self.chip.scsiid >> 4 & 7)
    }

    /// Bring the sequencer to a phase, from wherever it is, as far as it goes.
    pub(super) fn bring_to(&mut self, phase: Phase) {
        let attentions = self.random.byte() & ATTENTIONS;
        match phase {
            Phase::Idle => self.write(SCSISEQ, attentions),
            Phase::Answering | Phase::Answered => {
                self.write(SCSISEQ, ENRESELI | attentions);
                self.call();
                self.pass_to(phase);
            }
            Phase::Holding => {
                let masked = self.chip.simode1 & !SELTO;
                self.write(SIMODE1, masked);
                let code = self.random.byte() & STIMESEL;
                self.write(SXFRCTL1, ENSTIMER | code);
                self.write(SCSISEQ, ENSELO | attentions);
                self.pass_to(phase);
            }
            _ => {
                let reselection = self.random.byte() & ENRESELI;
                self.write(SCSISEQ, ENSELO | attentions | reselection);
                self.pass_to(phase);
            }
        }
    }

    /// Ticks until the sequencer is in that phase; not for ever.
    fn pass_to(&mut self, phase: Phase) {
        let at_once = self.random.percent(25);
        if at_once && phase == Phase::Selecting {
            let count = self.random.pick(&[88, 89, 96, 97, 104]);
            self.ticks(count);
        }
        for _ in 0..8 {
            if self.chip.sequencer.phase == phase {
                return;
            }
            let left = self.ticks_to_change();
            if left > 1 && self.random.percent(20) {
                self.ticks(left - 1);
                self.ticks(1);
            } else {
                self.ticks(left);
            }
        }
    }

    /// The ticks until the bus is free or the phase ends by itself.
    fn ticks_to_change(&self) -> u32 {
        if self.chip.quiet_ticks < BUS_FREE && !self.chip.sees(BSY | SEL) {
            return u32::from(BUS_FREE - self.chip.quiet_ticks);
        }
        match self.chip.phase_length(true) {
            Some(length) => length.saturating_sub(self.chip.sequencer.ticks).max(1),
            None => 8,
        }
    }

    fn ticks_around_the_end(&mut self) {
        let left = self.ticks_to_change();
        let count = left - 1 + self.random.below(3);
        self.ticks(count);
    }

    /// Others drive data bits, often one above the own ID.
    fn compete(&mut self) {
        let byte = match self.random.below(4) {
            0 => self.random.byte(),
            1 => 0x80,
            2 => self.own_id() << 1,
            _ => self.own_id() | self.own_id() >> 1,
        };
        let control = self.random.pick(&[0, 0, 0, 0, BSY, REQ]);
        self.drive(data_lines(byte, true) | u32::from(control));
    }

    /// SEL, IO and two IDs; now and then something is wrong about it.
    fn call(&mut self) {
        let other = 1 << self.random.below(8);
        let mut ids = self.own_id() | other;
        let mut control = SEL | IO;
        match self.random.below(12) {
            0 => ids = self.random.byte(),
            1 => control = self.random.byte() & (SEL | IO | BSY | MSG | CD | REQ),
            _ => {}
        }
        let right = self.random.percent(90);
        self.drive(data_lines(ids, right) | u32::from(control));
    }

    fn selection_step(&mut self) {
        match self.random.below(24) {
            0..=2 => self.ticks_around_the_end(),
            3 => {
                let count = self.random.pick(&LONG_TICKS);
                self.ticks(count);
            }
            4 => {
                let count = self.random.below(100);
                self.ticks(count);
            }
            5 | 6 => self.target_answers(),
            7 => self.compete(),
            8 | 9 => self.call(),
            10 => {
                let control = self.random.byte() & (SEL | BSY | IO | REQ);
                let data = data_lines(self.random.byte(), true);
                self.drive(data | u32::from(control));
            }
            11 => self.drive(0),
            12 | 13 => self.bus_reset_now(),
            14..=16 => self.write_sequence_control(),
            17 => {
                let value = self.random.byte() & (ENSTIMER | STIMESEL | ENSPCHK);
                self.write(SXFRCTL1, value);
            }
            18 => {
                let value = self.random.byte() & (SEL | BSY | ATN | PHASE);
                self.write(SCSISIG, value);
            }
            19 => {
                let value = self.random.byte();
                self.write(SCSIID, value);
            }
            20 => self.random_enables(),
            21 => {
                let value = self.random.byte() | SELDI;
                self.write(SSTAT0, value);
            }
            22 => {
                let value = self.random.byte() | SELTO;
                self.write(SSTAT1, value);
            }
            _ => self.rare_step(),
        }
    }

    fn target_answers(&mut self) {
        let phase = self.random.byte() & PHASE;
        let request = self.random.byte() & REQ;
        self.drive_control(phase | BSY | request);
    }

    fn bus_reset_now(&mut self) {
        if self.random.percent(60) {
            let lines = self.lines | RST_LINE;
            self.drive(lines);
        } else {
            let value = self.random.byte() | SCSIRSTO;
            self.write(SCSISEQ, value);
        }
        if self.random.percent(40) {
            let value = self.random.byte() & !SCSIRSTO | ENSELO;
            self.write(SCSISEQ, value);
            let count = self.random.below(40);
            self.ticks(count);
        }
        let lines = self.lines & !RST_LINE;
        self.drive(lines);
        if self.chip.drives_reset() {
            self.write(SCSISEQ, 0);
        }
    }

    /// ENSELO off, on, with TEMODEO, or anything.
    fn write_sequence_control(&mut self) {
        let anything = self.random.byte() & !SCSIRSTO;
        let value = match self.random.below(5) {
            0 | 1 => anything & !ENSELO,
            2 => anything | ENSELO | TEMODEO,
            3 => anything & !TEMODEO | ENSELO,
            _ => anything,
        };
        self.write(SCSISEQ, value);
    }

    fn rare_step(&mut self) {
        match self.random.below(4) {
            0 => self.emit(records::POWER_RESET),
            1 => {
                let value = self.random.byte();
                self.write(SXFRCTL0, value);
            }
            2 => {
                let value = self.random.byte();
                self.write(SCSIDAT, value);
            }
            _ => self.ticks(0),
        }
    }

    fn look_at_selection(&mut self) {
        let count = self.random.between(1, 3);
        for _ in 0..count {
            let offset = self.random.pick(&[
                SSTAT0, SSTAT0, SSTAT1, SCSIID, SCSISEQ, SCSISIG, SCSIBUS, DMASTAT,
            ]);
            self.read(offset);
        }
    }

    /// Mostly the bus gets free and nothing is asked any more.
    fn leave_selection(&mut self) {
        if self.random.percent(80) {
            self.write(SCSISEQ, 0);
        }
        if self.random.percent(60) {
            self.drive(0);
            let count = self.random.pick(&[7, 8, 8, 9, 30, 200]);
            self.ticks(count);
            self.read(SSTAT0);
        }
        if self.random.percent(50) {
            self.write(SSTAT1, CLRATNO | SELTO);
        }
    }
}
