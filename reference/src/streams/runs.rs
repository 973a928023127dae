//! Normal-mode runs: a host that feeds or drains the port, a target that
//! raises and drops REQ, cuts with counter reads, and their edge states.

use super::{data_lines, records, Maker, CONTROL_LINES, RST_LINE};
use crate::registers::*;

/// How a run is set up.
#[derive(Clone, Copy)]
struct Run {
    inbound: bool,
    eight_bit: bool,
    sofs: u8,
    /// The target's CD, IO, MSG.
    phase: u8,
}

impl Run {
    fn dma_control(&self) -> u8 {
        let width = if self.eight_bit { EIGHT_BIT } else { 0 };
        let direction = if self.inbound { 0 } else { WRITE };
        ENDMA | width | direction
    }

    /// The data phase's control lines without REQ.
    fn control(&self) -> u8 {
        self.phase | BSY
    }
}

impl Maker {
    pub(super) fn write_run(&mut self) {
        let run = self.choose_run(false);
        self.run_from_start_to_cut(run);
    }

    pub(super) fn read_run(&mut self) {
        let run = self.choose_run(true);
        self.run_from_start_to_cut(run);
    }

    fn choose_run(&mut self, inbound: bool) -> Run {
        let direction = if inbound { IO } else { 0 };
        // Now and then a command, status or message phase.
        let kind = if self.random.percent(85) {
            0
        } else {
            self.random.byte() & (CD | MSG)
        };
        let sofs = if self.random.percent(35) {
            0
        } else {
            self.random.between(1, 15) as u8
        };
        Run {
            inbound,
            eight_bit: self.random.percent(40),
            sofs,
            phase: kind | direction,
        }
    }

    fn run_from_start_to_cut(&mut self, run: Run) {
        self.start_run(run);
        let steps = self.random.between(4, 60);
        for _ in 0..steps {
            if self.is_full() {
                return;
            }
            self.run_step(run);
            self.noise();
        }
        self.cut_run(run);
    }

    fn start_run(&mut self, run: Run) {
        self.set_up_run(run);
        self.set_up_checks();
        if self.random.percent(15) {
            self.counter_near_wrap();
        }
        let enable = if self.random.percent(85) { SCSIEN } else { 0 };
        self.write(SXFRCTL0, enable | DMAEN | CHEN);
    }

    /// FIFOs empty, counter and offset 0, phase expected, path prepared.
    fn set_up_run(&mut self, run: Run) {
        self.drive_control(run.control());
        self.write(SXFRCTL0, CHEN | CLRSTCNT | CLRCH);
        let interrupts = self.random.byte() & INTEN;
        self.write(DMACNTRL0, run.dma_control() | interrupts | RSTFIFO);
        self.write(SCSISIG, run.phase);
        let rate = self.random.byte() & 0xF0;
        self.write(SCSIRATE, rate | run.sofs);
    }

    /// Parity checking, automatic ATN and some interrupt enables.
    fn set_up_checks(&mut self) {
        if self.random.percent(50) {
            let value = self.random.byte() & ENSPCHK;
            self.write(SXFRCTL1, value);
            let value = self.random.byte() & ENAUTOATNP;
            self.write(SCSISEQ, value);
        }
        if self.random.percent(50) {
            self.random_enables();
            self.random_enables();
        }
    }

    pub(super) fn counter_near_wrap(&mut self) {
        let low = 0xFF - self.random.below(12) as u8;
        self.write(STCNT0, low);
        self.write(STCNT1, 0xFF);
        self.write(STCNT2, 0xFF);
    }

    fn run_step(&mut self, run: Run) {
        match self.random.below(20) {
            0..=7 => self.host_burst(run),
            8..=16 => self.target_burst(run),
            17 => self.look_around(),
            18 => self.pause_run(),
            _ => self.unusual_step(run),
        }
    }

    /// Port accesses: some, or until one is refused.
    fn host_burst(&mut self, run: Run) {
        let most = if self.random.percent(15) {
            140
        } else {
            self.random.between(1, 12)
        };
        for _ in 0..most {
            self.port_access(run.inbound, run.eight_bit);
            if self.code() != 0 {
                return;
            }
        }
    }

    pub(super) fn port_access(&mut self, inbound: bool, eight_bit: bool) {
        let value = self.random.number() as u16;
        match (inbound, eight_bit) {
            (false, true) => self.write(DMADATA, value as u8),
            (false, false) => self.emit(records::word_write(value)),
            (true, true) => self.read(DMADATA),
            (true, false) => self.emit(records::WORD_READ),
        }
    }

    /// Some REQs of the target, more of them now and then.
    fn target_burst(&mut self, run: Run) {
        let most = if self.random.percent(10) {
            300
        } else {
            self.random.between(1, 24)
        };
        for _ in 0..most {
            let idle = !self.target_step(run);
            if idle || self.is_full() {
                return;
            }
        }
    }

    /// One change of REQ; false if the target waits.
    fn target_step(&mut self, run: Run) -> bool {
        let synchronous = run.sofs != 0 && run.phase & (CD | MSG) == 0;
        if self.others_drive(REQ) {
            let may_drop = synchronous || self.acknowledged() || self.random.percent(5);
            if may_drop {
                self.drop_request(run);
            }
            may_drop
        } else {
            let may_raise = !synchronous || self.below_limit(run) || self.random.percent(20);
            if may_raise {
                self.raise_request(run);
            }
            may_raise
        }
    }

    fn below_limit(&self, run: Run) -> bool {
        self.offset() < run.sofs.min(8)
    }

    fn raise_request(&mut self, run: Run) {
        let mut lines = u32::from(run.control() | REQ);
        if run.inbound {
            let right = self.random.percent(92);
            lines |= data_lines(self.random.byte(), right);
        } else if self.random.percent(3) {
            // Others' data shows through what the chip drives.
            lines |= data_lines(self.random.byte(), true);
        }
        self.drive(lines);
    }

    fn drop_request(&mut self, run: Run) {
        // The target may leave its data standing.
        let data = if self.random.percent(30) {
            self.lines & !CONTROL_LINES & !RST_LINE
        } else {
            0
        };
        self.drive(data | u32::from(run.control()));
    }

    /// Reads of counter, statuses and FIFO counts.
    fn look_around(&mut self) {
        let count = self.random.between(1, 5);
        for _ in 0..count {
            let offset = self.random.pick(&[
                STCNT0, STCNT1, STCNT2, SSTAT0, SSTAT1, SSTAT2, SSTAT3, SSTAT4, DMASTAT, FIFOSTAT,
                SCSISIG, SCSIBUS, SXFRCTL0,
            ]);
            self.read(offset);
        }
    }

    /// Interrupt work and ticks, as a run allows them.
    fn pause_run(&mut self) {
        match self.random.below(4) {
            0 => self.random_enables(),
            1 => self.random_clear(),
            2 => {
                let count = self.random.pick(&[0, 1, 7, 8, 9, 1000, 0xFF_FFFF]);
                self.ticks(count);
            }
            _ => {
                let value = self.random.byte();
                self.write(STACK, value);
            }
        }
    }

    /// SCSIEN off and on, path off and on, SOFS lowered, phase changed.
    fn unusual_step(&mut self, run: Run) {
        match self.random.below(6) {
            0 => {
                self.write(SXFRCTL0, DMAEN | CHEN);
                self.target_burst(run);
                self.write(SXFRCTL0, SCSIEN | DMAEN | CHEN);
            }
            1 => {
                self.write(SXFRCTL0, CHEN);
                self.host_burst(run);
                self.write(SXFRCTL0, SCSIEN | DMAEN | CHEN);
            }
            2 => {
                let sofs = self.random.below(u32::from(run.sofs) + 1) as u8;
                self.write(SCSIRATE, sofs);
            }
            3 => {
                let phase = self.random.byte() & PHASE;
                self.drive_control(phase | BSY);
                self.look_around();
                self.drive_control(run.control());
            }
            4 => {
                self.write(SCSISIG, run.phase ^ IO);
                self.look_around();
                self.write(SCSISIG, run.phase);
                self.write(SSTAT4, FWERR | SYNCERR);
            }
            _ => {
                // The wrong width or the wrong direction at the port.
                let other_way = self.random.percent(50);
                self.port_access(run.inbound ^ other_way, run.eight_bit ^ !other_way);
            }
        }
    }

    /// SCSIEN off, the counter read, a read run drained, all cleared.
    fn cut_run(&mut self, run: Run) {
        let kept = if self.random.percent(50) { DMAEN } else { 0 };
        self.write(SXFRCTL0, kept | CHEN);
        for offset in [STCNT0, STCNT1, STCNT2, FIFOSTAT, SSTAT2, SSTAT3] {
            self.read(offset);
        }
        if run.inbound && self.random.percent(70) {
            self.drain_port(run);
        }
        if self.random.percent(80) {
            self.write(DMACNTRL0, run.dma_control() | RSTFIFO);
            self.write(SXFRCTL0, CHEN | CLRSTCNT | CLRCH);
            self.write(SCSISIG, 0);
        }
    }

    fn drain_port(&mut self, run: Run) {
        for _ in 0..140 {
            self.port_access(true, run.eight_bit);
            if self.code() != 0 {
                return;
            }
        }
    }

    /// REQs and bytes stored up while the path is off, then all let go at once:
    /// up to 8 ACKs and 16 moves in one event.
    pub(super) fn stored_up_run(&mut self) {
        let inbound = self.random.percent(40);
        let sofs = self.random.pick(&[8, 8, 9, 15, 3, 5]);
        let run = Run {
            inbound,
            eight_bit: false,
            sofs,
            phase: if inbound { IO } else { 0 },
        };
        self.set_up_run(run);
        self.set_up_checks();
        self.write(SXFRCTL0, DMAEN | CHEN);
        let requests = self.random.between(1, 10);
        for _ in 0..requests {
            self.raise_request(run);
            self.drop_request(run);
        }
        self.write(SXFRCTL0, CHEN);
        let words = self.random.between(0, 66);
        for _ in 0..words {
            self.port_access(inbound, false);
        }
        if self.random.percent(30) {
            self.counter_near_wrap();
        }
        self.noise();
        self.let_go(run);
        self.look_around();
    }

    /// By SCSIEN, or by lines that match again and raise REQ in one event.
    fn let_go(&mut self, run: Run) {
        if self.random.percent(60) {
            self.write(SXFRCTL0, SCSIEN | DMAEN | CHEN);
        } else {
            let away = self
                .random
                .pick(&[run.phase | BSY | MSG, run.phase | BSY | SEL, run.phase]);
            self.drive_control(away);
            self.write(SXFRCTL0, SCSIEN | DMAEN | CHEN);
            self.raise_request(run);
        }
    }

    /// A read whose host does not read: both FIFOs fill; then more REQs, a
    /// change to or from synchronous, or a reset with bytes held.
    pub(super) fn overfull_read(&mut self) {
        let mut run = Run {
            inbound: true,
            eight_bit: self.random.percent(50),
            sofs: self.random.pick(&[0, 0, 1, 4, 8, 15]),
            phase: IO,
        };
        self.set_up_run(run);
        self.set_up_checks();
        self.write(SXFRCTL0, SCSIEN | DMAEN | CHEN);
        let changes = self.random.pick(&[256, 258, 266, 272, 280, 300]);
        self.request_changes(run, changes);
        self.write(SSTAT4, SYNCERR | FWERR);
        match self.random.below(5) {
            0 | 1 => {
                run.sofs = self.random.between(0, 15) as u8;
                self.write(SCSIRATE, run.sofs);
            }
            2 => self.reset_and_resume(run),
            3 => self.host_burst(run),
            _ => {}
        }
        self.request_changes(run, 12);
        self.look_around();
        if self.random.percent(60) {
            self.drain_port(run);
        }
    }

    /// REQ up and down, whatever the chip does.
    fn request_changes(&mut self, run: Run, count: u32) {
        for _ in 0..count {
            if self.others_drive(REQ) {
                self.drop_request(run);
            } else {
                self.raise_request(run);
            }
        }
    }

    /// "A bus reset emptying the FIFOs" is a false belief: bytes are still there.
    fn reset_and_resume(&mut self, run: Run) {
        self.drive(RST_LINE);
        self.drive_control(run.control());
        self.write(SCSISIG, run.phase);
        let enable = self.random.byte() & SCSIEN;
        self.write(SXFRCTL0, enable | DMAEN | CHEN);
    }

    /// A reset, a vanished target or a change of mode while an ACK or an offset
    /// stands.
    pub(super) fn broken_handshake(&mut self) {
        let inbound = self.random.percent(50);
        let mut run = self.choose_run(inbound);
        run.sofs = self.random.pick(&[0, 0, 2, 8]);
        self.set_up_run(run);
        let enable = if run.sofs == 0 || self.random.percent(20) {
            SCSIEN
        } else {
            0
        };
        self.write(SXFRCTL0, enable | DMAEN | CHEN);
        if !inbound {
            self.port_access(false, run.eight_bit);
        }
        let requests = if run.sofs == 0 {
            1
        } else {
            self.random.between(1, 15)
        };
        self.request_changes(run, requests);
        self.break_off(run);
        for offset in [SCSISIG, SCSIBUS, SSTAT1, SSTAT3, SXFRCTL0] {
            self.read(offset);
        }
        self.drop_request(run);
    }

    fn break_off(&mut self, run: Run) {
        match self.random.below(4) {
            0 => {
                let lines = self.lines | RST_LINE;
                self.drive(lines);
            }
            1 => self.write(SCSISEQ, SCSIRSTO | ENAUTOATNP),
            2 => {
                let lines = self.lines & !u32::from(BSY);
                self.drive(lines);
                let count = self.random.pick(&[7, 8, 9]);
                self.ticks(count);
            }
            _ => {
                let mode = self.random.pick(&[0, SPIOEN, DMAEN | SPIOEN, DMAEN]);
                self.write(SXFRCTL0, mode | CHEN);
                self.write(SCSIDAT, run.phase ^ 0x5A);
            }
        }
        if self.random.percent(50) {
            self.write(SCSISEQ, 0);
        }
    }

    /// SOFS changes in mid transfer, down to 0 and up past 8.
    pub(super) fn changing_offset(&mut self) {
        let inbound = self.random.percent(50);
        let mut run = self.choose_run(inbound);
        run.phase &= IO;
        run.sofs = 15;
        self.start_run(run);
        for _ in 0..12 {
            self.target_burst(run);
            self.host_burst(run);
            run.sofs = self.random.below(16) as u8;
            self.write(SCSIRATE, run.sofs);
            self.noise();
        }
        self.cut_run(run);
    }

    /// Host FIFO counts of 0, 1, 2, 63, 64, 126, 127 and 128, with both widths
    /// and both directions, the path shut.
    pub(super) fn fifo_edges(&mut self) {
        self.write(SXFRCTL0, CHEN);
        self.write(DMACNTRL0, ENDMA | WRITE | EIGHT_BIT | RSTFIFO);
        let goal = self
            .random
            .pick(&[0, 1, 2, 62, 63, 124, 125, 126, 127, 128]);
        for _ in 0..goal {
            self.port_access(false, true);
        }
        for _ in 0..12 {
            let control = self.random.byte() & (WRITE | EIGHT_BIT) | ENDMA;
            self.write(DMACNTRL0, control);
            self.port_access(control & WRITE == 0, control & EIGHT_BIT != 0);
            let offset = self.random.pick(&[FIFOSTAT, DMASTAT, DMASTAT]);
            self.read(offset);
            self.noise();
        }
        self.drain_all_or_some();
    }

    fn drain_all_or_some(&mut self) {
        let eight_bit = self.random.percent(50);
        self.write(DMACNTRL0, ENDMA | if eight_bit { EIGHT_BIT } else { 0 });
        let most = self.random.below(140);
        for _ in 0..most {
            self.port_access(true, eight_bit);
            if self.code() != 0 {
                return;
            }
        }
    }
}
