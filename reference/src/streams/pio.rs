//! Automatic and Manual PIO, and what happens on the bus around transfers:
//! resets, bus free, phases, parity, selection by hand.

use super::{data_lines, Maker, RST_LINE};
use crate::registers::*;

impl Maker {
    /// REQ, SPIORDY, an access to 346h, ACK, REQ dropped; with slips.
    pub(super) fn automatic_pio(&mut self) {
        let phase = self.random.byte() & PHASE;
        self.drive_control(phase | BSY);
        self.write(SCSISIG, phase);
        self.write(SXFRCTL0, SPIOEN | CHEN);
        let enables = self.random.byte();
        self.write(SIMODE0, enables);
        if self.random.percent(10) {
            self.counter_near_wrap();
        }
        let bytes = self.random.between(1, 15);
        for _ in 0..bytes {
            self.automatic_byte(phase);
            self.noise();
        }
        if self.random.percent(70) {
            self.write(SXFRCTL0, CHEN);
        }
    }

    fn automatic_byte(&mut self, phase: u8) {
        let right = self.random.percent(90);
        let data = if phase & IO != 0 {
            data_lines(self.random.byte(), right)
        } else {
            0
        };
        self.drive(data | u32::from(phase | BSY | REQ));
        self.read(SSTAT0);
        if self.random.percent(15) {
            self.automatic_slip(phase);
        }
        self.serve_ready_byte(phase & IO != 0);
        if self.random.percent(50) {
            self.write(SSTAT0, SPIORDY);
        }
        if self.acknowledged() || self.random.percent(30) {
            self.drive_control(phase | BSY);
        }
        if self.random.percent(20) {
            self.read_counter();
        }
    }

    fn serve_ready_byte(&mut self, inbound: bool) {
        // Now and then the access of the other direction.
        if inbound ^ self.random.percent(10) {
            self.read(SCSIDAT);
        } else {
            let value = self.random.byte();
            self.write(SCSIDAT, value);
        }
    }

    /// The latch cleared, the mode left, REQ dropped early, the phase changed.
    fn automatic_slip(&mut self, phase: u8) {
        match self.random.below(6) {
            0 => self.write(SSTAT0, 0xFF),
            1 => {
                let value = self
                    .random
                    .pick(&[CHEN, SCSIEN | DMAEN | CHEN, DMAEN | SPIOEN]);
                self.write(SXFRCTL0, value);
            }
            2 => self.drive_control(phase | BSY),
            3 => {
                let other = self.random.byte() & PHASE;
                self.drive_control(other | BSY | REQ);
            }
            4 => self.write(SCSISIG, phase ^ IO),
            _ => self.write(SXFRCTL0, SPIOEN | CHEN),
        }
    }

    fn read_counter(&mut self) {
        for offset in [STCNT0, STCNT1, STCNT2] {
            self.read(offset);
        }
    }

    /// The host works the lines itself: 346h, ACKO, reads of 343h and 347h.
    pub(super) fn manual_pio(&mut self) {
        let phase = self.random.byte() & PHASE;
        self.write(SXFRCTL0, CHEN);
        self.drive_control(phase | BSY);
        let bytes = self.random.between(1, 10);
        for _ in 0..bytes {
            self.manual_byte(phase);
            self.noise();
        }
    }

    fn manual_byte(&mut self, phase: u8) {
        let data = if phase & IO != 0 {
            data_lines(self.random.byte(), true)
        } else {
            0
        };
        self.drive(data | u32::from(phase | BSY | REQ));
        self.read(SCSISIG);
        let value = self.random.byte();
        self.write(SCSIDAT, value);
        self.read(SCSIBUS);
        let attention = self.random.byte() & ATN;
        self.write(SCSISIG, phase | ACK | attention);
        let offset = self.random.pick(&[SSTAT1, SCSISIG, SCSIDAT]);
        self.read(offset);
        if self.random.percent(10) {
            // ACKO drives in Manual mode only.
            let mode = self.random.pick(&[DMAEN, SPIOEN, DMAEN | SPIOEN]);
            self.write(SXFRCTL0, mode | CHEN);
            self.read(SCSISIG);
            self.write(SXFRCTL0, CHEN);
        }
        self.drive_control(phase | BSY);
        self.write(SCSISIG, phase);
        if self.random.percent(30) {
            self.write(SSTAT1, CLRATNO);
        }
    }

    /// RST by others or by SCSIRSTO, in whatever state the chip is.
    pub(super) fn bus_reset(&mut self) {
        if self.random.percent(40) {
            let enables = self.random.byte() | SCSIRSTI;
            self.write(SIMODE1, enables);
        }
        if self.random.percent(50) {
            let lines = self.lines | RST_LINE;
            self.drive(lines);
            self.during_reset();
            let lines = self.lines & !RST_LINE;
            self.drive(lines);
        } else {
            let value = self.random.byte() | SCSIRSTO;
            self.write(SCSISEQ, value);
            self.during_reset();
            let value = self.random.byte() & !SCSIRSTO;
            self.write(SCSISEQ, value);
        }
        for offset in [SSTAT1, SCSISEQ, SXFRCTL0, SSTAT2, FIFOSTAT] {
            self.read(offset);
        }
        if self.random.percent(70) {
            self.write(SSTAT1, SCSIRSTI);
        }
    }

    fn during_reset(&mut self) {
        let steps = self.random.below(4);
        for _ in 0..steps {
            match self.random.below(5) {
                0 => {
                    let lines = self.lines ^ u32::from(REQ);
                    self.drive(lines);
                }
                1 => {
                    let value = self.random.byte();
                    self.write(SCSISIG, value);
                }
                2 => {
                    let value = self.random.byte();
                    self.write(SCSISEQ, value);
                }
                3 => {
                    let count = self.random.below(10);
                    self.ticks(count);
                }
                _ => {
                    let value = self.random.byte();
                    self.write(SXFRCTL0, value);
                }
            }
        }
    }

    /// Quiet ticks below, at and above 8, in one piece or in several.
    pub(super) fn bus_free(&mut self) {
        if self.random.percent(60) {
            let enables = self.random.byte() | BUSFREE;
            self.write(SIMODE1, enables);
        }
        self.release_bus();
        let steps = self.random.between(1, 6);
        for _ in 0..steps {
            let count = self
                .random
                .pick(&[0, 1, 2, 3, 4, 5, 6, 7, 7, 8, 8, 9, 0xFF_FFFF]);
            self.ticks(count);
            self.read(SSTAT1);
            if self.random.percent(20) {
                self.disturb_quiet();
            }
        }
        if self.random.percent(50) {
            self.write(SSTAT1, BUSFREE);
        }
    }

    /// BSY and SEL released, mostly with all other lines.
    fn release_bus(&mut self) {
        match self.random.below(10) {
            0..=5 => self.drive_control(0),
            6 => {
                let left_over = self.random.byte() & (REQ | ACK | IO);
                self.drive_control(left_over);
            }
            _ => {
                // A target that vanishes in the middle of a handshake.
                let lines = self.lines & !u32::from(BSY | SEL);
                self.drive(lines);
            }
        }
    }

    fn disturb_quiet(&mut self) {
        let line = self.random.pick(&[BSY, SEL, BSY | SEL]);
        if self.random.percent(50) {
            self.drive_control(line);
            self.drive_control(0);
        } else {
            self.write(SCSISIG, line | ATN);
            if self.random.percent(70) {
                self.write(SCSISIG, 0);
            }
        }
    }

    /// Phases the target shows against the one expected.
    pub(super) fn phase_changes(&mut self) {
        if self.random.percent(50) {
            let enables = self.random.byte() | PHASECHG | PHASEMIS;
            self.write(SIMODE1, enables);
        }
        let steps = self.random.between(2, 12);
        for _ in 0..steps {
            match self.random.below(5) {
                0 | 1 => {
                    let control = self.random.byte() & (PHASE | REQ) | BSY;
                    self.drive_control(control);
                }
                2 => {
                    let value = self.random.byte() & (PHASE | ACK);
                    self.write(SCSISIG, value);
                }
                3 => {
                    let value = self.random.byte() & (PHASECHG | REQINIT | CLRATNO | PHASEMIS);
                    self.write(SSTAT1, value);
                }
                _ => self.read(SSTAT1),
            }
            self.noise();
        }
    }

    /// Bytes with right and wrong parity, checked or not, with automatic ATN
    /// or not.
    pub(super) fn parity_checks(&mut self) {
        let checking = if self.random.percent(80) { ENSPCHK } else { 0 };
        self.write(SXFRCTL1, checking);
        let automatic = self.random.byte() & ENAUTOATNP;
        self.write(SCSISEQ, automatic);
        let enables = self.random.byte();
        self.write(SIMODE1, enables);
        let phase = self.random.byte() & PHASE | if self.random.percent(85) { IO } else { 0 };
        let steps = self.random.between(2, 10);
        for _ in 0..steps {
            self.drive_control(phase | BSY);
            let right = self.random.percent(50);
            let data = data_lines(self.random.byte(), right);
            self.drive(data | u32::from(phase | BSY | REQ));
            self.read(SSTAT1);
            if self.random.percent(40) {
                let value = self
                    .random
                    .pick(&[SCSIPERR, CLRATNO, SCSIPERR | CLRATNO, 0xFF]);
                self.write(SSTAT1, value);
            }
            if self.random.percent(15) {
                let value = self.random.byte() & ENSPCHK;
                self.write(SXFRCTL1, value);
                self.read(SSTAT1);
            }
            if self.random.percent(25) {
                self.parity_kept(phase);
            }
        }
    }

    /// What the kept parity must outlast, or must not take: an enable that
    /// moves, bytes outbound or unconnected, resets, bus free; then a clear.
    fn parity_kept(&mut self, phase: u8) {
        let data = data_lines(self.random.byte(), self.random.percent(50));
        match self.random.below(6) {
            0 => self.write(SIMODE1, 0),
            1 => self.write(SIMODE1, SCSIPERR),
            2 => self.drive(data | u32::from(phase | REQ)),
            3 => self.drive(data | u32::from(phase & !IO | BSY | REQ)),
            4 => {
                self.drive(RST_LINE | data | u32::from(phase | BSY | REQ));
                self.drive(data | u32::from(phase | BSY | REQ));
            }
            _ => {
                self.drive_control(0);
                self.ticks(8);
            }
        }
        self.write(SSTAT1, SCSIPERR);
        self.read(SSTAT1);
    }

    /// SEL and BSY by others and by 343h, with IDs on the data lines.
    pub(super) fn selection_by_hand(&mut self) {
        let value = self.random.byte();
        self.write(SCSIID, value);
        let value = self.random.byte() & !SCSIRSTO;
        self.write(SCSISEQ, value);
        let steps = self.random.between(2, 10);
        for _ in 0..steps {
            if self.random.percent(50) {
                let control = self.random.byte() & (SEL | BSY | IO | ATN | REQ);
                let data = data_lines(self.random.byte(), true);
                self.drive(data | u32::from(control));
            } else {
                let value = self.random.byte() & (SEL | BSY | ATN);
                self.write(SCSISIG, value);
            }
            let offset = self
                .random
                .pick(&[SCSIID, SCSIBUS, SCSISIG, SSTAT0, SSTAT1]);
            self.read(offset);
            let count = self.random.below(9);
            self.ticks(count);
        }
        self.write(SCSISIG, 0);
        self.write(SSTAT1, CLRATNO);
    }
}
