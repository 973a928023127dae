//! One interrupt at a time, all others masked, so that its latch alone decides
//! IRQ: rises, falls, enables, masks and clears in any order.

use super::{data_lines, Maker, RST_LINE};
use crate::registers::*;
use crate::sequencer::Phase;

/// A latched status: the offset of its enable and its bit.
#[derive(Clone, Copy)]
struct Source {
    enable: u8,
    bit: u8,
}

const SOURCES: [Source; 11] = [
    Source {
        enable: SIMODE0,
        bit: SPIORDY,
    },
    Source {
        enable: SIMODE0,
        bit: SPIORDY,
    },
    Source {
        enable: SIMODE0,
        bit: SELDO,
    },
    Source {
        enable: SIMODE0,
        bit: SELDI,
    },
    Source {
        enable: SIMODE0,
        bit: SELINGO,
    },
    Source {
        enable: SIMODE1,
        bit: SELTO,
    },
    Source {
        enable: SIMODE1,
        bit: SCSIRSTI,
    },
    Source {
        enable: SIMODE1,
        bit: BUSFREE,
    },
    Source {
        enable: SIMODE1,
        bit: SCSIPERR,
    },
    Source {
        enable: SIMODE1,
        bit: PHASECHG,
    },
    Source {
        enable: SIMODE1,
        bit: REQINIT,
    },
];

impl Maker {
    pub(super) fn single_interrupt(&mut self) {
        let source = self.random.pick(&SOURCES);
        self.write(SIMODE0, 0);
        self.write(SIMODE1, 0);
        self.write(SSTAT0, 0xFF);
        self.write(SSTAT1, 0xFF);
        let control = self.chip.dmacntrl0 & !SWINT | INTEN;
        self.write(DMACNTRL0, control);
        let steps = self.random.between(6, 20);
        for _ in 0..steps {
            self.latch_step(source);
        }
    }

    fn latch_step(&mut self, source: Source) {
        match self.random.below(9) {
            0 | 1 => self.write(source.enable, source.bit),
            2 => {
                // Enables of statuses that no rule raises.
                let unruled = if source.enable == SIMODE0 { 0x8D } else { 0x40 };
                let others = self.random.byte() & unruled;
                self.write(source.enable, others);
            }
            3..=5 => self.raise_source(source),
            6 => self.lower_source(source),
            7 => {
                let clear = if source.enable == SIMODE0 {
                    SSTAT0
                } else {
                    SSTAT1
                };
                let value = if self.random.percent(70) {
                    source.bit
                } else {
                    !source.bit
                };
                self.write(clear, value);
            }
            _ => self.read(DMASTAT),
        }
    }

    fn raise_source(&mut self, source: Source) {
        match (source.enable, source.bit) {
            (SIMODE0, SPIORDY) => self.raise_pio_ready(),
            (SIMODE0, SELDO) => {
                self.release();
                self.bring_to(Phase::Selecting);
                self.drive_control(BSY);
            }
            (SIMODE0, SELDI) => {
                self.release();
                self.bring_to(Phase::Answered);
            }
            (SIMODE0, _) => {
                self.release();
                self.bring_to(Phase::Clearing);
                self.ticks(24);
            }
            (_, SELTO) => self.raise_timeout(),
            (_, SCSIRSTI) => {
                self.drive(RST_LINE);
                self.drive(0);
            }
            (_, BUSFREE) => {
                self.drive_control(BSY);
                self.drive_control(0);
                self.ticks(8);
            }
            (_, SCSIPERR) => {
                self.write(SXFRCTL1, ENSPCHK);
                self.drive_control(IO | BSY);
                let data = data_lines(self.random.byte(), false);
                self.drive(data | u32::from(IO | BSY | REQ));
            }
            (_, PHASECHG) => {
                let phase = self.random.byte() & PHASE;
                self.drive_control(phase | BSY);
                self.write(SCSISIG, phase);
                self.drive_control(phase ^ CD | BSY);
            }
            _ => {
                self.drive_control(BSY);
                self.drive_control(BSY | REQ);
            }
        }
    }

    /// A bus on which nobody drives anything, 343h included.
    fn release(&mut self) {
        self.write(SCSISEQ, 0);
        self.write(SCSISIG, 0);
        self.drive(0);
    }

    fn raise_timeout(&mut self) {
        let code = self.random.byte() & STIMESEL;
        self.release();
        self.write(SXFRCTL1, ENSTIMER | code);
        self.bring_to(Phase::Selecting);
        let count = self.random.pick(&[639_999, 640_000, 5_120_000, 0xFF_FFFF]);
        self.ticks(count);
    }

    fn raise_pio_ready(&mut self) {
        self.write(SXFRCTL0, SPIOEN | CHEN);
        self.write(SCSISIG, 0);
        self.drive_control(BSY);
        self.drive_control(BSY | REQ);
    }

    /// The status falls by other means than its clear.
    fn lower_source(&mut self, source: Source) {
        match (source.enable, source.bit) {
            (SIMODE0, SPIORDY) => {
                let value = self.random.byte();
                self.write(SCSIDAT, value);
            }
            (SIMODE0, SELINGO) => self.drive_control(BSY),
            (SIMODE0, _) => {
                // SELDI needs its note first, and that clears the latch too.
                let noted = if self.random.percent(70) {
                    source.bit
                } else {
                    0
                };
                self.write(SSTAT0, noted & SELDI);
                self.drive(0);
                self.ticks(8);
            }
            (_, SCSIPERR) => self.write(SXFRCTL1, 0),
            (_, REQINIT) => self.drive_control(BSY | ACK),
            _ => self.drive_control(BSY),
        }
    }
}
