//! Registers, interrupts, stack and ID, damaged records, and events at random.

use super::{data_lines, records, Maker};
use crate::registers::*;

impl Maker {
    /// Every offset in both directions, in a turned order.
    pub(super) fn probe_registers(&mut self) {
        let turn = self.random.below(32) as u8;
        let reading_first = self.random.percent(50);
        for place in 0..32 {
            let offset = (place * 5 + turn) & 31;
            let value = self.random.byte();
            if reading_first {
                self.read(offset);
            }
            // RST held for long would leave little to see.
            self.write(
                offset,
                if offset == SCSISEQ {
                    value & !SCSIRSTO
                } else {
                    value
                },
            );
            self.read(offset);
        }
    }

    pub(super) fn test_registers(&mut self) {
        for _ in 0..6 {
            let value = if self.random.percent(40) {
                0
            } else {
                self.random.byte()
            };
            let offset = self.random.pick(&[SSTAT3, TEST]);
            self.write(offset, value);
            self.read(offset);
        }
    }

    pub(super) fn counter_bytes(&mut self) {
        for _ in 0..6 {
            let value = self.random.byte();
            let offset = self.random.pick(&[STCNT0, STCNT1, STCNT2]);
            self.write(offset, value);
            let offset = self.random.pick(&[STCNT0, STCNT1, STCNT2]);
            self.read(offset);
        }
        if self.random.percent(30) {
            self.write(SXFRCTL0, CHEN | CLRSTCNT);
            self.read(STCNT0);
        }
    }

    /// Enabling, masking and clearing while statuses come and stay.
    pub(super) fn interrupt_play(&mut self) {
        let steps = self.random.between(4, 20);
        for _ in 0..steps {
            match self.random.below(8) {
                0 | 1 => self.random_enables(),
                2 => self.random_clear(),
                3 => {
                    let kept = self.chip.dmacntrl0 & !(INTEN | SWINT);
                    let value = kept | self.random.byte() & (INTEN | SWINT);
                    self.write(DMACNTRL0, value);
                }
                4 => self.read(DMASTAT),
                5 => {
                    let lines = self.lines ^ u32::from(REQ);
                    self.drive(lines);
                }
                6 => {
                    let offset = self
                        .random
                        .pick(&[SSTAT0, SSTAT1, SIMODE0, SIMODE1, DMACNTRL0]);
                    self.read(offset);
                }
                _ => {
                    let control = self.random.byte() & (PHASE | REQ) | BSY;
                    self.drive_control(control);
                }
            }
        }
    }

    /// Stack accesses over both ends, ENSTK32 off and on, and the ID string.
    pub(super) fn stack_and_id(&mut self) {
        let pointer = self.random.pick(&[0, 14, 15, 16, 30, 31, 7]);
        let size = self.random.byte() & ENSTK32;
        self.write(DMACNTRL1, pointer | size);
        let steps = self.random.between(2, 36);
        for _ in 0..steps {
            match self.random.below(16) {
                0 => {
                    let value = self.random.byte();
                    self.write(DMACNTRL1, value);
                }
                1 => self.read(DMACNTRL1),
                2..=8 => {
                    let value = self.random.byte();
                    self.write(STACK, value);
                }
                _ => self.read(STACK),
            }
        }
        let reads = self.random.below(36);
        for _ in 0..reads {
            self.read(ID);
        }
    }

    pub(super) fn damaged_records(&mut self) {
        for _ in 0..8 {
            self.damaged_record();
        }
    }

    /// Kind 7, unused bits set, or an offset where none is allowed.
    pub(super) fn damaged_record(&mut self) {
        let kind = self.random.below(8);
        let offset = self.random.below(32) << 24;
        let payload = (self.random.number() & 0xFF_FFFF) as u32;
        let one_bit = 1 << self.random.below(24);
        let record = match self.random.below(4) {
            0 => 7 << 29 | offset | payload,
            1 => kind << 29 | offset,
            2 => kind << 29 | offset | one_bit,
            _ => kind << 29 | one_bit,
        };
        self.emit(record);
        self.follow_lines();
    }

    /// Events of every kind with random contents.
    pub(super) fn anything(&mut self) {
        let steps = self.random.between(10, 80);
        for _ in 0..steps {
            self.random_event();
        }
    }

    pub(super) fn random_event(&mut self) {
        let offset = self.random.below(32) as u8;
        let value = self.random.byte();
        match self.random.below(12) {
            0..=3 => self.write(offset, value),
            4..=5 => self.read(offset),
            6 => {
                let inbound = self.random.percent(50);
                let eight_bit = self.random.percent(50);
                self.port_access(inbound, eight_bit);
            }
            7..=9 => {
                let right = self.random.percent(70);
                let control = self.random.byte() | if self.random.percent(60) { BSY } else { 0 };
                let control = if self.random.percent(70) {
                    control & !SEL
                } else {
                    control
                };
                self.drive(data_lines(value, right) | u32::from(control));
            }
            10 => {
                let count = self.random.below(10);
                self.ticks(count);
            }
            _ => {
                let record = self.random.number() as u32;
                self.emit(record);
                self.follow_lines();
            }
        }
    }

    pub(super) fn power_reset(&mut self) {
        self.emit(records::POWER_RESET);
        self.follow_lines();
        if self.random.percent(50) {
            let count = self.random.pick(&[7, 8, 9]);
            self.ticks(count);
        }
    }

    /// After a record made of bits, what others drive may be anything.
    fn follow_lines(&mut self) {
        let others = self.chip.others;
        self.lines = u32::from(others.data) << 10
            | u32::from(others.parity) << 9
            | u32::from(others.reset) << 8
            | u32::from(others.control);
    }
}
