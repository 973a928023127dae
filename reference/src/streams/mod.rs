//! Event streams by seed: mixes of what drivers, targets and other devices do,
//! with disturbances. The chip runs inside, so that targets can react to ACKs
//! and offsets.

mod benchmarks;
mod latches;
mod pio;
mod probing;
mod runs;
mod selections;
mod starts;

pub use benchmarks::{benchmark_record, Benchmark};
pub use starts::{start, starts};

use crate::chip::Chip;
use crate::random::Random;
use crate::registers::*;
use crate::step;

/// The usual number of events of a stream.
pub const USUAL_LENGTH: usize = 20_000;

/// The stream of a seed: that many records, the last perhaps cut short.
pub fn stream(seed: u64, length: usize) -> Vec<u8> {
    let mut maker = Maker::new(seed, length);
    while !maker.is_full() {
        maker.scenario();
    }
    maker.cut_short();
    maker.records
}

/// Records of each kind.
pub mod records {
    pub const POWER_RESET: u32 = 0;
    pub const WORD_READ: u32 = 4 << 29;

    pub fn write(offset: u8, value: u8) -> u32 {
        1 << 29 | u32::from(offset) << 24 | u32::from(value)
    }

    pub fn read(offset: u8) -> u32 {
        2 << 29 | u32::from(offset) << 24
    }

    pub fn word_write(value: u16) -> u32 {
        3 << 29 | u32::from(value)
    }

    pub fn lines(lines: u32) -> u32 {
        5 << 29 | lines
    }

    pub fn ticks(count: u32) -> u32 {
        6 << 29 | count
    }
}

/// RST among the lines of kind 5; the control lines are the low 8 bits.
const RST_LINE: u32 = 1 << 8;
const PARITY_LINE: u32 = 1 << 9;
const CONTROL_LINES: u32 = 0xFF;

/// A byte on the data lines with its parity, right or wrong.
fn data_lines(byte: u8, right: bool) -> u32 {
    let even = byte.count_ones().is_multiple_of(2);
    u32::from(byte) << 10 | if even == right { PARITY_LINE } else { 0 }
}

struct Maker {
    chip: Chip,
    random: Random,
    records: Vec<u8>,
    length: usize,
    /// What others drive.
    lines: u32,
    answer: [u8; 16],
    /// How often, of a hundred, a disturbance follows a step.
    noise_percent: u32,
}

/// A scenario and its weight in the choice.
type Scenario = (u32, fn(&mut Maker));

const SCENARIOS: &[Scenario] = &[
    (9, Maker::write_run),
    (9, Maker::read_run),
    (6, Maker::stored_up_run),
    (4, Maker::overfull_read),
    (6, Maker::broken_handshake),
    (2, Maker::changing_offset),
    (7, Maker::automatic_pio),
    (5, Maker::manual_pio),
    (6, Maker::bus_reset),
    (6, Maker::bus_free),
    (6, Maker::phase_changes),
    (5, Maker::parity_checks),
    (4, Maker::selection_by_hand),
    (30, Maker::selection),
    (10, Maker::start_up),
    (12, Maker::reselection),
    (6, Maker::long_ticks),
    (6, Maker::interrupt_play),
    (12, Maker::single_interrupt),
    (3, Maker::stack_and_id),
    (2, Maker::counter_bytes),
    (3, Maker::fifo_edges),
    (3, Maker::probe_registers),
    (1, Maker::test_registers),
    (2, Maker::damaged_records),
    (4, Maker::anything),
    (1, Maker::power_reset),
];

impl Maker {
    fn new(seed: u64, length: usize) -> Maker {
        let mut random = Random::new(seed);
        let noise_percent = random.pick(&[0, 0, 2, 5, 15]);
        Maker {
            chip: Chip::new(),
            random,
            records: Vec::with_capacity(length * 4),
            length,
            lines: 0,
            answer: [0; 16],
            noise_percent,
        }
    }

    fn is_full(&self) -> bool {
        self.records.len() >= self.length * 4
    }

    fn scenario(&mut self) {
        if self.random.percent(40) {
            self.clear_interrupts();
        }
        let total: u32 = SCENARIOS.iter().map(|(weight, _)| weight).sum();
        let mut place = self.random.below(total);
        for (weight, scenario) in SCENARIOS {
            if place < *weight {
                return scenario(self);
            }
            place -= weight;
        }
    }

    /// In some streams the last record is a piece of 1 to 3 bytes.
    fn cut_short(&mut self) {
        if self.random.percent(30) && !self.records.is_empty() {
            let kept = self.random.between(1, 3) as usize;
            self.records.truncate(self.records.len() - 4 + kept);
        }
    }

    /// Adds one record and lets the chip answer it; nothing once full.
    fn emit(&mut self, record: u32) {
        if self.is_full() {
            return;
        }
        let bytes = record.to_be_bytes();
        self.records.extend_from_slice(&bytes);
        self.answer = step(&mut self.chip, &bytes);
    }

    fn write(&mut self, offset: u8, value: u8) {
        self.emit(records::write(offset, value));
    }

    fn read(&mut self, offset: u8) {
        self.emit(records::read(offset));
    }

    fn ticks(&mut self, count: u32) {
        self.emit(records::ticks(count));
    }

    /// Sets all the lines that others drive.
    fn drive(&mut self, lines: u32) {
        self.lines = lines;
        self.emit(records::lines(lines));
    }

    /// The target's control lines and no others, data released.
    fn drive_control(&mut self, control: u8) {
        self.drive(u32::from(control));
    }

    fn others_drive(&self, line: u8) -> bool {
        self.lines & u32::from(line) != 0
    }

    // What the last answer shows.

    fn code(&self) -> u8 {
        self.answer[0] >> 5
    }

    fn acknowledged(&self) -> bool {
        self.answer[4] & ACK != 0
    }

    fn offset(&self) -> u8 {
        self.answer[6] >> 4
    }

    // Disturbances.

    /// After a step of a scenario: mostly nothing.
    fn noise(&mut self) {
        if self.random.percent(self.noise_percent) {
            match self.random.below(10) {
                0..=6 => self.gentle_noise(),
                _ => self.harsh_noise(),
            }
        }
    }

    /// What does not disturb a transfer.
    fn gentle_noise(&mut self) {
        match self.random.below(8) {
            0 | 1 => {
                let offset = self.random.below(32) as u8;
                self.read(offset);
            }
            2 => self.random_enables(),
            3 => self.random_clear(),
            4 => {
                let count = self.random.below(12);
                self.ticks(count);
            }
            5 => {
                let value = self.random.byte();
                self.write(DMACNTRL1, value);
                self.read(STACK);
            }
            6 => self.damaged_record(),
            _ => {
                let kept = self.chip.dmacntrl0;
                let value = kept & !(INTEN | SWINT) | self.random.byte() & (INTEN | SWINT);
                self.write(DMACNTRL0, value);
            }
        }
    }

    /// What may change the course of a transfer.
    fn harsh_noise(&mut self) {
        match self.random.below(9) {
            0 => {
                let value = self.random.byte();
                self.write(SCSIRATE, value);
            }
            1 => {
                let value = self.random.byte() & !RSTFIFO;
                self.write(DMACNTRL0, value);
            }
            2 => {
                let value = self.random.byte();
                self.write(SXFRCTL0, value);
            }
            3 => {
                let value = self.random.byte();
                self.write(SCSISIG, value);
            }
            4 => {
                let value = self.random.byte() & 0xFE;
                self.write(SCSISEQ, value);
            }
            5 => {
                let value = self.random.byte();
                self.write(SXFRCTL1, value);
            }
            6 => {
                let flipped = 1 << self.random.below(18);
                let lines = self.lines ^ flipped;
                self.drive(lines);
            }
            7 => {
                let value = self.random.byte();
                self.write(SCSIDAT, value);
                self.read(SCSIDAT);
            }
            _ => self.random_event(),
        }
    }

    /// Clears what earlier scenarios left, so that new rises show in IRQ.
    fn clear_interrupts(&mut self) {
        self.write(SSTAT0, 0xFF);
        self.write(SSTAT1, 0xFF);
        let software = self.random.percent(10);
        let value = self.chip.dmacntrl0 & !SWINT | INTEN | if software { SWINT } else { 0 };
        self.write(DMACNTRL0, value);
        self.read(DMASTAT);
    }

    fn random_enables(&mut self) {
        let value = if self.random.percent(30) {
            0xFF
        } else {
            self.random.byte()
        };
        let offset = self.random.pick(&[SIMODE0, SIMODE1, SIMODE1]);
        self.write(offset, value);
    }

    fn random_clear(&mut self) {
        let value = if self.random.percent(30) {
            0xFF
        } else {
            self.random.byte()
        };
        let offset = self.random.pick(&[SSTAT0, SSTAT1, SSTAT1, SSTAT4]);
        self.write(offset, value);
    }
}
