//! A chip in each phase of the sequencer, and the bits of request R-1.

use super::{Bench, Fields, IO, SEL};
use reference::sequencer::Phase;

pub const TEMODEO: u32 = 0x80;
pub const ENSELO: u32 = 0x40;
pub const ENSELI: u32 = 0x20;
pub const ENRESELI: u32 = 0x10;
pub const ENAUTOATNO: u32 = 0x08;
pub const ENAUTOATNI: u32 = 0x04;

pub const ENSTIMER: u32 = 0x04;

pub const SELDO: u16 = 0x40;
pub const SELDI: u16 = 0x20;
pub const SELINGO: u16 = 0x10;
pub const SELTO: u16 = 0x80;
pub const BUSFREE: u16 = 0x08;

pub const TIMEOUTS: [u32; 4] = [5_120_000, 2_560_000, 1_280_000, 640_000];

pub const PHASES: [Phase; 8] = [
    Phase::Idle,
    Phase::Waiting,
    Phase::Arbitrating,
    Phase::Clearing,
    Phase::Selecting,
    Phase::Holding,
    Phase::Answering,
    Phase::Answered,
];

/// What a test of the sequencer looks at.
pub trait Look {
    fn phase(&self) -> Phase;
    fn status0(&mut self) -> u16;
    fn status1(&mut self) -> u16;
}

impl Look for Bench {
    fn phase(&self) -> Phase {
        self.chip.sequencer.phase
    }

    fn status0(&mut self) -> u16 {
        self.read(0x34B)
    }

    fn status1(&mut self) -> u16 {
        self.read(0x34C)
    }
}

/// A chip with ID 6 on a free bus, the target's ID 2.
pub fn free_bus() -> Bench {
    let mut bench = Bench::new();
    bench.write(0x345, 0x62);
    bench.ticks(8);
    bench.write(0x34C, 0x08);
    bench
}

/// The same with IDs and settings of the test, and ENSELO written.
pub fn asked(ids: u32, timer: u32, sequence: u32) -> Bench {
    let mut bench = free_bus();
    bench.write(0x345, ids);
    bench.write(0x342, timer);
    bench.write(0x340, ENSELO | sequence);
    bench
}

pub fn selecting(timer: u32) -> Bench {
    let mut bench = asked(0x62, timer, 0);
    bench.ticks(88);
    assert_eq!(bench.phase(), Phase::Selecting);
    bench
}

pub fn holding() -> Bench {
    let mut bench = selecting(ENSTIMER | 0x18);
    bench.ticks(640_000);
    assert_eq!(bench.phase(), Phase::Holding);
    bench
}

/// A target with ID 2 that calls ID 6.
pub fn call(bench: &mut Bench) -> Fields {
    bench.data_lines(0x44, 1, SEL | IO)
}

pub fn answered(sequence: u32) -> Bench {
    let mut bench = free_bus();
    bench.write(0x340, ENRESELI | sequence);
    call(&mut bench);
    bench.ticks(8);
    assert_eq!(bench.phase(), Phase::Answered);
    bench
}

/// A chip in that phase.
pub fn at(phase: Phase) -> Bench {
    let bench = match phase {
        Phase::Idle => free_bus(),
        Phase::Waiting => asked(0x62, 0, 0),
        Phase::Arbitrating => {
            let mut bench = asked(0x62, 0, 0);
            bench.ticks(16);
            bench
        }
        Phase::Clearing => {
            let mut bench = asked(0x62, 0, 0);
            bench.ticks(64);
            bench
        }
        Phase::Selecting => selecting(0),
        Phase::Holding => holding(),
        Phase::Answering => {
            let mut bench = free_bus();
            bench.write(0x340, ENRESELI);
            call(&mut bench);
            bench
        }
        Phase::Answered => answered(0),
    };
    assert_eq!(bench.phase(), phase);
    bench
}
