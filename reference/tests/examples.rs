//! The marked examples (P) of document 01.

mod common;

use common::*;
use reference::hex::text;
use reference::{step, Chip};

#[test]
fn the_seven_lines_from_power_reset() {
    let mut chip = Chip::new();
    for (record, printed) in [
        (0x0000_0000_u32, "00000000000000000000000000000000"),
        (0x3200_0088, "00000000000000000000000000000000"),
        (0x2100_00E0, "00000000000000000000000000000000"),
        (0x6000_4241, "00100000000002000000000000000000"),
        (0xA000_0006, "01050000014101004100000000000000"),
        (0xA000_0004, "00000000000001000000000000000000"),
        (0x4800_0000, "00000001000001000000000000000000"),
    ] {
        assert_eq!(
            text(&step(&mut chip, &record.to_be_bytes())),
            printed,
            "{record:08X}"
        );
    }
}

/// "host FIFO at 126 takes a word, at 127 gives 4".
#[test]
fn host_fifo_at_126_takes_a_word_at_127_gives_4() {
    let mut bench = Bench::new();
    bench.write(0x352, 0xC8);
    for byte in 0..126 {
        bench.write(0x356, byte);
    }
    bench.write(0x352, 0x88);
    let answer = bench.word_write(0x1234);
    assert_eq!((answer.code, answer.host_fifo), (0, 128));

    let mut bench = Bench::new();
    bench.write(0x352, 0xC8);
    for byte in 0..127 {
        bench.write(0x356, byte);
    }
    bench.write(0x352, 0x88);
    bench.refused(0x6000_1234, 4, 0);
    assert_eq!(bench.read(0x355), 127);
}

/// "7 ticks leave BUSFREE clear, 8 set it".
#[test]
fn seven_ticks_leave_busfree_clear_eight_set_it() {
    let mut bench = Bench::new();
    bench.ticks(7);
    assert_eq!(bench.read(0x34C), 0x00);
    bench.ticks(1);
    assert_eq!(bench.read(0x34C), 0x08);
    let mut bench = Bench::new();
    bench.ticks(8);
    assert_eq!(bench.read(0x34C), 0x08);
}

/// "kind 7 gives 1".
#[test]
fn kind_seven_gives_1() {
    let mut bench = Bench::new();
    bench.refused(0xE000_0000, 1, 0);
    bench.refused(0xFFFF_FFFF, 1, 0);
}

/// "stack place 15 goes to 0 without ENSTK32, to 16 with it".
#[test]
fn stack_place_15_goes_to_0_or_to_16() {
    let mut bench = Bench::new();
    bench.write(0x353, 0x0F);
    bench.write(0x35D, 0xA5);
    assert_eq!(bench.read(0x353), 0x00);
    bench.write(0x353, 0x4F);
    assert_eq!(bench.read(0x35D), 0xA5);
    assert_eq!(bench.read(0x353), 0x50);
}
