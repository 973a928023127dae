//! Code 1: "record not 4 bytes or not well formed".

mod common;

use common::*;
use reference::{step, Chip};

#[test]
fn a_record_of_another_length_gives_1() {
    let mut chip = Chip::new();
    for length in [0, 1, 2, 3, 5, 8] {
        let answer = step(&mut chip, &vec![0; length]);
        assert_eq!(fields(answer).code, 1, "{length} bytes");
    }
    assert!(chip == Chip::new());
}

/// "Unused bits, and the offset except in kinds 1 and 2, are 0."
#[test]
fn every_unused_bit_set_gives_1() {
    let unused: [(u32, u32); 7] = [
        (0, 0x1FFF_FFFF), // power reset: all
        (1, 0x00FF_FF00), // register write: above the 8 bits
        (2, 0x00FF_FFFF), // register read: payload
        (3, 0x1FFF_0000), // word write: offset and above the 16 bits
        (4, 0x1FFF_FFFF), // word read: all
        (5, 0x1FFC_0000), // lines: offset and above the 18 bits
        (6, 0x1F00_0000), // ticks: offset
    ];
    for (kind, mask) in unused {
        for bit in 0..29 {
            let mut bench = Bench::new();
            let record = kind << 29 | 1 << bit;
            if mask >> bit & 1 == 1 {
                bench.refused(record, 1, 0);
            } else {
                assert_ne!(bench.send(record).code, 1, "record {record:08X}");
            }
        }
    }
}

/// "the other fields show the unchanged state".
#[test]
fn a_bad_record_shows_the_state_as_it_is() {
    let mut bench = Bench::write_run(0);
    bench.word_write(0x4241);
    let shown = bench.lines(BSY | REQ);
    let answer = bench.send(0xE000_0000);
    assert_eq!(answer.code, 1);
    assert_eq!((answer.acks, answer.moves, answer.sent), (0, 0, [0; 8]));
    assert_eq!(
        (
            answer.control,
            answer.data,
            answer.data_driven,
            answer.parity,
            answer.scsi_fifo
        ),
        (
            shown.control,
            shown.data,
            shown.data_driven,
            shown.parity,
            shown.scsi_fifo
        )
    );
    assert_eq!((answer.control, answer.data), (0x01, 0x41));
}

/// A refused record is no event: REQ still rises later.
#[test]
fn a_refused_record_leaves_edges_to_come() {
    let mut bench = Bench::new();
    bench.refused(0xA100_0002, 1, 0);
    bench.lines(REQ);
    assert_eq!(bench.read(0x34C), 0x01);
}

/// "Power reset: everything 0 and empty, all lines released, those others
/// drive included."
#[test]
fn power_reset_zeroes_everything() {
    let mut bench = Bench::write_run(8);
    bench.word_write(0x4241);
    bench.write(0x340, 0xFF);
    bench.write(0x353, 0x45);
    bench.write(0x35D, 0x77);
    bench.data_lines(0xFF, 1, 0xFF);
    let answer = bench.send(0);
    assert_eq!(answer, fields([0; 16]));
    assert_eq!(bench.read(0x343), 0);
    assert_eq!(bench.read(0x35F), 0x28);
    for address in [0x340, 0x341, 0x34C, 0x351, 0x352, 0x353, 0x355, 0x35D] {
        assert_eq!(bench.read(address), 0, "{address:03X}h");
    }
}
