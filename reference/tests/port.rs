//! The data port 356h: codes 3, 4 and 5, widths and byte order.

mod common;

use common::*;

const BYTE_WRITE: u32 = 1 << 29 | 0x16 << 24 | 0x5A;
const BYTE_READ: u32 = 2 << 29 | 0x16 << 24;
const WORD_WRITE: u32 = 3 << 29 | 0x5AA5;
const WORD_READ: u32 = 4 << 29;

/// Code 3: "ENDMA 0, DMA/PIO 1, width or direction wrong"; "all ones of the
/// width on read, 0 on write".
#[test]
fn the_port_is_open_for_one_access_only() {
    for control in 0..=0xFF_u32 {
        if control & 0x02 != 0 {
            continue; // RSTFIFO is not kept
        }
        let open = match control & 0xE8 {
            0xC8 => Some(BYTE_WRITE),
            0xC0 => Some(BYTE_READ),
            0x88 => Some(WORD_WRITE),
            0x80 => Some(WORD_READ),
            _ => None,
        };
        let values = [
            (BYTE_WRITE, 0),
            (BYTE_READ, 0xFF),
            (WORD_WRITE, 0),
            (WORD_READ, 0xFFFF),
        ];
        for (record, value) in values {
            let mut bench = Bench::new();
            bench.write(0x352, 0xC8);
            bench.write(0x356, 1);
            bench.write(0x356, 2);
            bench.write(0x352, control);
            if open == Some(record) {
                assert_eq!(
                    bench.send(record).code,
                    0,
                    "{record:08X} with {control:02X}h"
                );
            } else {
                bench.refused(record, 3, value);
            }
        }
    }
}

/// Code 4: "write and host FIFO lacks room for the whole access".
#[test]
fn a_full_host_fifo_takes_nothing() {
    let mut bench = Bench::new();
    bench.write(0x352, 0x88);
    for count in 1..=64 {
        assert_eq!(bench.word_write(0x0000).host_fifo, 2 * count);
    }
    bench.refused(WORD_WRITE, 4, 0);
    bench.write(0x352, 0xC8);
    bench.refused(BYTE_WRITE, 4, 0);
}

/// At 127 a byte still has room.
#[test]
fn a_byte_fits_where_a_word_does_not() {
    let mut bench = Bench::new();
    bench.write(0x352, 0xC8);
    for _ in 0..127 {
        bench.write(0x356, 0);
    }
    bench.write(0x352, 0x88);
    bench.refused(WORD_WRITE, 4, 0);
    bench.write(0x352, 0xC8);
    assert_eq!(bench.write(0x356, 0).host_fifo, 128);
}

/// Code 5: "read and host FIFO lacks the whole access": "all ones of the width".
#[test]
fn a_read_needs_the_whole_access() {
    let mut bench = Bench::new();
    bench.write(0x352, 0xC0);
    bench.refused(BYTE_READ, 5, 0xFF);
    bench.write(0x352, 0x80);
    bench.refused(WORD_READ, 5, 0xFFFF);
    bench.write(0x352, 0xC8);
    bench.write(0x356, 0x77);
    bench.write(0x352, 0x80);
    bench.refused(WORD_READ, 5, 0xFFFF);
    bench.write(0x352, 0xC0);
    assert_eq!(bench.read(0x356), 0x77);
}

/// Code 3 is looked at before 4 and 5.
#[test]
fn shut_comes_before_full_and_empty() {
    let mut bench = Bench::new();
    bench.write(0x352, 0x88);
    for _ in 0..64 {
        bench.word_write(0);
    }
    bench.refused(BYTE_WRITE, 3, 0);
    let mut bench = Bench::new();
    bench.write(0x352, 0xC0);
    bench.refused(WORD_READ, 3, 0xFFFF);
}

/// "A word's low byte comes first."
#[test]
fn words_and_bytes_in_order() {
    let mut bench = Bench::new();
    bench.write(0x352, 0x88);
    bench.word_write(0x4241);
    bench.word_write(0x4443);
    bench.write(0x352, 0xC0);
    assert_eq!(bench.read(0x356), 0x41);
    bench.write(0x352, 0x80);
    assert_eq!(bench.word_read().value, 0x4342);
    bench.write(0x352, 0xC0);
    assert_eq!(bench.read(0x356), 0x44);
}

/// "RSTFIFO empties the host FIFO".
#[test]
fn rstfifo_empties_the_host_fifo() {
    let mut bench = Bench::new();
    bench.write(0x352, 0x88);
    bench.word_write(0x4241);
    let answer = bench.write(0x352, 0x8A);
    assert_eq!(answer.host_fifo, 0);
    assert_eq!(bench.word_write(0x4241).host_fifo, 2);
}

/// The ring goes round many times without loss.
#[test]
fn long_use_keeps_the_order() {
    let mut bench = Bench::new();
    for round in 0..50 {
        bench.write(0x352, 0xC8);
        for place in 0..100 {
            bench.write(0x356, (round * 7 + place) & 0xFF);
        }
        bench.write(0x352, 0xC0);
        for place in 0..100 {
            assert_eq!(u32::from(bench.read(0x356)), (round * 7 + place) & 0xFF);
        }
    }
}
