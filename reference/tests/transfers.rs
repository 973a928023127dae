//! Normal mode: moves, handshakes, offsets, code 6, SYNCERR; and Automatic PIO.

mod common;

use common::*;

/// "Asynchronous: REQ seen, automatic ACK off; ... outbound needs a byte held
/// and sends the oldest; ACK on"; "REQ falls: automatic ACK is released."
#[test]
fn asynchronous_write_one_byte_per_req() {
    let mut bench = Bench::write_run(0);
    let answer = bench.word_write(0x4241);
    assert_eq!((answer.moves, answer.acks, answer.scsi_fifo), (2, 0, 2));
    let answer = bench.lines(BSY | REQ);
    assert_eq!((answer.acks, answer.control, answer.data), (1, 0x01, 0x41));
    assert_eq!(answer.sent, [0x41, 0, 0, 0, 0, 0, 0, 0]);
    // ACK stands: nothing more is sent while REQ stays.
    let answer = bench.ticks(1);
    assert_eq!((answer.acks, answer.control, answer.data), (0, 0x01, 0x41));
    let answer = bench.lines(BSY);
    assert_eq!(
        (answer.acks, answer.control, answer.data_driven),
        (0, 0x00, false)
    );
    let answer = bench.lines(BSY | REQ);
    assert_eq!((answer.acks, answer.sent[0]), (1, 0x42));
    assert_eq!(bench.counter(), 2);
}

/// A REQ that waits for a byte is served by the port write.
#[test]
fn asynchronous_write_waits_for_a_byte() {
    let mut bench = Bench::write_run(0);
    let answer = bench.lines(BSY | REQ);
    assert_eq!((answer.acks, answer.control), (0, 0x00));
    let answer = bench.word_write(0x4241);
    assert_eq!(
        (answer.acks, answer.moves, answer.scsi_fifo, answer.sent[0]),
        (1, 2, 1, 0x41)
    );
}

/// "inbound needs fewer than 8 bytes held and stores the data seen".
#[test]
fn asynchronous_read_fills_both_fifos() {
    let mut bench = Bench::read_run(0);
    for byte in 0..136 {
        let answer = bench.inbound_pulse(byte & 0xFF);
        assert_eq!((answer.code, answer.acks), (0, 1), "byte {byte}");
    }
    let answer = bench.inbound_pulse(0x99);
    assert_eq!(
        (answer.acks, answer.scsi_fifo, answer.host_fifo),
        (0, 8, 128)
    );
    assert_eq!(bench.counter(), 136);
    let answer = bench.try_read(0x356);
    assert_eq!(
        (
            answer.value,
            answer.moves,
            answer.scsi_fifo,
            answer.host_fifo
        ),
        (0, 1, 7, 128)
    );
    for byte in 1..136 {
        assert_eq!(u32::from(bench.read(0x356)), byte);
    }
    assert_eq!(bench.try_read(0x356).code, 5);
}

/// "Synchronous: offset above 0; outbound needs a byte held and sends the
/// oldest; ... offset goes down one, and the ACK pulse is over within the event."
#[test]
fn synchronous_write_counts_offsets() {
    let mut bench = Bench::write_run(3);
    for offset in 1..=3 {
        assert_eq!(bench.lines(BSY | REQ).offset, offset);
        assert_eq!(bench.lines(BSY).offset, offset);
    }
    // "with offset at or above the limit ... code 6, ... offset as before"
    let answer = bench.lines(BSY | REQ);
    assert_eq!((answer.code, answer.offset, answer.acks), (6, 3, 0));
    let answer = bench.word_write(0x4241);
    assert_eq!(
        (answer.acks, answer.moves, answer.offset, answer.control),
        (2, 2, 1, 0)
    );
    assert_eq!(answer.sent, [0x41, 0x42, 0, 0, 0, 0, 0, 0]);
    assert!(!answer.data_driven);
    assert_eq!(bench.counter(), 2);
}

/// "limit = smaller of SOFS and 8".
#[test]
fn the_limit_is_at_most_8() {
    let mut bench = Bench::write_run(15);
    for offset in 1..=8 {
        assert_eq!(bench.lines(BSY | REQ).offset, offset);
        bench.lines(BSY);
    }
    let answer = bench.lines(BSY | REQ);
    assert_eq!((answer.code, answer.offset), (6, 8));
}

/// "The offset never exceeds SOFS: false if SOFS is lowered".
#[test]
fn sofs_lowered_leaves_the_offset() {
    let mut bench = Bench::write_run(8);
    for _ in 0..5 {
        bench.lines(BSY | REQ);
        bench.lines(BSY);
    }
    assert_eq!(bench.write(0x344, 2).offset, 5);
    assert_eq!(bench.lines(BSY | REQ).code, 6);
}

/// Code 6: REQINIT and the parity check still happen.
#[test]
fn beyond_the_limit_still_sets_reqinit() {
    let mut bench = Bench::write_run(1);
    bench.lines(BSY | REQ);
    bench.lines(BSY);
    bench.write(0x34C, 0x01);
    assert_eq!(bench.lines(BSY | REQ).code, 6);
    assert_eq!(bench.read(0x34C), 0x01);
}

/// Eight REQs and sixteen bytes stored up, then let go: 8 ACKs and 16 moves.
#[test]
fn eight_acks_and_sixteen_moves_in_one_event() {
    let mut bench = Bench::write_run(8);
    for _ in 0..8 {
        bench.lines(BSY | REQ);
        bench.lines(BSY);
    }
    bench.write(0x341, 0x20);
    for word in 0..9 {
        assert_eq!(bench.word_write(word * 0x0202 + 0x0201).moves, 0);
    }
    let answer = bench.write(0x341, 0xE0);
    assert_eq!((answer.acks, answer.moves, answer.offset), (8, 16, 0));
    assert_eq!((answer.scsi_fifo, answer.host_fifo), (8, 2));
    assert_eq!(answer.sent, [1, 2, 3, 4, 5, 6, 7, 8]);
}

/// A byte is "stored" at REQ, moved, and then acknowledged: "inbound needs
/// offset above the SCSI FIFO count".
#[test]
fn synchronous_read() {
    let mut bench = Bench::read_run(4);
    let answer = bench.inbound_pulse(0xA1);
    assert_eq!(
        (answer.acks, answer.moves, answer.offset, answer.host_fifo),
        (1, 1, 0, 1)
    );
    assert_eq!(answer.sent, [0; 8]);
    bench.write(0x341, 0x60);
    let answer = bench.inbound_pulse(0xA2);
    assert_eq!(
        (answer.acks, answer.moves, answer.offset, answer.host_fifo),
        (0, 1, 1, 2)
    );
    let answer = bench.write(0x341, 0xE0);
    assert_eq!((answer.acks, answer.offset), (1, 0));
    assert_eq!(bench.read(0x356), 0xA1);
    assert_eq!(bench.read(0x356), 0xA2);
}

/// With the host FIFO full, bytes held hold the ACKs back.
#[test]
fn synchronous_read_with_full_host_fifo() {
    let mut bench = Bench::read_run(8);
    for byte in 0..128 {
        bench.inbound_pulse(byte);
    }
    for held in 1..=8 {
        let answer = bench.inbound_pulse(0x40 + u32::from(held));
        assert_eq!(
            (answer.acks, answer.offset, answer.scsi_fifo),
            (0, held, held)
        );
    }
    assert_eq!(bench.inbound_pulse(0x77).code, 6);
    let answer = bench.try_read(0x356);
    assert_eq!(
        (answer.moves, answer.acks, answer.offset, answer.scsi_fifo),
        (1, 1, 7, 7)
    );
}

/// "IO seen and the SCSI FIFO holding 8, code 6, nothing stored".
#[test]
fn code_6_by_a_full_scsi_fifo() {
    let mut bench = Bench::read_run(0);
    for byte in 0..136 {
        bench.inbound_pulse(byte & 0xFF);
    }
    bench.write(0x344, 8);
    let answer = bench.inbound_pulse(0x55);
    assert_eq!((answer.code, answer.offset, answer.scsi_fifo), (6, 0, 8));
    assert_eq!(bench.read(0x34F), 0x00);
}

/// "inbound with offset 0 and the SCSI FIFO not empty sets SYNCERR".
#[test]
fn syncerr() {
    let mut bench = Bench::read_run(0);
    for byte in 0..129 {
        bench.inbound_pulse(byte & 0xFF);
    }
    bench.write(0x344, 8);
    let answer = bench.inbound_pulse(0x55);
    assert_eq!((answer.code, answer.offset, answer.scsi_fifo), (0, 1, 2));
    assert_eq!(bench.read(0x34F), 0x04);
    bench.write(0x34F, 0x03);
    assert_eq!(bench.read(0x34F), 0x04);
    bench.write(0x34F, 0x04);
    assert_eq!(bench.read(0x34F), 0x00);
    // With the offset above 0 there is no further error.
    bench.inbound_pulse(0x56);
    assert_eq!(bench.read(0x34F), 0x00);
}

/// "Synchronous: SOFS not 0, CD and MSG not seen": other phases stay
/// asynchronous.
#[test]
fn command_phase_is_asynchronous() {
    let mut bench = Bench::write_run(8);
    bench.write(0x343, 0x80);
    bench.word_write(0x4241);
    let answer = bench.lines(BSY | CD | REQ);
    assert_eq!(
        (answer.acks, answer.control, answer.offset, answer.sent[0]),
        (1, 0x01, 0, 0x41)
    );
}

/// "Handshake, if SCSIEN, path, matched."
#[test]
fn what_a_handshake_needs() {
    // No SCSIEN.
    let mut bench = Bench::write_run(0);
    bench.write(0x341, 0x60);
    bench.word_write(0x4241);
    assert_eq!(bench.lines(BSY | REQ).acks, 0);
    assert_eq!(bench.write(0x341, 0xE0).acks, 1);
    // Not matched.
    let mut bench = Bench::write_run(0);
    bench.word_write(0x4241);
    assert_eq!(bench.lines(BSY | CD | REQ).acks, 0);
    assert_eq!(bench.write(0x343, 0x80).acks, 1);
    // Not connected: SEL or RST seen, or BSY not.
    for lines in [REQ, BSY | SEL | REQ, BSY | RST | REQ] {
        let mut bench = Bench::write_run(0);
        bench.word_write(0x4241);
        assert_eq!(bench.lines(lines).acks, 0);
    }
    // No path: SPIOEN too, or WRITE equal to IOEXP.
    let mut bench = Bench::write_run(0);
    bench.write(0x341, 0xE8);
    let answer = bench.word_write(0x4241);
    assert_eq!((answer.moves, answer.host_fifo), (0, 2));
    assert_eq!(bench.lines(BSY | REQ).acks, 0);
    assert_eq!(bench.read(0x34F), 0x00);
}

/// "Each ACK adds one to the counter, modulo 16,777,216".
#[test]
fn the_counter_wraps() {
    let mut bench = Bench::write_run(8);
    for address in [0x348, 0x349, 0x34A] {
        bench.write(address, 0xFF);
    }
    assert_eq!(bench.counter(), 16_777_215);
    bench.word_write(0x4241);
    bench.lines(BSY | REQ);
    assert_eq!(bench.counter(), 0);
    // SWRAP is not ruled and reads 0.
    assert_eq!(bench.read(0x34B), 0x00);
    bench.lines(BSY);
    bench.lines(BSY | REQ);
    assert_eq!(bench.counter(), 1);
}

/// SPIORDY: "Automatic mode, matched, REQ seen, automatic ACK off sets SPIORDY.
/// An access to 346h (a write with IO not seen ...) with SPIORDY clears it and
/// ... turns automatic ACK on, adds one to the counter and clears REQINIT;
/// Automatic ACKs are not in the answer's count."
#[test]
fn automatic_pio_outbound() {
    let mut bench = Bench::new();
    bench.write(0x341, 0x28);
    bench.lines(BSY);
    bench.lines(BSY | REQ);
    assert_eq!(bench.read(0x34B), 0x02);
    assert_eq!(bench.read(0x34C), 0x01);
    // A read with IO not seen serves nothing.
    bench.read(0x346);
    assert_eq!(bench.read(0x34B), 0x02);
    let answer = bench.write(0x346, 0xC3);
    assert_eq!((answer.acks, answer.control, answer.data), (0, 0x01, 0xC3));
    assert_eq!(bench.read(0x34B), 0x00);
    assert_eq!(bench.read(0x34C), 0x00);
    assert_eq!(bench.counter(), 1);
    // The next byte needs a new REQ.
    bench.write(0x346, 0xC4);
    assert_eq!(bench.counter(), 1);
    assert_eq!(bench.lines(BSY).control, 0x00);
    bench.lines(BSY | REQ);
    assert_eq!(bench.read(0x34B), 0x02);
}

/// The same inbound: "a read with IO seen".
#[test]
fn automatic_pio_inbound() {
    let mut bench = Bench::new();
    bench.write(0x343, 0xE0);
    bench.write(0x341, 0x28);
    let phase = CD | IO | MSG | BSY;
    bench.lines(phase);
    bench.data_lines(0x81, 1, phase | REQ);
    assert_eq!(bench.read(0x34B), 0x02);
    // A write with IO seen fills the latch only.
    bench.write(0x346, 0x11);
    assert_eq!(bench.read(0x34B), 0x02);
    let answer = bench.try_read(0x346);
    assert_eq!((answer.value, answer.control, answer.acks), (0x81, 0x01, 0));
    assert_eq!(bench.counter(), 1);
}

/// SPIORDY stays when its cause goes; the access then clears it and makes no ACK.
#[test]
fn spiordy_without_req_gives_no_ack() {
    let mut bench = Bench::new();
    bench.write(0x341, 0x28);
    bench.lines(BSY | REQ);
    bench.lines(BSY);
    assert_eq!(bench.read(0x34B), 0x02);
    assert_eq!(bench.write(0x346, 0x01).control, 0x00);
    assert_eq!(bench.read(0x34B), 0x00);
    assert_eq!(bench.counter(), 0);
}

/// "A bus reset emptying the FIFOs" is a belief to rule out: "FIFOs and counter
/// stay"; a run goes on from the counter.
#[test]
fn a_bus_reset_keeps_the_bytes() {
    let mut bench = Bench::write_run(0);
    for word in 0..10 {
        bench.word_write(word);
    }
    bench.lines(BSY | REQ);
    let answer = bench.lines(BSY | REQ | RST);
    assert_eq!(
        (answer.control, answer.scsi_fifo, answer.host_fifo),
        (0x00, 8, 11)
    );
    assert_eq!(bench.read(0x341), 0x60);
    assert_eq!(bench.counter(), 1);
}
