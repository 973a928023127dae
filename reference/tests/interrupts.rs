//! Latches, masks, clears, SWINT, INSTAT and IRQ.

mod common;

use common::*;

/// INSTAT by 354h bit 5, and IRQ by the answer.
fn instat(bench: &mut Bench) -> bool {
    bench.read(0x354) & 0x20 != 0
}

/// One way to raise each latched status of 34Ch.
fn raise(bench: &mut Bench, bit: u32) {
    match bit {
        0x20 => bench.lines(RST),
        0x08 => bench.ticks(8),
        0x04 => {
            bench.write(0x342, 0x20);
            bench.write(0x343, 0x40);
            bench.data_lines(0x00, 0, BSY | IO | REQ)
        }
        0x02 => bench.lines(BSY | MSG),
        0x01 => bench.lines(REQ),
        _ => unreachable!(),
    };
}

/// "A latch sets when its status rises ... while enabled".
#[test]
fn each_status_of_34c_sets_its_latch() {
    for bit in [0x20, 0x08, 0x04, 0x02, 0x01] {
        let mut bench = Bench::new();
        bench.write(0x352, 0x04);
        bench.write(0x351, bit);
        raise(&mut bench, bit);
        assert_eq!(bench.read(0x34C) & bit as u16, bit as u16);
        assert!(instat(&mut bench), "latch {bit:02X}h");
        assert!(bench.ticks(0).irq);
        // "A write to 34Ch clears the named status bits and latches".
        bench.write(0x34C, !bit & 0xFF);
        assert!(instat(&mut bench));
        bench.write(0x34C, bit);
        assert!(!instat(&mut bench));
        // SCSIPERR shows the kept parity instead, here a bad one.
        let left = if bit == 0x04 { 0x04 } else { 0 };
        assert_eq!(bench.read(0x34C) & bit as u16, left);
    }
}

/// Not enabled, no latch; "or when the enable rises while status is 1".
#[test]
fn enabling_later_sets_the_latch() {
    for bit in [0x20, 0x08, 0x04, 0x02, 0x01] {
        let mut bench = Bench::new();
        bench.write(0x351, !bit & 0xEF);
        raise(&mut bench, bit);
        bench.write(0x34C, !bit & 0xFF);
        assert!(!instat(&mut bench), "status {bit:02X}h");
        bench.write(0x351, bit);
        assert!(instat(&mut bench));
        // "Masking later does not clear it."
        bench.write(0x351, 0x00);
        assert!(instat(&mut bench));
        bench.write(0x34C, bit);
        assert!(!instat(&mut bench));
    }
}

/// "IRQ holds exactly when an enabled status is set: false after a clear":
/// "A write to 34Bh clears latches only".
#[test]
fn clearing_spiordy_leaves_its_status() {
    let mut bench = Bench::new();
    bench.write(0x350, 0x02);
    bench.write(0x341, 0x28);
    bench.lines(BSY | REQ);
    assert!(instat(&mut bench));
    bench.write(0x34B, 0xFD);
    assert!(instat(&mut bench));
    bench.write(0x34B, 0x02);
    assert_eq!(bench.read(0x34B), 0x02);
    assert!(!instat(&mut bench));
    // Standing enabled with its status 1 it does not come back.
    bench.ticks(1);
    bench.write(0x350, 0x02);
    assert!(!instat(&mut bench));
    // The enable falling and rising sets it again.
    bench.write(0x350, 0x00);
    bench.write(0x350, 0x02);
    assert!(instat(&mut bench));
}

/// SPIORDY's latch with the enable given later.
#[test]
fn spiordy_enabled_later() {
    let mut bench = Bench::new();
    bench.write(0x341, 0x28);
    bench.lines(BSY | REQ);
    bench.write(0x350, 0x7D);
    assert!(!instat(&mut bench));
    bench.write(0x350, 0x02);
    assert!(instat(&mut bench));
    // The latch stays when the status goes.
    bench.write(0x346, 0x00);
    assert_eq!(bench.read(0x34B), 0x00);
    assert!(instat(&mut bench));
}

/// "even if it falls again in the event": REQINIT rises and the ACK clears it.
#[test]
fn reqinit_latch_of_a_served_req() {
    let mut bench = Bench::write_run(0);
    bench.write(0x351, 0x01);
    bench.word_write(0x4241);
    assert_eq!(bench.lines(BSY | REQ).acks, 1);
    assert_eq!(bench.read(0x34C), 0x00);
    assert!(instat(&mut bench));
    // The same with an ACK that others drive.
    let mut bench = Bench::new();
    bench.write(0x351, 0x01);
    bench.lines(REQ | ACK);
    assert_eq!(bench.read(0x34C), 0x00);
    assert!(instat(&mut bench));
}

/// A status already 1 does not rise, so it sets no latch.
#[test]
fn no_rise_no_latch() {
    let mut bench = Bench::new();
    bench.write(0x350, 0x02);
    bench.write(0x341, 0x28);
    bench.lines(BSY | REQ);
    bench.write(0x34B, 0x02);
    // SPIORDY is still 1; a new REQ is no new rise of it.
    bench.lines(BSY);
    bench.lines(BSY | REQ);
    assert_eq!(bench.read(0x34B), 0x02);
    assert!(!instat(&mut bench));
}

/// "PHASEMIS has no latch: it counts while enabled."
#[test]
fn phasemis_counts_while_enabled() {
    let mut bench = Bench::new();
    bench.lines(BSY | MSG | REQ);
    assert!(!instat(&mut bench));
    bench.write(0x351, 0x10);
    assert!(instat(&mut bench));
    bench.write(0x34C, 0x10);
    assert!(instat(&mut bench));
    bench.write(0x351, 0x00);
    assert!(!instat(&mut bench));
    bench.write(0x351, 0x10);
    bench.write(0x343, 0x20);
    assert!(!instat(&mut bench));
}

/// "INSTAT is any latch, enabled PHASEMIS, or SWINT. IRQ is INSTAT and INTEN."
#[test]
fn swint_and_inten() {
    let mut bench = Bench::new();
    assert!(!bench.write(0x352, 0x01).irq);
    assert!(instat(&mut bench));
    assert!(bench.write(0x352, 0x05).irq);
    assert!(!bench.write(0x352, 0x04).irq);
    assert!(!instat(&mut bench));
}

/// Statuses that are not ruled never interrupt.
#[test]
fn other_enables_do_nothing() {
    let mut bench = Bench::new();
    bench.write(0x350, 0x7D);
    bench.write(0x351, 0xC0);
    bench.write(0x34B, 0x80);
    bench.lines(BSY | ATN | SEL);
    bench.ticks(1000);
    assert!(!instat(&mut bench));
}
