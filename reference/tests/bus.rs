//! Lines driven and seen, resets, bus free, phases, parity.

mod common;

use common::*;

/// "Data is driven when connected and IO not seen: the latch in Manual and
/// Automatic, the byte last sent in Normal while automatic ACK is on."
#[test]
fn when_data_is_driven() {
    for (control, driven) in [(0x00, true), (0x08, true), (0x40, false), (0x48, false)] {
        let mut bench = Bench::new();
        bench.write(0x346, 0x07);
        bench.write(0x341, control);
        let answer = bench.lines(BSY);
        assert_eq!(answer.data_driven, driven, "341h {control:02X}h");
        assert_eq!(answer.data, if driven { 0x07 } else { 0 });
        for lines in [0, BSY | IO, BSY | SEL, BSY | RST] {
            let answer = bench.lines(lines);
            assert_eq!(
                (answer.data_driven, answer.data, answer.parity),
                (false, 0, false)
            );
        }
    }
}

/// "Parity driven makes the ones odd."
#[test]
fn parity_driven() {
    let mut bench = Bench::new();
    bench.lines(BSY);
    for (data, parity) in [
        (0x00, true),
        (0x01, false),
        (0x03, true),
        (0x07, false),
        (0xFF, true),
    ] {
        assert_eq!(bench.write(0x346, data).parity, parity, "{data:02X}h");
    }
}

/// The byte last sent is driven however the ACK came on, and after power reset
/// it is 0.
#[test]
fn byte_last_sent() {
    let mut bench = Bench::new();
    bench.write(0x341, 0x28);
    bench.lines(BSY | REQ);
    bench.write(0x346, 0x99);
    // Automatic ACK stands while the mode becomes Normal.
    let answer = bench.write(0x341, 0x60);
    assert_eq!(
        (answer.control, answer.data_driven, answer.data),
        (0x01, true, 0x00)
    );
    assert!(answer.parity);
    // A synchronous byte is the byte last sent, too.
    let mut bench = Bench::write_run(8);
    bench.word_write(0x4241);
    bench.lines(BSY | REQ);
    bench.lines(BSY);
    bench.write(0x341, 0x28);
    bench.lines(BSY | REQ);
    bench.write(0x346, 0x99);
    let answer = bench.write(0x341, 0x60);
    assert_eq!((answer.control, answer.data), (0x01, 0x41));
}

/// "ACKO drives ACK in Manual mode only, uncounted."
#[test]
fn acko_in_manual_mode_only() {
    for (mode, driven) in [(0x00, 0x01), (0x08, 0x00), (0x40, 0x00), (0x48, 0x00)] {
        let mut bench = Bench::new();
        bench.write(0x341, mode);
        let answer = bench.write(0x343, 0x01);
        assert_eq!(
            (answer.control, answer.acks),
            (driven, 0),
            "341h {mode:02X}h"
        );
        assert_eq!(bench.counter(), 0);
        // ACKO is kept: back in Manual mode it drives.
        assert_eq!(bench.write(0x341, 0x00).control, 0x01);
    }
}

/// "RST rises: SCSIRSTI; 340h bits 7-1, 343h, offset and SCSIEN become 0;
/// automatic ACK is released. FIFOs and counter stay."
#[test]
fn reset_by_others() {
    let mut bench = Bench::write_run(8);
    bench.write(0x340, 0xFE);
    bench.write(0x343, 0x10);
    bench.lines(BSY | REQ);
    let answer = bench.lines(RST);
    assert_eq!(
        (answer.offset, answer.control, answer.reset_driven),
        (0, 0, false)
    );
    assert_eq!(bench.read(0x340), 0x00);
    assert_eq!(bench.read(0x341), 0x60);
    assert_eq!(bench.read(0x34C) & 0x20, 0x20);
    // SCSIRSTI stays until cleared, even when RST goes.
    bench.lines(0);
    assert_eq!(bench.read(0x34C) & 0x20, 0x20);
    bench.write(0x34C, 0x20);
    assert_eq!(bench.read(0x34C) & 0x20, 0x00);
    // A standing RST makes no new rise.
    bench.lines(RST);
    bench.write(0x34C, 0x20);
    bench.lines(RST | REQ);
    bench.write(0x340, 0x01);
    assert_eq!(bench.read(0x34C) & 0x20, 0x00);
}

/// "REQ rises and RST not seen: REQINIT."
#[test]
fn no_reqinit_under_reset() {
    let mut bench = Bench::new();
    bench.lines(RST | REQ);
    assert_eq!(bench.read(0x34C), 0x20);
    // REQ was there when RST went: no rise.
    bench.lines(REQ);
    assert_eq!(bench.read(0x34C), 0x20);
    bench.lines(0);
    bench.lines(REQ);
    assert_eq!(bench.read(0x34C), 0x21);
}

/// REQINIT falls by 34Ch, and "also falls when ACK is seen".
#[test]
fn reqinit_falls() {
    let mut bench = Bench::new();
    bench.lines(BSY | REQ);
    assert_eq!(bench.read(0x34C), 0x01);
    bench.lines(BSY);
    assert_eq!(bench.read(0x34C), 0x01);
    bench.lines(BSY | ACK);
    assert_eq!(bench.read(0x34C), 0x00);
    bench.lines(BSY | REQ);
    bench.write(0x343, 0x01);
    assert_eq!(bench.read(0x34C), 0x00);
    bench.write(0x343, 0x00);
    bench.lines(BSY);
    bench.lines(BSY | REQ);
    bench.write(0x34C, 0x01);
    assert_eq!(bench.read(0x34C), 0x00);
}

/// "Quiet ticks: 0 if BSY or SEL is seen, else ticks add, stopping at 8. On
/// reaching 8: BUSFREE; 343h and offset 0; automatic ACK released."
#[test]
fn bus_free_clears_lines_and_offset() {
    let mut bench = Bench::write_run(8);
    bench.write(0x343, 0x11);
    bench.lines(BSY | REQ);
    let answer = bench.lines(0);
    assert_eq!((answer.offset, answer.control), (1, 0x10));
    let answer = bench.ticks(7);
    assert_eq!((answer.offset, answer.control), (1, 0x10));
    let answer = bench.ticks(1);
    assert_eq!((answer.offset, answer.control), (0, 0x00));
    assert_eq!(bench.read(0x34C) & 0x08, 0x08);
    // SCSIEN is not touched, unlike under a reset.
    assert_eq!(bench.read(0x341), 0xE0);
}

/// BSY or SEL, by others or by the chip, start the ticks anew.
#[test]
fn bus_free_needs_quiet() {
    for line in [BSY, SEL] {
        let mut bench = Bench::new();
        bench.ticks(7);
        bench.lines(line);
        bench.ticks(100);
        bench.lines(0);
        bench.ticks(7);
        assert_eq!(bench.read(0x34C), 0x00);
        bench.write(0x343, line);
        bench.write(0x343, 0x00);
        bench.ticks(7);
        assert_eq!(bench.read(0x34C), 0x00);
        bench.ticks(1);
        assert_eq!(bench.read(0x34C), 0x08);
    }
}

/// Reaching 8 comes once until BSY or SEL is seen again.
#[test]
fn bus_free_comes_once() {
    let mut bench = Bench::new();
    bench.ticks(0xFF_FFFF);
    bench.write(0x34C, 0x08);
    bench.ticks(0xFF_FFFF);
    assert_eq!(bench.read(0x34C), 0x00);
    // 343h written on a free bus stays.
    bench.write(0x343, 0x10);
    assert_eq!(bench.ticks(8).control, 0x10);
    bench.lines(BSY);
    bench.lines(0);
    assert_eq!(bench.ticks(8).control, 0x00);
}

/// A vanished target's ACK is released on bus free.
#[test]
fn bus_free_releases_ack() {
    let mut bench = Bench::write_run(0);
    bench.word_write(0x4241);
    bench.lines(BSY | REQ);
    assert_eq!(bench.lines(REQ).control, 0x01);
    assert_eq!(bench.ticks(8).control, 0x00);
}

/// "PHASECHG is set when 'connected and not matched' is true here and was false
/// at the end of the last event."
#[test]
fn phasechg_on_the_change_only() {
    let mut bench = Bench::new();
    bench.lines(CD);
    assert_eq!(bench.read(0x34C), 0x00);
    bench.lines(BSY | CD);
    assert_eq!(bench.read(0x34C), 0x02);
    bench.write(0x34C, 0x02);
    // Still mismatched: no new change, not even to another wrong phase.
    bench.lines(BSY | CD | MSG);
    assert_eq!(bench.read(0x34C), 0x00);
    bench.write(0x343, 0xA0);
    bench.write(0x343, 0x00);
    assert_eq!(bench.read(0x34C), 0x02);
}

/// "PHASEMIS is live: connected, not matched, REQINIT."
#[test]
fn phasemis_is_live() {
    let mut bench = Bench::new();
    bench.lines(BSY | MSG);
    assert_eq!(bench.read(0x34C) & 0x10, 0x00);
    bench.lines(BSY | MSG | REQ);
    assert_eq!(bench.read(0x34C) & 0x10, 0x10);
    bench.write(0x34C, 0x10);
    assert_eq!(bench.read(0x34C) & 0x10, 0x10);
    bench.write(0x343, 0x20);
    assert_eq!(bench.read(0x34C) & 0x10, 0x00);
    bench.write(0x343, 0x00);
    bench.write(0x34C, 0x01);
    assert_eq!(bench.read(0x34C) & 0x10, 0x00);
}

/// "If connected, IO seen and ENSPCHK, and data with parity has an even number
/// of ones: SCSIPERR, and with ENAUTOATNP 343h bit 4."
#[test]
fn parity_is_checked_at_req() {
    let checked = |control: u32, setting: u32, parity: u32| {
        let mut bench = Bench::new();
        bench.write(0x342, setting);
        bench.lines(control);
        let answer = bench.data_lines(0x03, parity, control | REQ);
        assert_eq!(answer.control, 0x00);
        bench.read(0x34C) & 0x04 != 0
    };
    assert!(checked(BSY | IO, 0x20, 0));
    assert!(!checked(BSY | IO, 0x20, 1));
    assert!(!checked(BSY | IO, 0x00, 0));
    assert!(!checked(BSY, 0x20, 0));
    assert!(!checked(IO, 0x20, 0));
    assert!(!checked(BSY | SEL | IO, 0x20, 0));

    let mut bench = Bench::new();
    bench.write(0x342, 0x20);
    bench.write(0x340, 0x02);
    bench.lines(BSY | IO);
    assert_eq!(bench.data_lines(0x01, 1, BSY | IO | REQ).control, 0x10);
}

/// "While ENSPCHK is 0, SCSIPERR is held at 0 and does not come back; its latch
/// stays."
#[test]
fn scsiperr_goes_with_enspchk() {
    let mut bench = Bench::new();
    bench.write(0x342, 0x20);
    bench.write(0x351, 0x04);
    bench.write(0x352, 0x04);
    bench.lines(BSY | IO);
    assert!(bench.data_lines(0x00, 0, BSY | IO | REQ).irq);
    assert_eq!(bench.read(0x34C) & 0x04, 0x04);
    assert!(bench.write(0x342, 0x00).irq);
    assert_eq!(bench.read(0x34C) & 0x04, 0x00);
    bench.write(0x342, 0x20);
    assert_eq!(bench.read(0x34C) & 0x04, 0x00);
    assert!(!bench.write(0x34C, 0x04).irq);
}

/// "a clear with ENSPCHK set copies it to the status": it comes back
/// until a good byte has come, and without its latch.
#[test]
fn scsiperr_cleared_shows_the_kept_parity() {
    let mut bench = Bench::new();
    bench.write(0x342, 0x20);
    bench.write(0x351, 0x04);
    bench.write(0x352, 0x04);
    bench.lines(BSY | IO);
    assert!(bench.data_lines(0x00, 0, BSY | IO | REQ).irq);
    for _ in 0..2 {
        assert!(!bench.write(0x34C, 0x04).irq);
        assert_eq!(bench.read(0x34C) & 0x04, 0x04);
    }
    bench.lines(BSY | IO);
    bench.data_lines(0x01, 0, BSY | IO | REQ);
    assert_eq!(bench.read(0x34C) & 0x04, 0x04);
    bench.write(0x34C, 0x04);
    assert_eq!(bench.read(0x34C) & 0x04, 0x00);
}

/// R-2: the latch sets "at a new error while enabled, even with the status
/// already 1, or when its enable rises with the status 1".
#[test]
fn scsiperr_latches_again() {
    let mut bench = Bench::new();
    bench.write(0x342, 0x20);
    bench.write(0x351, 0x04);
    bench.write(0x352, 0x04);
    bench.lines(BSY | IO);
    bench.data_lines(0x00, 0, BSY | IO | REQ);
    assert!(!bench.write(0x34C, 0x04).irq);
    bench.lines(BSY | IO);
    assert!(bench.data_lines(0x03, 0, BSY | IO | REQ).irq);
    assert!(!bench.write(0x34C, 0x04).irq);
    bench.write(0x351, 0x00);
    assert!(bench.write(0x351, 0x04).irq);
}

/// kept whether ENSPCHK is set or not, only while connected with IO seen;
/// no reset changes it but power reset.
#[test]
fn parity_is_kept() {
    let status_after = |seen: &dyn Fn(&mut Bench)| {
        let mut bench = Bench::new();
        seen(&mut bench);
        bench.write(0x342, 0x20);
        bench.write(0x34C, 0x04);
        bench.read(0x34C) & 0x04
    };
    assert_eq!(status_after(&|_| ()), 0x00);
    let bad = |bench: &mut Bench| {
        bench.lines(BSY | IO);
        bench.data_lines(0x00, 0, BSY | IO | REQ);
    };
    assert_eq!(status_after(&bad), 0x04);
    assert_eq!(
        status_after(&|bench| {
            bad(bench);
            bench.lines(RST);
            bench.lines(0);
            bench.ticks(8);
        }),
        0x04
    );
    for control in [BSY, IO, BSY | SEL | IO] {
        assert_eq!(
            status_after(&|bench| {
                bench.lines(control);
                bench.data_lines(0x00, 0, control | REQ);
            }),
            0x00
        );
    }
    assert_eq!(
        status_after(&|bench| {
            bad(bench);
            bench.send(0);
        }),
        0x00
    );
}
