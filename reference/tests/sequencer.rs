//! Request R-1: statuses, latches and resets in each phase.

mod common;

use common::sequencer::*;
use common::*;
use reference::sequencer::Phase;

/// "bus free also clears SELDO"; no latch falls by it.
#[test]
fn bus_free_clears_seldo() {
    let mut bench = at(Phase::Selecting);
    bench.write(0x350, u32::from(SELDO));
    bench.write(0x352, 0x04);
    assert!(bench.lines(BSY).irq);
    bench.lines(0);
    bench.ticks(7);
    assert_eq!(bench.status0(), SELDO);
    assert!(bench.ticks(1).irq);
    assert_eq!(bench.status0(), 0);
    assert_eq!(bench.read(0x354) & 0x20, 0x20);
    assert!(!bench.write(0x34B, u32::from(SELDO)).irq);
}

/// One of the four statuses raised, with that register of enables written.
fn raised(status: u32, enable: u32, enabled: u32) -> Bench {
    let mut bench = match status {
        0x40 => at(Phase::Selecting),
        0x20 => at(Phase::Answering),
        0x10 => at(Phase::Clearing),
        _ => selecting(ENSTIMER | 0x18),
    };
    bench.write(enable, enabled);
    bench.write(0x352, 0x04);
    match status {
        0x40 => bench.lines(BSY),
        0x20 => bench.ticks(8),
        0x10 => bench.ticks(24),
        _ => bench.ticks(640_000),
    };
    bench
}

/// "each with its latch, enabled by 350h bits 6, 5, 4 and 351h bit 7".
#[test]
fn latches() {
    for (status, enable, clear) in [
        (0x40, 0x350, 0x34B),
        (0x20, 0x350, 0x34B),
        (0x10, 0x350, 0x34B),
        (0x80, 0x351, 0x34C),
    ] {
        // It rises while enabled; masking does not clear, its clear does.
        let mut bench = raised(status, enable, status);
        assert!(bench.write(enable, 0).irq);
        assert!(bench.write(clear, 0xFF & !status).irq);
        assert!(!bench.write(clear, status).irq);
        // The status stays, but for SELTO.
        let stays = if clear == 0x34B { status as u16 } else { 0 };
        assert_eq!(bench.read(clear) & status as u16, stays);
        assert_eq!(bench.write(enable, status).irq, stays != 0);
        // It rises while masked; the enable sets the latch later.
        let others = 0x7F & !status;
        let mut bench = raised(status, enable, others);
        bench.write(clear, others);
        assert!(!bench.write(enable, 0).irq);
        assert!(bench.write(enable, status).irq);
    }
}

/// "34Ch bit 7 clears SELTO, status and latch"; a bus free or reset does not.
#[test]
fn selto_falls_by_its_clear_alone() {
    let mut bench = holding();
    bench.write(0x340, 0);
    bench.ticks(8);
    bench.lines(RST);
    bench.lines(0);
    bench.write(0x34C, 0x7F);
    assert_eq!(bench.status1(), SELTO);
    bench.write(0x34C, 0x80);
    assert_eq!(bench.status1(), 0);
    assert_eq!(bench.phase(), Phase::Idle);
}

/// "SELINGO falls at arbitrating, SELDO, RST and giving up while selecting, by
/// nothing else but power reset."
#[test]
fn selingo_falls() {
    let timed_out = || {
        let mut bench = selecting(ENSTIMER | 0x18);
        bench.write(0x351, u32::from(SELTO));
        bench.ticks(640_000);
        bench.lines(BSY);
        bench.lines(0);
        bench.write(0x34B, 0xFF);
        bench.write(0x34C, 0xFF);
        bench.ticks(1000);
        assert_eq!((bench.phase(), bench.status0()), (Phase::Idle, SELINGO));
        bench
    };
    let mut bench = timed_out();
    bench.write(0x340, ENSELO);
    bench.ticks(15);
    assert_eq!(bench.status0(), SELINGO);
    bench.ticks(1);
    assert_eq!(bench.status0(), 0);
    let mut bench = timed_out();
    bench.lines(RST);
    assert_eq!(bench.status0(), 0);
    let mut bench = timed_out();
    bench.write(0x340, 0x01);
    assert_eq!(bench.status0(), 0);
    let mut bench = timed_out();
    bench.send(0);
    assert_eq!(bench.status0(), 0);
}

/// "RST seen: idle, SELINGO 0, and nothing below", by others and by SCSIRSTO.
#[test]
fn reset_in_each_phase() {
    for phase in PHASES {
        for own in [false, true] {
            let mut bench = at(phase);
            let before = bench.status0() & !SELINGO;
            let answer = if own {
                bench.write(0x340, 0xFF)
            } else {
                bench.data_lines(0x44, 1, RST | SEL | IO)
            };
            assert_eq!(bench.phase(), Phase::Idle, "{phase:?}");
            assert_eq!(bench.chip.sequencer.ticks, 0);
            assert_eq!((answer.control, answer.data_driven), (0, false));
            assert_eq!(bench.status0(), before, "{phase:?}");
            // While RST stands nothing starts, even if asked.
            if own {
                bench.write(0x340, 0x51);
                call(&mut bench);
            } else {
                bench.write(0x340, 0x50);
            }
            bench.ticks(1000);
            assert_eq!(bench.phase(), Phase::Idle, "{phase:?}");
            bench.write(0x340, 0x50);
            call(&mut bench);
            assert_eq!(bench.phase(), Phase::Answering, "{phase:?}");
        }
    }
}

/// "All is 0, released and idle after power reset."
#[test]
fn power_reset_in_each_phase() {
    for phase in PHASES {
        let mut bench = at(phase);
        let answer = bench.send(0);
        assert_eq!((answer.control, answer.data_driven), (0, false));
        assert!(bench.chip == reference::Chip::new());
    }
}

/// "An event of 0 ticks changes nothing".
#[test]
fn no_ticks_change_nothing() {
    for phase in PHASES {
        let mut bench = at(phase);
        let before = bench.chip.clone();
        bench.ticks(0);
        assert!(bench.chip == before, "{phase:?}");
    }
}

/// TARGET "reads 0 until R-7", with SELDO and with SELDI.
#[test]
fn target_reads_0() {
    let mut bench = at(Phase::Selecting);
    bench.lines(BSY);
    assert_eq!(bench.status0() & 0x80, 0);
    assert_eq!(answered(0).status0() & 0x80, 0);
}
