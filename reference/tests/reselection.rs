//! Request R-1: reselection, its IDs, and how SELDI falls.

mod common;

use common::sequencer::*;
use common::*;
use reference::sequencer::Phase;

/// "answering: one tick more; at 8 or more: answered, 345h takes the data that
/// others drive, SELDI becomes 1".
#[test]
fn reselection() {
    let mut bench = free_bus();
    bench.write(0x340, ENRESELI);
    assert_eq!(bench.read(0x345), 0);
    assert_eq!(call(&mut bench).control, 0);
    assert_eq!(bench.phase(), Phase::Answering);
    assert_eq!(bench.ticks(7).control, 0);
    assert_eq!((bench.read(0x345), bench.status0()), (0, 0));
    let answer = bench.ticks(1);
    assert_eq!(
        (u32::from(answer.control), answer.data_driven),
        (BSY, false)
    );
    assert_eq!((bench.read(0x345), bench.status0()), (0x44, SELDI));
    // BSY is driven until SEL falls, whoever else drives it.
    bench.data_lines(0x44, 1, SEL | BSY | IO);
    bench.ticks(1000);
    assert_eq!(bench.phase(), Phase::Answered);
    let answer = bench.lines(BSY | IO);
    assert_eq!((bench.phase(), answer.control), (Phase::Idle, 0));
    assert_eq!((bench.read(0x345), bench.status0()), (0x44, SELDI));
    assert_eq!(u32::from(bench.read(0x340)), ENRESELI);
}

/// "Called: ENRESELI, others drive SEL and IO and the data bit of OID, BSY not
/// seen."
#[test]
fn what_calls() {
    let called = |enable: u32, own: u32, data: u32, control: u32| {
        let mut bench = free_bus();
        bench.write(0x340, enable);
        bench.write(0x343, own);
        bench.data_lines(data, 0, control);
        bench.phase() == Phase::Answering
    };
    assert!(called(ENRESELI, 0, 0x44, SEL | IO));
    // "Parity of the IDs and the number of IDs on the bus are not looked at."
    assert!(called(ENRESELI, 0, 0xFF, SEL | IO));
    assert!(called(ENRESELI, 0, 0x40, SEL | IO | MSG | CD | REQ));
    assert!(called(ENRESELI | ENSELO, 0, 0x44, SEL | IO));
    assert!(called(ENRESELI | ENSELI | TEMODEO, SEL, 0x44, SEL | IO));
    assert!(!called(0, 0, 0x44, SEL | IO));
    assert!(!called(ENRESELI, 0, 0x44, SEL));
    assert!(!called(ENRESELI, 0, 0x44, IO));
    assert!(!called(ENRESELI, SEL, 0x44, IO));
    assert!(!called(ENRESELI, 0, 0x04, SEL | IO));
    assert!(!called(ENRESELI, 0, 0x44, SEL | IO | BSY));
    assert!(!called(ENRESELI, BSY, 0x44, SEL | IO));
}

/// "answering, and no longer called: idle."
#[test]
fn no_longer_called() {
    let falls: [fn(&mut Bench) -> Fields; 5] = [
        |bench| bench.data_lines(0x44, 1, SEL | IO | BSY),
        |bench| bench.data_lines(0x44, 1, SEL),
        |bench| bench.data_lines(0x04, 1, SEL | IO),
        |bench| bench.write(0x340, 0),
        |bench| bench.write(0x345, 0x52),
    ];
    for fall in falls {
        let mut bench = at(Phase::Answering);
        bench.ticks(7);
        fall(&mut bench);
        assert_eq!(bench.phase(), Phase::Idle);
        bench.ticks(1);
        assert_eq!(bench.status0(), 0);
        // The 8 ticks start anew.
        bench.write(0x345, 0x62);
        bench.write(0x340, ENRESELI);
        call(&mut bench);
        bench.ticks(7);
        assert_eq!(bench.phase(), Phase::Answering);
    }
}

/// "345h takes the data that others drive" at the last of the 8 ticks, and at
/// the next reselection again.
#[test]
fn ids_of_the_reselection() {
    let mut bench = at(Phase::Answering);
    bench.ticks(7);
    bench.data_lines(0x48, 1, SEL | IO);
    bench.ticks(1);
    assert_eq!(bench.read(0x345), 0x48);
    bench.data_lines(0x60, 1, SEL | IO);
    bench.ticks(10);
    assert_eq!(bench.read(0x345), 0x48);
    bench.write(0x345, 0x17);
    assert_eq!(bench.read(0x345), 0x48);
    bench.lines(0);
    bench.data_lines(0x02, 0, SEL | IO);
    bench.ticks(8);
    assert_eq!(bench.read(0x345), 0x02);
    bench.send(0);
    assert_eq!(bench.read(0x345), 0);
}

/// "with ENAUTOATNI 343h bit 4 is set."
#[test]
fn attention_in() {
    let mut bench = answered(ENAUTOATNI);
    assert_eq!(u32::from(bench.ticks(0).control), BSY | ATN);
    assert_eq!(u32::from(bench.lines(BSY | IO).control), ATN);
    for other in [0, ENAUTOATNO, 0x02] {
        let mut bench = answered(other);
        assert_eq!(u32::from(bench.ticks(0).control), BSY);
    }
}

/// "so does a selection that a reselection came before, with 345h as it then
/// stands": the chip tries again at the next bus free.
#[test]
fn a_reselection_comes_before() {
    let mut bench = asked(0x62, 0, ENRESELI);
    bench.ticks(10);
    call(&mut bench);
    assert_eq!(bench.phase(), Phase::Answering);
    bench.ticks(8);
    bench.write(0x345, 0x65);
    bench.lines(BSY | IO);
    assert_eq!(bench.phase(), Phase::Waiting);
    assert_eq!(bench.status0(), SELDI);
    assert_eq!(u32::from(bench.read(0x340)), ENSELO | ENRESELI);
    bench.lines(0);
    let answer = bench.ticks(96);
    assert_eq!((bench.phase(), answer.data), (Phase::Selecting, 0x60));
    // An arbitration lost to the target's SEL is answered in the same event.
    let mut bench = asked(0x62, 0, ENRESELI);
    bench.ticks(20);
    call(&mut bench);
    assert_eq!(bench.phase(), Phase::Answering);
}

/// "A write of 34Bh bit 5 while SELDI is 1 and the quiet ticks stand at 8
/// clears SELDI at once; else it notes"; bus free clears "SELDI where noted".
#[test]
fn seldi_falls_by_note_and_bus_free() {
    // Noted, then bus free.
    let mut bench = answered(0);
    bench.write(0x34B, u32::from(SELDI));
    assert_eq!(bench.status0(), SELDI);
    bench.lines(0);
    bench.ticks(7);
    assert_eq!(bench.status0(), SELDI);
    bench.ticks(1);
    assert_eq!(bench.status0(), 0);
    assert!(!bench.chip.seldi_noted);
    // Bus free without a note, then the write: at once.
    let mut bench = answered(0);
    bench.lines(0);
    bench.ticks(1000);
    assert_eq!(bench.status0(), SELDI);
    bench.write(0x34B, 0xDF);
    assert_eq!(bench.status0(), SELDI);
    bench.write(0x34B, u32::from(SELDI));
    assert_eq!(bench.status0(), 0);
    assert!(!bench.chip.seldi_noted);
    // A write while SELDI is 0 notes nothing.
    let mut bench = at(Phase::Answering);
    bench.write(0x34B, u32::from(SELDI));
    bench.ticks(8);
    bench.lines(0);
    bench.ticks(8);
    assert_eq!(bench.status0(), SELDI);
    // A bus reset leaves both.
    let mut bench = answered(0);
    bench.write(0x34B, u32::from(SELDI));
    bench.lines(RST);
    assert_eq!(bench.status0(), SELDI);
    assert!(bench.chip.seldi_noted);
    bench.lines(0);
    bench.ticks(8);
    assert_eq!(bench.status0(), 0);
}

/// "SELDI becomes 1 (its latch only if it was 0), noted becomes 0".
#[test]
fn reselected_while_seldi_stands() {
    let mut bench = answered(0);
    bench.write(0x350, u32::from(SELDI));
    bench.write(0x352, 0x04);
    assert!(!bench.write(0x34B, u32::from(SELDI)).irq);
    bench.lines(0);
    call(&mut bench);
    assert!(!bench.ticks(8).irq);
    assert_eq!(bench.phase(), Phase::Answered);
    assert!(!bench.chip.seldi_noted);
    bench.lines(0);
    bench.ticks(8);
    assert_eq!(bench.status0(), SELDI);
}
