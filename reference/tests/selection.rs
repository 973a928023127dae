//! Request R-1: selection, its delays, losses and timeouts, giving up.

mod common;

use common::sequencer::*;
use common::*;
use reference::sequencer::Phase;

/// "What the chip drives": lines and data by phase, "whatever the mode, with
/// its parity".
#[test]
fn lines_and_data_of_each_phase() {
    for (phase, lines, data) in [
        (Phase::Idle, 0, None),
        (Phase::Waiting, 0, None),
        (Phase::Arbitrating, BSY, Some(0x40)),
        (Phase::Clearing, BSY | SEL, Some(0x40)),
        (Phase::Selecting, SEL, Some(0x44)),
        (Phase::Holding, SEL, Some(0x44)),
        (Phase::Answering, 0, None),
        (Phase::Answered, BSY, None),
    ] {
        for mode in [0x00, 0x08, 0x40, 0x48] {
            let mut bench = at(phase);
            let answer = bench.write(0x341, mode);
            assert_eq!(u32::from(answer.control), lines, "{phase:?}");
            assert_eq!(answer.data_driven, data.is_some(), "{phase:?}");
            assert_eq!(answer.data, data.unwrap_or(0), "{phase:?}");
            let odd = data.is_some_and(|data: u8| data.count_ones().is_multiple_of(2));
            assert_eq!(answer.parity, odd, "{phase:?}");
        }
    }
}

/// 343h and 347h show the sequencer's lines and data, with the others'.
#[test]
fn lines_and_data_are_seen() {
    let mut bench = at(Phase::Selecting);
    assert_eq!(u32::from(bench.read(0x343)), SEL);
    assert_eq!(bench.read(0x347), 0x44);
    bench.data_lines(0x09, 0, 0);
    assert_eq!(bench.read(0x346), 0x4D);
    // "343h does not reach the sequencer's lines."
    let answer = bench.write(0x343, 0x00);
    assert_eq!(u32::from(answer.control), SEL);
    let answer = bench.write(0x343, BSY);
    assert_eq!(u32::from(answer.control), SEL | BSY);
    assert_eq!(bench.phase(), Phase::Selecting);
}

/// With OID and TID alike there is one data bit.
#[test]
fn the_same_id_twice() {
    let mut bench = asked(0x33, 0, 0);
    assert_eq!(bench.ticks(88).data, 0x08);
}

/// 345h is looked at as it stands.
#[test]
fn ids_follow_345h() {
    let mut bench = at(Phase::Selecting);
    assert_eq!(bench.write(0x345, 0x15).data, 0x22);
    assert_eq!(bench.write(0x345, 0xFF).data, 0x80);
}

/// "16 ticks from the write if the bus is already free", 48 of arbitration,
/// "24 (16 and 8)" of clearing: 88 to SELINGO.
#[test]
fn delays_from_the_write() {
    for (ticks, phase) in [
        (0, Phase::Waiting),
        (1, Phase::Waiting),
        (15, Phase::Waiting),
        (16, Phase::Arbitrating),
        (63, Phase::Arbitrating),
        (64, Phase::Clearing),
        (87, Phase::Clearing),
        (88, Phase::Selecting),
    ] {
        let mut bench = asked(0x62, 0, 0);
        bench.ticks(ticks);
        assert_eq!(bench.phase(), phase, "{ticks} ticks");
        let selecting = phase == Phase::Selecting;
        assert_eq!(bench.status0() == SELINGO, selecting, "{ticks} ticks");
        let mut bench = asked(0x62, 0, 0);
        for _ in 0..ticks {
            bench.ticks(1);
        }
        assert_eq!(bench.phase(), phase, "{ticks} single ticks");
    }
}

/// "8 and 16 from when the lines fell".
#[test]
fn delays_from_bus_free() {
    for (ticks, phase) in [(23, Phase::Waiting), (24, Phase::Arbitrating)] {
        let mut bench = Bench::new();
        bench.lines(BSY);
        bench.write(0x340, ENSELO);
        bench.ticks(1000);
        bench.lines(0);
        bench.ticks(ticks);
        assert_eq!(bench.phase(), phase, "{ticks} ticks");
    }
    // After power reset the quiet ticks start at 0.
    let mut bench = Bench::new();
    bench.write(0x340, ENSELO);
    bench.ticks(23);
    assert_eq!(bench.phase(), Phase::Waiting);
    bench.ticks(1);
    assert_eq!(bench.phase(), Phase::Arbitrating);
}

/// "if the quiet ticks stood at 8 before this event and BSY and SEL are not
/// seen, one tick more, else 0 ticks".
#[test]
fn waiting_starts_anew() {
    for line in [BSY, SEL] {
        let mut bench = at(Phase::Waiting);
        bench.ticks(15);
        bench.lines(line);
        bench.lines(0);
        bench.ticks(23);
        assert_eq!(bench.phase(), Phase::Waiting);
        bench.ticks(1);
        assert_eq!(bench.phase(), Phase::Arbitrating);
        // The chip's own lines of 343h as well.
        let mut bench = at(Phase::Waiting);
        bench.ticks(15);
        bench.write(0x343, line);
        bench.write(0x343, 0);
        bench.ticks(23);
        assert_eq!(bench.phase(), Phase::Waiting);
        bench.ticks(1);
        assert_eq!(bench.phase(), Phase::Arbitrating);
    }
}

/// "arbitrating, SELINGO 0, quiet ticks 0": bus free comes anew after a loss.
#[test]
fn arbitration_ends_the_quiet() {
    let mut bench = asked(0x32, 0, 0);
    bench.data_lines(0x80, 0, 0);
    bench.ticks(15);
    assert_eq!(bench.chip.quiet_ticks, 8);
    bench.ticks(1);
    assert_eq!(bench.chip.quiet_ticks, 0);
    bench.ticks(48);
    assert_eq!((bench.phase(), bench.chip.quiet_ticks), (Phase::Waiting, 0));
    bench.ticks(7);
    assert_eq!(bench.status1() & BUSFREE, 0);
    bench.ticks(1);
    assert_eq!(bench.status1() & BUSFREE, BUSFREE);
}

/// "the chip's own arbitration is no connection": no data by document 01's
/// rule, no phase change.
#[test]
fn arbitration_is_no_connection() {
    let mut bench = free_bus();
    bench.write(0x343, 0x80);
    bench.write(0x346, 0x07);
    bench.write(0x340, ENSELO);
    let answer = bench.ticks(16);
    assert_eq!((bench.phase(), answer.data), (Phase::Arbitrating, 0x40));
    assert_eq!(bench.status1(), 0);
    // Nor do others' BSY and REQ make one.
    bench.lines(BSY | REQ);
    assert_eq!(bench.status1(), 0x01);
    assert_eq!(bench.phase(), Phase::Arbitrating);
}

/// "if others drive a data bit above OID, lost: waiting; else clearing", at the
/// last of 48 ticks.
#[test]
fn the_higher_id_wins() {
    for oid in 0..8 {
        for bit in 0..8 {
            let mut bench = asked(oid << 4, 0, 0);
            bench.data_lines(1 << bit, 0, BSY);
            bench.lines(0);
            bench.ticks(24 + 47);
            bench.data_lines(1 << bit, 0, BSY);
            bench.ticks(1);
            let expected = if bit > oid {
                Phase::Waiting
            } else {
                Phase::Clearing
            };
            assert_eq!(bench.phase(), expected, "{oid} against {bit}");
        }
    }
    // Other bits below do not help, and earlier ticks do not count.
    let mut bench = asked(0x30, 0, 0);
    bench.data_lines(0xF0, 0, 0);
    bench.ticks(63);
    bench.data_lines(0x0F, 0, 0);
    bench.ticks(1);
    assert_eq!(bench.phase(), Phase::Clearing);
}

/// "A lost arbitration keeps ENSELO: the chip tries again at the next bus
/// free", and drives nothing meanwhile.
#[test]
fn lost_and_tried_again() {
    let mut bench = asked(0x32, 0, 0);
    bench.data_lines(0x80, 0, 0);
    let answer = bench.ticks(64);
    assert_eq!((answer.control, answer.data_driven), (0, false));
    assert_eq!(u32::from(bench.read(0x340)), ENSELO);
    assert_eq!(bench.status0(), 0);
    bench.data_lines(0x90, 1, SEL | BSY);
    bench.lines(BSY);
    bench.ticks(1000);
    assert_eq!(bench.phase(), Phase::Waiting);
    bench.lines(0);
    bench.ticks(24 + 48 + 24);
    assert_eq!(bench.phase(), Phase::Selecting);
}

/// "a round lost every 72 ticks".
#[test]
fn lost_without_end() {
    for rounds in [0, 1, 2, 3, 1000, 233_000] {
        for (rest, phase) in [
            (0, Phase::Waiting),
            (23, Phase::Waiting),
            (24, Phase::Arbitrating),
            (71, Phase::Arbitrating),
        ] {
            let mut bench = asked(0x32, 0, 0);
            bench.data_lines(0x80, 0, 0);
            bench.ticks(64 + 72 * rounds + rest);
            assert_eq!(bench.phase(), phase, "{rounds} rounds, {rest} ticks");
            let spent = if rest >= 24 {
                rest - 24
            } else {
                rest.saturating_sub(8)
            };
            assert_eq!(bench.chip.sequencer.ticks, spent);
        }
    }
}

/// "arbitrating, and others drive SEL: lost: waiting", in any event; without
/// ENSELO then idle.
#[test]
fn lost_by_sel() {
    let mut bench = at(Phase::Arbitrating);
    let answer = bench.lines(SEL);
    assert_eq!((bench.phase(), answer.control), (Phase::Waiting, 0));
    let mut bench = at(Phase::Arbitrating);
    bench.write(0x340, 0);
    assert_eq!(bench.phase(), Phase::Arbitrating);
    bench.lines(SEL | BSY);
    assert_eq!(bench.phase(), Phase::Idle);
    // SEL comes too late once the chip drives it.
    let mut bench = at(Phase::Clearing);
    bench.lines(SEL);
    assert_eq!(bench.phase(), Phase::Clearing);
}

/// "selecting or holding, and others drive BSY: SELDO rises, SELINGO 0, ENSELO
/// becomes 0, idle."
#[test]
fn the_target_answers() {
    for (phase, selingo) in [(Phase::Selecting, SELINGO), (Phase::Holding, SELINGO)] {
        let mut bench = at(phase);
        bench.write(0x340, ENSELO | ENAUTOATNO);
        assert_eq!(bench.status0(), selingo);
        let answer = bench.lines(BSY);
        assert_eq!((bench.phase(), answer.control), (Phase::Idle, 0));
        assert_eq!(bench.status0(), SELDO);
        assert_eq!(u32::from(bench.read(0x340)), ENAUTOATNO);
    }
    // The chip's own BSY is no answer.
    let mut bench = at(Phase::Selecting);
    bench.write(0x343, BSY);
    assert_eq!(bench.phase(), Phase::Selecting);
    // BSY in the other phases is none either.
    for phase in [
        Phase::Idle,
        Phase::Waiting,
        Phase::Arbitrating,
        Phase::Clearing,
    ] {
        let mut bench = at(phase);
        bench.lines(BSY);
        assert_eq!(bench.status0(), 0);
    }
}

/// From SELDO on the chip is connected, in the same event: MESSAGE OUT with a
/// REQ at once.
#[test]
fn connected_with_seldo() {
    let mut bench = free_bus();
    bench.write(0x352, 0x88);
    bench.write(0x343, 0xA0);
    bench.write(0x341, 0xE0);
    bench.word_write(0x4241);
    bench.write(0x340, ENSELO | ENAUTOATNO);
    bench.ticks(88);
    let answer = bench.lines(BSY | CD | MSG | REQ);
    assert_eq!((answer.acks, answer.sent[0]), (1, 0x41));
    assert_eq!(u32::from(answer.control), ATN | ACK);
    assert_eq!(bench.status1() & 0x02, 0);
}

/// BSY that stands when selecting starts: SELINGO rises and falls in the event,
/// and both latches set.
#[test]
fn bsy_stands_already() {
    let mut bench = at(Phase::Clearing);
    bench.write(0x350, u32::from(SELDO | SELINGO));
    bench.write(0x352, 0x04);
    bench.lines(BSY);
    assert!(!bench.ticks(23).irq);
    assert!(bench.ticks(1).irq);
    assert_eq!((bench.phase(), bench.status0()), (Phase::Idle, SELDO));
    assert!(bench.write(0x34B, u32::from(SELDO)).irq);
    assert!(!bench.write(0x34B, u32::from(SELINGO)).irq);
}

/// "with ENAUTOATNO 343h bit 4 is set", when selecting starts.
#[test]
fn attention_out() {
    let mut bench = asked(0x62, 0, ENAUTOATNO);
    assert_eq!(u32::from(bench.ticks(87).control), SEL | BSY);
    assert_eq!(u32::from(bench.ticks(1).control), SEL | ATN);
    assert_eq!(u32::from(bench.lines(BSY).control), ATN);
    // "Clearing ENAUTOATNO does not clear ATN"; 34Ch bit 6 and bus free do.
    assert_eq!(u32::from(bench.write(0x340, 0).control), ATN);
    assert_eq!(u32::from(bench.write(0x34C, 0x40).control), 0);
    for other in [0, ENAUTOATNI, 0x02] {
        let mut bench = asked(0x62, 0, other);
        assert_eq!(u32::from(bench.ticks(88).control), SEL);
    }
}

/// "at or above the limit of STIMESEL (0: 5,120,000; 1: 2,560,000; 2:
/// 1,280,000; 3: 640,000): SELTO rises, ENSELO becomes 0, and it is idle with
/// ENSELTIMO, else holding. SELINGO stays".
#[test]
fn timeouts() {
    for (code, limit) in (0..).zip(TIMEOUTS) {
        for (enable, phase, lines) in [
            (0x00, Phase::Holding, SEL),
            (0x7F, Phase::Holding, SEL),
            (0x80, Phase::Idle, 0),
        ] {
            let mut bench = selecting(ENSTIMER | code << 3);
            bench.write(0x351, enable);
            bench.ticks(limit - 1);
            assert_eq!(bench.phase(), Phase::Selecting);
            assert_eq!(bench.status1() & SELTO, 0);
            assert_eq!(u32::from(bench.read(0x340)), ENSELO);
            let answer = bench.ticks(1);
            assert_eq!(bench.phase(), phase);
            assert_eq!(u32::from(answer.control), lines);
            assert_eq!(bench.status1() & SELTO, SELTO);
            assert_eq!(bench.status0(), SELINGO);
            assert_eq!(bench.read(0x340), 0);
            // In one event from the write.
            let mut bench = asked(0x62, ENSTIMER | code << 3, 0);
            bench.write(0x351, enable);
            bench.ticks(limit + 87);
            assert_eq!(bench.phase(), Phase::Selecting);
            bench.ticks(1);
            assert_eq!(bench.phase(), phase);
        }
    }
}

/// The longest event from the write: the timeout comes on its way, and the bus
/// is free after it.
#[test]
fn a_timeout_within_the_longest_event() {
    let mut bench = asked(0x62, ENSTIMER, ENAUTOATNO);
    bench.write(0x351, u32::from(SELTO));
    bench.write(0x352, 0x04);
    let answer = bench.ticks(16_777_215);
    assert!(answer.irq);
    assert_eq!((bench.phase(), answer.control), (Phase::Idle, 0));
    assert_eq!(bench.status1(), SELTO | BUSFREE);
    assert_eq!(bench.chip.quiet_ticks, 8);
}

/// Without ENSTIMER none comes; the ticks start when it is set.
#[test]
fn no_timeout_without_the_timer() {
    let mut bench = selecting(0x18);
    bench.ticks(16_777_215);
    assert_eq!(bench.phase(), Phase::Selecting);
    bench.write(0x342, ENSTIMER | 0x18);
    bench.ticks(639_999);
    assert_eq!(bench.phase(), Phase::Selecting);
    // "else 0 ticks": a tick without it starts anew.
    bench.write(0x342, 0x18);
    bench.ticks(1);
    bench.write(0x342, ENSTIMER | 0x18);
    bench.ticks(639_999);
    assert_eq!(bench.phase(), Phase::Selecting);
    // Without a tick between, nothing is lost.
    bench.write(0x342, 0x18);
    bench.write(0x342, ENSTIMER | 0x18);
    bench.ticks(1);
    assert_eq!(bench.phase(), Phase::Holding);
}

/// "at or above the limit": STIMESEL may have been changed meanwhile.
#[test]
fn a_shorter_timeout_meanwhile() {
    let mut bench = selecting(ENSTIMER);
    bench.ticks(3_000_000);
    bench.write(0x342, ENSTIMER | 0x08);
    assert_eq!(bench.phase(), Phase::Selecting);
    bench.ticks(1);
    assert_eq!(bench.phase(), Phase::Holding);
}

/// A timeout in the tick in which the target calls: idle, then answering.
#[test]
fn a_timeout_and_a_call() {
    let mut bench = selecting(ENSTIMER | 0x18);
    bench.write(0x340, ENSELO | ENRESELI);
    bench.write(0x351, u32::from(SELTO));
    bench.ticks(639_999);
    call(&mut bench);
    assert_eq!(bench.phase(), Phase::Selecting);
    bench.ticks(1);
    assert_eq!(bench.phase(), Phase::Answering);
}

/// "a write to 340h that leaves it not asked, while holding, or while selecting
/// with ENSTIMER 0, makes the sequencer idle, and SELINGO 0 if it was
/// selecting".
#[test]
fn giving_up() {
    for value in [0, TEMODEO, TEMODEO | ENSELO, ENSELI, ENAUTOATNO] {
        let mut bench = selecting(0);
        let answer = bench.write(0x340, value);
        assert_eq!((bench.phase(), answer.control), (Phase::Idle, 0));
        assert_eq!((bench.status0(), bench.status1()), (0, 0));

        let mut bench = holding();
        let answer = bench.write(0x340, value);
        assert_eq!((bench.phase(), answer.control), (Phase::Idle, 0));
        assert_eq!(bench.status0(), SELINGO);

        let mut bench = selecting(ENSTIMER);
        bench.write(0x340, value);
        assert_eq!(bench.phase(), Phase::Selecting);
        assert_eq!(bench.status0(), SELINGO);
    }
    // A write that asks goes on.
    for phase in [Phase::Selecting, Phase::Holding] {
        let mut bench = at(phase);
        bench.write(0x340, ENSELO | ENRESELI);
        assert_eq!(bench.phase(), phase);
    }
    // Writes elsewhere do not give up, even with ENSELO off.
    let mut bench = selecting(ENSTIMER);
    bench.write(0x340, 0);
    bench.write(0x342, 0);
    bench.write(0x345, 0);
    assert_eq!(bench.phase(), Phase::Selecting);
    bench.write(0x340, 0);
    assert_eq!(bench.phase(), Phase::Idle);
}

/// What stands before the sequencer sees the phase as step A left it: the bus
/// that was given up is quiet in the same event.
#[test]
fn giving_up_releases_the_bus_at_once() {
    let mut bench = selecting(0);
    bench.write(0x340, 0);
    bench.ticks(7);
    assert_eq!(bench.status1() & BUSFREE, 0);
    bench.ticks(1);
    assert_eq!(bench.status1() & BUSFREE, BUSFREE);
}

/// "In the other phases such a write stops nothing by itself: Chapter 5 turns
/// ENSELO off once the sequence is under way and then waits for SELDO."
#[test]
fn enselo_off_under_way() {
    let mut bench = at(Phase::Waiting);
    bench.write(0x340, 0);
    assert_eq!(bench.phase(), Phase::Waiting);
    bench.ticks(64);
    bench.write(0x340, 0);
    assert_eq!(bench.phase(), Phase::Clearing);
    bench.ticks(24);
    assert_eq!(
        (bench.phase(), bench.status0()),
        (Phase::Selecting, SELINGO)
    );
    bench.lines(BSY);
    assert_eq!(bench.status0(), SELDO);
}

/// "waiting, not asked, and the quiet ticks below 8: idle."
#[test]
fn enselo_off_on_a_busy_bus() {
    let mut bench = Bench::new();
    bench.write(0x340, ENSELO);
    bench.ticks(7);
    bench.write(0x340, 0);
    assert_eq!(bench.phase(), Phase::Idle);
    bench.write(0x340, ENSELO);
    bench.ticks(1);
    bench.write(0x340, ENSELO | TEMODEO);
    assert_eq!(bench.phase(), Phase::Waiting);
    bench.lines(BSY);
    assert_eq!(bench.phase(), Phase::Idle);
    // A lost arbitration as well.
    let mut bench = at(Phase::Arbitrating);
    bench.write(0x340, 0);
    bench.data_lines(0x80, 0, 0);
    bench.ticks(47);
    assert_eq!(bench.phase(), Phase::Arbitrating);
    bench.ticks(1);
    assert_eq!(bench.phase(), Phase::Idle);
}

/// "ENSELI, and ENSELO with TEMODEO, do nothing until R-7."
#[test]
fn what_asks_nothing() {
    for value in [TEMODEO | ENSELO, TEMODEO, ENSELI] {
        let mut bench = free_bus();
        bench.write(0x340, value);
        bench.ticks(1000);
        assert_eq!(bench.phase(), Phase::Idle);
        assert_eq!(u32::from(bench.read(0x340)), value);
        // A selection by others, naming the chip.
        bench.data_lines(0x44, 1, SEL);
        bench.ticks(1000);
        assert_eq!(bench.phase(), Phase::Idle);
        assert_eq!(bench.status0(), 0);
    }
}

/// "An event of n ticks leaves the chip as n events of one tick would; its
/// moves, ACKs and bytes sent are those of its ticks together": the bus gets
/// free on the way, which opens the path, and the selection goes on from there.
#[test]
fn moves_on_the_way() {
    let mut bench = Bench::new();
    bench.write(0x352, 0x88);
    bench.write(0x343, 0x40);
    bench.write(0x341, 0x60);
    bench.word_write(0x4241);
    bench.write(0x340, ENSELO);
    let answer = bench.ticks(96);
    assert_eq!((answer.moves, answer.scsi_fifo), (2, 2));
    assert_eq!(bench.phase(), Phase::Selecting);
    // The chip wins, others' BSY stands: SELDO and an ACK within the event.
    let mut bench = at(Phase::Arbitrating);
    bench.write(0x352, 0x88);
    bench.write(0x341, 0xE0);
    bench.word_write(0x4241);
    assert_eq!(bench.lines(BSY | REQ).acks, 0);
    let answer = bench.ticks(1000);
    assert_eq!((answer.acks, answer.sent[0]), (1, 0x41));
    assert_eq!(bench.status0(), SELDO);
}
