//! `coverage FIRST_SEED COUNT [LENGTH]`: how often the states that matter come
//! up in the streams of these seeds; ends non-zero if one never does.

use reference::chip::Mode;
use reference::event::{decode, Event};
use reference::registers::*;
use reference::sequencer::Phase;
use reference::streams::{stream, USUAL_LENGTH};
use reference::{step, Chip};
use std::collections::BTreeMap;
use std::io::{self, Write};
use std::process::ExitCode;

const USAGE: &str = "usage: coverage FIRST_SEED COUNT [LENGTH]";

/// Counts under a name and, for some, a number.
#[derive(Default)]
struct Counts {
    times: BTreeMap<(&'static str, Option<u32>), u64>,
    /// After the first stream all names are in, those with 0 as well.
    names_known: bool,
}

impl Counts {
    fn note(&mut self, name: &'static str, happened: bool) {
        self.add((name, None), happened);
    }

    fn note_number(&mut self, name: &'static str, number: u32, happened: bool) {
        self.add((name, Some(number)), happened);
    }

    fn add(&mut self, key: (&'static str, Option<u32>), happened: bool) {
        if happened || !self.names_known {
            // The first stream enters each name, happening or not.
            *self.times.entry(key).or_default() += u64::from(happened);
        }
    }

    fn print(&self, output: &mut impl Write) -> io::Result<()> {
        for ((name, number), times) in &self.times {
            match number {
                Some(number) if *number >= 0x340 => {
                    writeln!(output, "{times:>10}  {name} {number:03X}h")?
                }
                Some(number) => writeln!(output, "{times:>10}  {name} {number}")?,
                None => writeln!(output, "{times:>10}  {name}")?,
            }
        }
        Ok(())
    }
}

fn main() -> ExitCode {
    let arguments: Vec<String> = std::env::args().skip(1).collect();
    let Some((first_seed, count, length)) = parse(&arguments) else {
        eprintln!("{USAGE}");
        return ExitCode::from(2);
    };
    let mut counts = Counts::default();
    for seed in first_seed..first_seed + count {
        count_stream(&mut counts, &stream(seed, length));
        counts.names_known = true;
    }
    // A reader that has seen enough is no failure of the count.
    let _ = counts.print(&mut io::stdout().lock());
    if counts.times.values().any(|times| *times == 0) {
        return ExitCode::FAILURE;
    }
    ExitCode::SUCCESS
}

fn parse(arguments: &[String]) -> Option<(u64, u64, usize)> {
    let length = match arguments.get(2) {
        Some(length) => length.parse().ok()?,
        None => USUAL_LENGTH,
    };
    Some((
        arguments.first()?.parse().ok()?,
        arguments.get(1)?.parse().ok()?,
        length,
    ))
}

fn count_stream(counts: &mut Counts, records: &[u8]) {
    let mut chip = Chip::new();
    for record in records.chunks(4) {
        let before = chip.clone();
        let answer = step(&mut chip, record);
        count_answer(counts, &answer);
        count_state(counts, &before, &chip);
        count_event(counts, &before, &chip, record, &answer);
    }
    counts.note("piece of 1 to 3 bytes", !records.len().is_multiple_of(4));
}

fn count_answer(counts: &mut Counts, answer: &[u8; 16]) {
    count_number(counts, "code", 7, answer[0] >> 5);
    count_number(counts, "ACKs", 8, answer[0] & 15);
    count_number(counts, "moves", 16, answer[1] >> 3);
    count_number(counts, "offset", 8, answer[6] >> 4);
    count_number(counts, "SCSI FIFO", 8, answer[6] & 15);
    count_number(counts, "host FIFO", 128, answer[7]);
    counts.note("IRQ", answer[0] & 16 != 0);
    counts.note("data driven", answer[1] & 4 != 0);
    counts.note("RST driven", answer[1] & 2 != 0);
    counts.note(
        "eight bytes sent in one event",
        answer[0] & 15 == 8 && answer[15] != 0,
    );
    counts.note("ATN driven", answer[4] & ATN != 0);
    counts.note("SEL driven", answer[4] & SEL != 0);
    counts.note("BSY driven", answer[4] & BSY != 0);
    counts.note("ACK driven", answer[4] & ACK != 0);
}

/// Counts which number from 0 to the last it is.
fn count_number(counts: &mut Counts, name: &'static str, last: u32, number: u8) {
    for other in 0..=last {
        counts.note_number(name, other, other == u32::from(number));
    }
}

/// Each status of 34Ch with the names of its rise, its fall and its latch.
const STATUSES: [(u8, &str, &str, &str); 6] = [
    (SELTO, "SELTO rises", "SELTO falls", "SELTO latch sets"),
    (
        SCSIRSTI,
        "SCSIRSTI rises",
        "SCSIRSTI falls",
        "SCSIRSTI latch sets",
    ),
    (
        BUSFREE,
        "BUSFREE rises",
        "BUSFREE falls",
        "BUSFREE latch sets",
    ),
    (
        SCSIPERR,
        "SCSIPERR rises",
        "SCSIPERR falls",
        "SCSIPERR latch sets",
    ),
    (
        PHASECHG,
        "PHASECHG rises",
        "PHASECHG falls",
        "PHASECHG latch sets",
    ),
    (
        REQINIT,
        "REQINIT rises",
        "REQINIT falls",
        "REQINIT latch sets",
    ),
];

/// The same for 34Bh.
const STATUSES0: [(u8, &str, &str, &str); 4] = [
    (SELDO, "SELDO rises", "SELDO falls", "SELDO latch sets"),
    (SELDI, "SELDI rises", "SELDI falls", "SELDI latch sets"),
    (
        SELINGO,
        "SELINGO rises",
        "SELINGO falls",
        "SELINGO latch sets",
    ),
    (
        SPIORDY,
        "SPIORDY rises",
        "SPIORDY falls",
        "SPIORDY latch sets",
    ),
];

fn rises(old: u8, new: u8, bit: u8) -> bool {
    old & bit == 0 && new & bit != 0
}

fn count_state(counts: &mut Counts, before: &Chip, after: &Chip) {
    count_statuses(counts, before, after);
    count_errors(counts, before, after);
    counts.note(
        "counter wrap",
        before.counter == 0xFF_FFFF && after.counter == 0,
    );
    let below = after.offset < after.scsi_fifo.count() as u8;
    counts.note("offset below SCSI FIFO count", below);
    let above = after.offset > after.scsirate & SOFS && after.scsirate & SOFS != 0;
    counts.note("offset above SOFS", above);
    let bit_four = after.dmacntrl1 & (ENSTK32 | 0x10) == 0x10;
    counts.note("stack pointer bit 4 without ENSTK32", bit_four);
    let mode = after.mode();
    counts.note("no mode (1,1)", mode == Mode::None);
    counts.note(
        "automatic ACK in no mode",
        after.automatic_ack && mode == Mode::None,
    );
    counts.note(
        "automatic ACK in Manual mode",
        after.automatic_ack && mode == Mode::Manual,
    );
    counts.note(
        "automatic ACK in Automatic mode",
        after.automatic_ack && mode == Mode::Automatic,
    );
}

fn count_statuses(counts: &mut Counts, before: &Chip, after: &Chip) {
    for (bit, rise, fall, latch) in STATUSES {
        counts.note(rise, rises(before.status1, after.status1, bit));
        counts.note(fall, rises(after.status1, before.status1, bit));
        counts.note(latch, rises(before.latches1, after.latches1, bit));
    }
    for (bit, rise, fall, latch) in STATUSES0 {
        counts.note(rise, rises(before.status0, after.status0, bit));
        counts.note(fall, rises(after.status0, before.status0, bit));
        counts.note(latch, rises(before.latches0, after.latches0, bit));
    }
    // A clear of 34Ch takes both, so an enabled status there keeps its latch;
    // but a clear may leave SCSIPERR alone.
    let unlatched = after.status1 & after.simode1 & !after.latches1;
    assert_eq!(unlatched & !SCSIPERR, 0);
    counts.note("SCSIPERR enabled without latch", unlatched & SCSIPERR != 0);
    let alone = after.latches1 & !after.status1;
    counts.note("SCSIPERR latch without status", alone & SCSIPERR != 0);
    counts.note("REQINIT latch without status", alone & REQINIT != 0);
    let masked = after.latches1 & !after.simode1;
    counts.note("latch with its enable masked", masked != 0);
    let unlatched = after.status0 & after.simode0 & !after.latches0;
    let alone = after.latches0 & !after.status0;
    for (bit, enabled, latch) in [
        (
            SELDO,
            "SELDO enabled without latch",
            "SELDO latch without status",
        ),
        (
            SELDI,
            "SELDI enabled without latch",
            "SELDI latch without status",
        ),
        (
            SELINGO,
            "SELINGO enabled without latch",
            "SELINGO latch without status",
        ),
        (
            SPIORDY,
            "SPIORDY enabled without latch",
            "SPIORDY latch without status",
        ),
    ] {
        counts.note(enabled, unlatched & bit != 0);
        counts.note(latch, alone & bit != 0);
    }
    counts.note("PHASEMIS", after.phase_mismatch());
    counts.note(
        "PHASEMIS enabled",
        after.phase_mismatch() && after.simode1 & PHASEMIS != 0,
    );
    counts.note("SWINT alone", only_software_interrupt(after));
}

fn count_errors(counts: &mut Counts, before: &Chip, after: &Chip) {
    counts.note("SYNCERR rises", rises(before.errors, after.errors, SYNCERR));
    counts.note("SYNCERR falls", rises(after.errors, before.errors, SYNCERR));
    counts.note("FWERR rises", rises(before.errors, after.errors, FWERR));
    counts.note("FWERR falls", rises(after.errors, before.errors, FWERR));
}

fn only_software_interrupt(chip: &Chip) -> bool {
    chip.dmacntrl0 & SWINT != 0 && chip.latches0 | chip.latches1 == 0
}

fn count_event(counts: &mut Counts, before: &Chip, after: &Chip, record: &[u8], answer: &[u8; 16]) {
    let Some(event) = decode(record) else {
        let kind = u32::from(record[0] >> 5);
        counts.note_number("damaged record of kind", kind, record.len() == 4);
        return;
    };
    let code = answer[0] >> 5;
    if code == 0 {
        count_sequencer(counts, before, after, event, answer);
    }
    let reset_rises = !before.sees_reset() && after.sees_reset();
    let holding = before.scsi_fifo.count() + before.host_fifo.count() > 0;
    counts.note("RST rises with bytes held", reset_rises && holding);
    counts.note("RST rises with offset", reset_rises && before.offset > 0);
    counts.note(
        "RST rises with automatic ACK",
        reset_rises && before.automatic_ack,
    );
    match event {
        Event::PowerReset => counts.note("power reset", true),
        Event::RegisterWrite { offset, .. } => {
            counts.note_number("write of", 0x340 + u32::from(offset), true)
        }
        Event::RegisterRead { offset } => {
            counts.note_number("read of", 0x340 + u32::from(offset), true)
        }
        Event::WordWrite { .. } => {
            counts.note("word write", code == 0);
            counts.note("word at 126", code == 0 && before.host_fifo.count() == 126);
            counts.note("word at 127", code == 4 && before.host_fifo.count() == 127);
        }
        Event::WordRead => {
            counts.note("word read", code == 0);
            counts.note("word read at 1", code == 5 && before.host_fifo.count() == 1);
        }
        Event::Lines(_) => count_lines(counts, before, after, code),
        Event::Ticks(ticks) => {
            let fires = before.quiet_ticks < 8 && after.quiet_ticks == 8;
            counts.note("quiet ticks reach 7", after.quiet_ticks == 7);
            counts.note("quiet ticks reach 8", fires);
            counts.note(
                "quiet ticks reach 8 with offset",
                fires && before.offset > 0,
            );
            counts.note(
                "quiet ticks reach 8 with automatic ACK",
                fires && before.automatic_ack,
            );
            counts.note("many ticks", ticks > 0xFFFF);
        }
    }
}

/// Each phase with the name of a bus reset in it.
const RESETS: [(Phase, &str); 8] = [
    (Phase::Idle, "RST rises while idle"),
    (Phase::Waiting, "RST rises while waiting"),
    (Phase::Arbitrating, "RST rises while arbitrating"),
    (Phase::Clearing, "RST rises while clearing"),
    (Phase::Selecting, "RST rises while selecting"),
    (Phase::Holding, "RST rises while holding"),
    (Phase::Answering, "RST rises while answering"),
    (Phase::Answered, "RST rises while answered"),
];

/// Changes of phase from the end of one event to the end of the next.
const CHANGES: [(Phase, Phase, &str); 26] = [
    (Phase::Idle, Phase::Waiting, "idle to waiting"),
    (Phase::Idle, Phase::Answering, "idle to answering"),
    (Phase::Waiting, Phase::Idle, "waiting to idle"),
    (Phase::Waiting, Phase::Arbitrating, "waiting to arbitrating"),
    (Phase::Waiting, Phase::Clearing, "waiting to clearing"),
    (Phase::Waiting, Phase::Selecting, "waiting to selecting"),
    (Phase::Waiting, Phase::Holding, "waiting to holding"),
    (Phase::Waiting, Phase::Answering, "waiting to answering"),
    (Phase::Arbitrating, Phase::Idle, "arbitrating to idle"),
    (Phase::Arbitrating, Phase::Waiting, "arbitrating to waiting"),
    (
        Phase::Arbitrating,
        Phase::Clearing,
        "arbitrating to clearing",
    ),
    (
        Phase::Arbitrating,
        Phase::Selecting,
        "arbitrating to selecting",
    ),
    (Phase::Arbitrating, Phase::Holding, "arbitrating to holding"),
    (
        Phase::Arbitrating,
        Phase::Answering,
        "arbitrating to answering",
    ),
    (Phase::Clearing, Phase::Idle, "clearing to idle"),
    (Phase::Clearing, Phase::Selecting, "clearing to selecting"),
    (Phase::Clearing, Phase::Holding, "clearing to holding"),
    (Phase::Selecting, Phase::Idle, "selecting to idle"),
    (Phase::Selecting, Phase::Holding, "selecting to holding"),
    (Phase::Selecting, Phase::Answering, "selecting to answering"),
    (Phase::Holding, Phase::Idle, "holding to idle"),
    (Phase::Answering, Phase::Idle, "answering to idle"),
    (Phase::Answering, Phase::Waiting, "answering to waiting"),
    (Phase::Answering, Phase::Answered, "answering to answered"),
    (Phase::Answered, Phase::Idle, "answered to idle"),
    (Phase::Answered, Phase::Waiting, "answered to waiting"),
];

fn count_sequencer(
    counts: &mut Counts,
    before: &Chip,
    after: &Chip,
    event: Event,
    answer: &[u8; 16],
) {
    let (from, to) = (before.sequencer.phase, after.sequencer.phase);
    for (first, second, name) in CHANGES {
        counts.note(name, first == from && second == to);
    }
    let reset_rises = !before.sees_reset() && after.sees_reset();
    for (phase, name) in RESETS {
        counts.note(name, reset_rises && from == phase);
    }
    let ticks = match event {
        Event::Ticks(ticks) => ticks,
        _ => 0,
    };
    count_selection(counts, before, after, ticks, answer);
    count_reselection(counts, before, after, ticks);
    if let Event::RegisterWrite {
        offset: SCSISEQ, ..
    } = event
    {
        let gives_up = to == Phase::Idle && !after.sees_reset();
        counts.note(
            "gives up while selecting",
            gives_up && from == Phase::Selecting,
        );
        counts.note("gives up while holding", gives_up && from == Phase::Holding);
        let off = after.scsiseq & ENSELO == 0;
        counts.note(
            "ENSELO off under way",
            off && to == from
                && matches!(
                    to,
                    Phase::Waiting | Phase::Arbitrating | Phase::Clearing | Phase::Selecting
                ),
        );
    }
}

fn count_selection(
    counts: &mut Counts,
    before: &Chip,
    after: &Chip,
    ticks: u32,
    answer: &[u8; 16],
) {
    let (from, to) = (before.sequencer.phase, after.sequencer.phase);
    let times_out = rises(before.status1, after.status1, SELTO);
    for code in 0..4 {
        let chosen = u32::from((after.sxfrctl1 & STIMESEL) >> 3) == code;
        counts.note_number("SELTO by STIMESEL", code, times_out && chosen);
    }
    counts.note("SELTO and idle", times_out && to == Phase::Idle);
    counts.note("SELTO and holding", times_out && to == Phase::Holding);
    counts.note(
        "SELTO within an event from waiting",
        times_out && from == Phase::Waiting,
    );
    counts.note(
        "SELTO by a limit that was lowered",
        times_out && ticks == 1 && before.sequencer.ticks > 640_000,
    );
    counts.note(
        "SELINGO without a selection",
        after.status0 & SELINGO != 0 && to == Phase::Idle,
    );
    let done = rises(before.status0, after.status0, SELDO);
    counts.note("SELDO and an ACK in one event", done && answer[0] & 15 > 0);
    counts.note("SELDO while holding", done && from == Phase::Holding);
    counts.note("SELDO in a tick", done && ticks > 0);
    counts.note("moves in a long event", ticks > 8 && answer[1] >> 3 > 0);
    let lost = ticks > 0 && from == Phase::Arbitrating && to == Phase::Waiting;
    counts.note("arbitration lost in a tick", lost);
    counts.note(
        "arbitration won against others",
        ticks > 0 && to == Phase::Clearing && from == Phase::Arbitrating && after.others.data != 0,
    );
    counts.note(
        "rounds lost in one event",
        ticks > 216
            && from == Phase::Waiting
            && before.others.data.leading_zeros() < after.ids_driven().unwrap_or(0).leading_zeros()
            && to == Phase::Arbitrating,
    );
    let attention = rises(before.scsisig, after.scsisig, ATN) && ticks > 0;
    counts.note(
        "ATN by ENAUTOATNO",
        attention && after.status0 & SELINGO != 0,
    );
    counts.note("ATN by ENAUTOATNI", attention && to == Phase::Answered);
}

fn count_reselection(counts: &mut Counts, before: &Chip, after: &Chip, ticks: u32) {
    let falls = rises(after.status0, before.status0, SELDI);
    counts.note("SELDI noted", after.seldi_noted && !before.seldi_noted);
    counts.note("SELDI cleared by bus free", falls && ticks > 0);
    counts.note("SELDI cleared at once", falls && before.quiet_ticks == 8);
    let answers = ticks > 0
        && before.sequencer.phase == Phase::Answering
        && after.sequencer.phase == Phase::Answered;
    counts.note(
        "SELDI stands at a reselection",
        answers && before.status0 & SELDI != 0,
    );
    counts.note(
        "note forgotten at a reselection",
        answers && before.seldi_noted,
    );
    counts.note(
        "345h changes",
        answers && before.selid != 0 && before.selid != after.selid,
    );
    counts.note(
        "reselected while asked to select",
        answers && after.scsiseq & (TEMODEO | ENSELO) == ENSELO,
    );
}

fn count_lines(counts: &mut Counts, before: &Chip, after: &Chip, code: u8) {
    let rises = !before.sees(REQ) && after.sees(REQ);
    let full = before.scsi_fifo.is_full() && before.offset < before.limit();
    counts.note("code 6 by the SCSI FIFO alone", code == 6 && full);
    counts.note(
        "code 6 by the limit",
        code == 6 && before.offset >= before.limit(),
    );
    counts.note(
        "code 6 with an ACK",
        code == 6 && after.counter != before.counter,
    );
    counts.note("REQ rises while RST is seen", rises && after.sees_reset());
    counts.note(
        "REQ rises while ACK is seen",
        rises && after.others.control & ACK != 0,
    );
    counts.note(
        "ATN by parity error",
        before.scsisig & ATN == 0 && after.scsisig & ATN != 0,
    );
    let rose = after.latches1 & !before.latches1 & REQINIT != 0;
    counts.note(
        "REQINIT rises and falls in one event",
        rose && after.status1 & REQINIT == 0,
    );
    let asynchronous = rises && after.automatic_ack && !after.synchronous();
    counts.note("asynchronous ACK inbound", asynchronous && after.sees(IO));
    counts.note("asynchronous ACK outbound", asynchronous && !after.sees(IO));
}
