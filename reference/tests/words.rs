//! Request R-3: words in one call are the single word events one after another.

mod common;

use common::*;
use reference::answer::Code;
use reference::event::Lines;
use reference::fifo::Fifo;
use reference::image::{read, write, SIZE};
use reference::random::Random;
use reference::streams::{start, stream};
use reference::words::{read_words, read_words_image, write_words, write_words_image, Transfer};
use reference::{step, Chip};
use std::collections::{BTreeMap, BTreeSet};

/// What a buffer holds before a call.
const OLD: u8 = 0xA5;

/// A chip, what a call says of it, and all its buffers hold.
#[derive(Debug, PartialEq)]
struct After {
    chip: Chip,
    done: usize,
    sent_count: usize,
    code: u8,
    data: Vec<u8>,
    sent: Vec<u8>,
}

fn after(chip: Chip, transfer: Transfer, data: Vec<u8>, sent: Vec<u8>) -> After {
    After {
        chip,
        done: transfer.done,
        sent_count: transfer.sent,
        code: transfer.code as u8,
        data,
        sent,
    }
}

/// The single words, up to the first refusal.
fn written_one_by_one(chip: &Chip, data: &[u8]) -> After {
    let mut after = nothing_done(chip, data.to_vec(), vec![OLD; 4 * data.len()]);
    for word in data.chunks(2) {
        let answer = step(&mut after.chip, &[0x60, 0, word[1], word[0]]);
        let acks = usize::from(answer[0] & 15);
        after.code = answer[0] >> 5;
        if after.code != 0 {
            break;
        }
        after.done += 1;
        after.sent[after.sent_count..][..acks].copy_from_slice(&answer[8..8 + acks]);
        after.sent_count += acks;
    }
    after
}

fn read_one_by_one(chip: &Chip, words: usize) -> After {
    let mut after = nothing_done(chip, vec![OLD; 2 * words], vec![]);
    for word in 0..words {
        let answer = step(&mut after.chip, &[0x80, 0, 0, 0]);
        after.code = answer[0] >> 5;
        if after.code != 0 {
            break;
        }
        after.done += 1;
        after.data[2 * word..2 * word + 2].copy_from_slice(&[answer[3], answer[2]]);
    }
    after
}

fn nothing_done(chip: &Chip, data: Vec<u8>, sent: Vec<u8>) -> After {
    After {
        chip: chip.clone(),
        done: 0,
        sent_count: 0,
        code: 0,
        data,
        sent,
    }
}

fn written_in_one_call(chip: &Chip, data: &[u8]) -> After {
    let mut chip = chip.clone();
    let mut sent = vec![OLD; 4 * data.len()];
    let transfer = write_words(&mut chip, data, data.len() / 2, &mut sent);
    after(chip, transfer, data.to_vec(), sent)
}

fn read_in_one_call(chip: &Chip, words: usize) -> After {
    let mut chip = chip.clone();
    let mut data = vec![OLD; 2 * words];
    let transfer = read_words(&mut chip, &mut data, words);
    after(chip, transfer, data, vec![])
}

fn image_of(chip: &Chip) -> [u8; SIZE] {
    let mut image = [OLD; SIZE];
    assert!(write(chip, &mut image));
    image
}

/// The call over the chip's image, which is accepted.
fn written_over_an_image(chip: &Chip, data: &[u8]) -> After {
    let mut image = image_of(chip);
    let mut sent = vec![OLD; 4 * data.len()];
    let transfer = write_words_image(&mut image, data, data.len() / 2, &mut sent);
    let left = read(&image).expect("a call leaves an image that is accepted");
    after(left, transfer, data.to_vec(), sent)
}

fn read_over_an_image(chip: &Chip, words: usize) -> After {
    let mut image = image_of(chip);
    let mut data = vec![OLD; 2 * words];
    let transfer = read_words_image(&mut image, &mut data, words);
    let left = read(&image).expect("a call leaves an image that is accepted");
    after(left, transfer, data, vec![])
}

fn random_bytes(random: &mut Random, count: usize) -> Vec<u8> {
    (0..count).map(|_| random.byte()).collect()
}

/// Few words, some around the lengths at which FIFOs are full, or any.
fn random_length(random: &mut Random) -> usize {
    let length = match random.below(4) {
        0 => random.below(6),
        1 => random.between(60, 74),
        _ => random.below(100),
    };
    length as usize
}

/// Both calls on a chip, by themselves and over its image; the codes.
fn compare(chip: &Chip, random: &mut Random) -> [u8; 2] {
    let length = random_length(random);
    let data = random_bytes(random, 2 * length);
    let written = written_one_by_one(chip, &data);
    assert_eq!(written_in_one_call(chip, &data), written, "{chip:?}");
    let taken = read_one_by_one(chip, length);
    assert_eq!(read_in_one_call(chip, length), taken, "{chip:?}");
    if chip.rests() {
        assert_eq!(written_over_an_image(chip, &data), written, "{chip:?}");
        assert_eq!(read_over_an_image(chip, length), taken, "{chip:?}");
    }
    [written.code, taken.code]
}

/// Compares on many chips; every code that can stop a call comes up.
fn compare_all(seed: u64, mut chips: impl FnMut(&mut dyn FnMut(&Chip))) {
    let mut random = Random::new(seed);
    let mut codes = BTreeSet::new();
    chips(&mut |chip| codes.extend(compare(chip, &mut random)));
    assert_eq!(codes, BTreeSet::from([0, 3, 4, 5]));
}

fn chip_after(records: &[u8]) -> Chip {
    let mut chip = Chip::new();
    for record in records.chunks(4) {
        step(&mut chip, record);
    }
    chip
}

// The same as the single words.

#[test]
fn at_starts() {
    compare_all(1, |look| {
        for seed in 0..6_000 {
            let chip = chip_after(&start(seed));
            (0..8).for_each(|_| look(&chip));
        }
    });
}

#[test]
fn at_chips_of_streams() {
    compare_all(2, |look| {
        for seed in 1..61 {
            let mut chip = Chip::new();
            for record in stream(seed, 2_000).chunks(4) {
                look(&chip);
                step(&mut chip, record);
            }
        }
    });
}

/// Calls one after another, now a write, now a read, on the chip that the last
/// one left; both ways of the port in turn, so that what is written is read.
#[test]
fn one_call_after_another() {
    let mut random = Random::new(3);
    for seed in 0..2_000 {
        let mut chip = chip_after(&start(seed));
        for _ in 0..10 {
            let length = random_length(&mut random) / 3;
            let data = random_bytes(&mut random, 2 * length);
            let control = if random.percent(60) { 0x88 } else { 0x80 };
            step(&mut chip, &[0x32, 0, 0, control]);
            let (call, steps) = if control == 0x88 {
                (
                    written_in_one_call(&chip, &data),
                    written_one_by_one(&chip, &data),
                )
            } else {
                (
                    read_in_one_call(&chip, length),
                    read_one_by_one(&chip, length),
                )
            };
            assert_eq!(call, steps, "{chip:?}");
            chip = call.chip;
        }
    }
}

/// Any chip in range: few of them rest.
fn random_chip(random: &mut Random) -> Chip {
    let mut chip = Chip {
        scsiseq: random.byte() & random.byte(),
        sxfrctl0: random.pick(&[0xE0, 0xE0, 0xE0, 0x60, 0x20, 0xA8, 0xE8]),
        sxfrctl1: random.byte() & 0xFE,
        scsisig: random.byte() & 0xE3 & !random.byte(),
        scsirate: random.pick(&[0, 0, 1, 2, 5, 8, 15]),
        status0: random.byte() & 0x72,
        status1: random.byte() & 0xAF,
        latches1: random.byte() & 0xAF,
        simode0: random.byte() & 0x7F,
        simode1: random.byte(),
        dmacntrl0: random.pick(&[0x88, 0x88, 0x80, 0x80, 0xC8, 0x00]),
        counter: random.pick(&[0, 0xFF_FFFC, 0xFF_FFFF]),
        offset: random.below(9) as u8,
        automatic_ack: random.percent(30),
        quiet_ticks: random.below(9) as u8,
        ..Chip::new()
    };
    let phase = chip.scsisig & 0xE0;
    chip.others = Lines {
        data: random.byte(),
        parity: random.percent(50),
        reset: random.percent(4),
        control: if random.percent(80) {
            phase | 4 | random.byte() & 3
        } else {
            random.byte()
        },
    };
    let (scsi, host) = (
        random.below(9),
        random.pick(&[0, 0, 1, 2, 64, 125, 126, 127, 128]),
    );
    (0..scsi).for_each(|_| chip.scsi_fifo.put(random.byte()));
    (0..host).for_each(|_| chip.host_fifo.put(random.byte()));
    chip
}

#[test]
fn at_chips_that_do_not_rest() {
    let mut resting = 0;
    compare_all(4, |look| {
        let mut random = Random::new(5);
        for _ in 0..100_000 {
            let chip = random_chip(&mut random);
            resting += usize::from(chip.rests());
            look(&chip);
        }
    });
    assert!((1_000..10_000).contains(&resting), "{resting} rest");
}

/// One word brings a chip to rest, if it is done.
#[test]
fn a_word_brings_to_rest() {
    let mut random = Random::new(6);
    for _ in 0..50_000 {
        let mut chip = random_chip(&mut random);
        let record = random.pick(&[0x6000_4241_u32, 0x8000_0000]);
        let answer = step(&mut chip, &record.to_be_bytes());
        assert!(answer[0] >> 5 != 0 || chip.rests(), "{chip:?}");
    }
}

// Which starts there are.

const COUNTS_AT_EDGES: [usize; 7] = [0, 1, 2, 125, 126, 127, 128];

type Feature = (&'static str, usize);

/// What a start is: names with numbers.
fn features(chip: &Chip) -> BTreeSet<Feature> {
    let all = match chip.dmacntrl0 & 0xE8 {
        0x88 => write_features(chip),
        0x80 => read_features(chip),
        _ => vec![],
    };
    all.into_iter()
        .filter(|(holds, _)| *holds)
        .map(|(_, feature)| feature)
        .collect()
}

fn answers(chip: &Chip, synchronously: bool) -> bool {
    chip.path() && chip.scsi_enabled() && chip.matched() && chip.synchronous() == synchronously
}

fn asks(chip: &Chip) -> bool {
    chip.others.control & 2 != 0 && !chip.automatic_ack
}

fn write_features(chip: &Chip) -> Vec<(bool, Feature)> {
    let (scsi, host) = (chip.scsi_fifo.count(), chip.host_fifo.count());
    let (path, ack, offset) = (chip.path(), chip.automatic_ack, chip.offset.into());
    let open = answers(chip, true) && scsi == 0;
    vec![
        (!path, ("write without path, host", host)),
        (path && host == 0, ("write with path, SCSI", scsi)),
        (path && scsi == 8, ("write, full SCSI, host", host)),
        (path && !chip.scsi_enabled(), ("write, off, offset", offset)),
        (open, ("write, offset open", offset)),
        (
            answers(chip, false) && asks(chip),
            ("write, REQ waits, SCSI", scsi),
        ),
        (
            answers(chip, false) && ack,
            ("write, automatic ACK, host", host.min(1)),
        ),
    ]
}

fn read_features(chip: &Chip) -> Vec<(bool, Feature)> {
    let (scsi, host) = (chip.scsi_fifo.count(), chip.host_fifo.count());
    let (path, offset) = (chip.path(), usize::from(chip.offset));
    let asynchronous = answers(chip, false);
    vec![
        (!path, ("read without path, host", host)),
        (path && scsi == 0, ("read with path, host", host)),
        (path && host == 128, ("read, full host, SCSI", scsi)),
        (asynchronous && asks(chip), ("read, REQ waits, SCSI", scsi)),
        (
            asynchronous && chip.automatic_ack,
            ("read, automatic ACK, SCSI", scsi),
        ),
        (
            answers(chip, true) && scsi == 8,
            ("read, full SCSI, offset", offset),
        ),
        (
            answers(chip, true) && scsi == offset,
            ("read, SCSI as offset", scsi),
        ),
        (pending_but_off(chip), ("read, off, REQ waits, SCSI", scsi)),
    ]
}

/// The host FIFO full, an asynchronous REQ with IO, and SCSIEN off.
fn pending_but_off(chip: &Chip) -> bool {
    let off = chip.path() && chip.matched() && !chip.scsi_enabled();
    off && !chip.synchronous() && chip.host_fifo.is_full() && asks(chip)
}

fn expected_features() -> BTreeSet<Feature> {
    let mut expected = BTreeSet::from([
        ("write, REQ waits, SCSI", 0),
        ("write, automatic ACK, host", 0),
        ("write, automatic ACK, host", 1),
        ("read, REQ waits, SCSI", 8),
    ]);
    for host in COUNTS_AT_EDGES {
        expected.insert(("write without path, host", host));
        expected.insert(("write, full SCSI, host", host));
        expected.insert(("read without path, host", host));
        expected.insert(("read with path, host", host));
    }
    for number in 0..=8 {
        expected.insert(("write with path, SCSI", number));
        expected.insert(("write, offset open", number));
        expected.insert(("write, off, offset", number));
        expected.insert(("read, full host, SCSI", number));
        expected.insert(("read, full SCSI, offset", number));
        expected.insert(("read, SCSI as offset", number));
        expected.insert(("read, off, REQ waits, SCSI", number));
        expected.insert(("read, automatic ACK, SCSI", number));
    }
    expected
}

/// Not by a single lucky seed: each comes up several times.
#[test]
fn the_starts_meet_every_edge() {
    let mut times = BTreeMap::new();
    for seed in 0..10_000 {
        for feature in features(&chip_after(&start(seed))) {
            *times.entry(feature).or_insert(0) += 1;
        }
    }
    for feature in expected_features() {
        let met = times.get(&feature).copied().unwrap_or(0);
        assert!(met >= 4, "{feature:?}: {met} times");
    }
}

// Worked examples.

fn write_all(bench: &mut Bench, words: usize) -> After {
    let data: Vec<u8> = (0..2 * words).map(|place| place as u8).collect();
    let after = written_in_one_call(&bench.chip, &data);
    bench.chip = after.chip.clone();
    after
}

/// The host FIFO holds 64 words, with a path 8 bytes more, and each REQ that
/// waits takes one more.
#[test]
fn how_much_a_write_call_takes() {
    let mut bench = Bench::new();
    bench.write(0x352, 0x88);
    let after = write_all(&mut bench, 100);
    assert_eq!((after.done, after.sent_count, after.code), (64, 0, 4));
    for (sofs, requests, words) in [
        (0, 0, 68),
        (0, 1, 68),
        (8, 1, 68),
        (8, 2, 69),
        (8, 7, 71),
        (8, 8, 72),
    ] {
        let mut bench = Bench::write_run(sofs);
        for _ in 0..requests {
            bench.lines(BSY);
            bench.lines(BSY | REQ);
        }
        let after = write_all(&mut bench, 100);
        assert_eq!(
            (after.done, after.sent_count, after.code),
            (words, requests, 4)
        );
        assert_eq!(after.sent[..requests], after.data[..requests]);
        assert!(after.sent[requests..].iter().all(|byte| *byte == OLD));
        assert_eq!(bench.counter(), requests as u32);
    }
}

/// 120 bytes held, so that 4 words of 64 have room.
#[test]
fn a_nearly_full_fifo() {
    let mut bench = Bench::new();
    bench.write(0x352, 0x88);
    assert_eq!(write_all(&mut bench, 60).code, 0);
    let after = write_all(&mut bench, 64);
    assert_eq!((after.done, after.code), (4, 4));
    let again = write_all(&mut bench, 1);
    assert_eq!((again.done, again.code), (0, 4));
    assert_eq!(again.chip, after.chip);
    bench.write(0x352, 0x80);
    let after = read_in_one_call(&bench.chip, 80);
    assert_eq!((after.done, after.code), (64, 5));
    assert_eq!(after.data[118..122], [118, 119, 0, 1]);
    assert_eq!(after.data[128..], [OLD; 32]);
}

/// 136 bytes and a REQ whose byte has no room: 68 words, and that byte stays.
#[test]
fn the_longest_read_call() {
    let mut bench = Bench::read_run(0);
    for byte in 0..137 {
        bench.data_lines(byte, 0, BSY | IO | REQ);
        if byte < 136 {
            bench.lines(BSY | IO);
        }
    }
    bench.write(0x352, 0x80);
    assert_eq!(bench.counter(), 136);
    let after = read_in_one_call(&bench.chip, 100);
    assert_eq!((after.done, after.code), (68, 5));
    let bytes: Vec<u8> = (0..136).collect();
    assert_eq!(after.data[..136], bytes);
    bench.chip = after.chip;
    assert_eq!(bench.counter(), 137);
    bench.write(0x352, 0xC0);
    assert_eq!(bench.read(0x356), 136);
}

// Refusals.

/// "before any word, and nothing is written", whatever the port.
#[test]
fn wrong_buffers_are_refused_before_any_word() {
    let mut bench = Bench::write_run(0);
    bench.lines(BSY | REQ);
    let mut reading = bench.chip.clone();
    step(&mut reading, &[0x32, 0, 0, 0x80]);
    let huge = [
        usize::MAX / 2 + 1,
        usize::MAX,
        usize::MAX / 2 + 5,
        usize::MAX / 8 + 1,
        usize::MAX / 4 + 3,
    ];
    let lengths = [(1, 0), (0, 2), (4, 7), (4, 9), (4, 6), (4, 10)];
    let all = huge.iter().map(|words| (*words, 8)).chain(lengths);
    for (words, length) in all {
        assert_write_refused(&bench.chip, words, length, 100);
        assert_read_refused(&reading, words, length);
    }
    for sent_length in [0, 8, 31] {
        assert_write_refused(&bench.chip, 4, 8, sent_length);
    }
}

fn assert_write_refused(chip: &Chip, words: usize, length: usize, sent_length: usize) {
    let (mut after, mut image) = (chip.clone(), image_of(chip));
    let (data, mut sent) = (vec![1; length], vec![OLD; sent_length]);
    let transfer = write_words(&mut after, &data, words, &mut sent);
    assert_eq!(
        (transfer.done, transfer.sent, transfer.code),
        (0, 0, Code::BadRecord)
    );
    assert_eq!(
        write_words_image(&mut image, &data, words, &mut sent),
        transfer
    );
    assert_eq!(sent, vec![OLD; sent_length]);
    assert_eq!((&after, image), (chip, image_of(chip)));
}

fn assert_read_refused(chip: &Chip, words: usize, length: usize) {
    let (mut after, mut image) = (chip.clone(), image_of(chip));
    let mut data = vec![OLD; length];
    let transfer = read_words(&mut after, &mut data, words);
    assert_eq!((transfer.done, transfer.code), (0, Code::BadRecord));
    assert_eq!(read_words_image(&mut image, &mut data, words), transfer);
    assert_eq!(data, vec![OLD; length]);
    assert_eq!((&after, image), (chip, image_of(chip)));
}

/// A sent buffer may be larger; what is past the last byte stays.
#[test]
fn a_larger_sent_buffer() {
    let mut chip = Bench::write_run(0).chip;
    step(&mut chip, &[0xA0, 0, 0, 6]);
    let mut sent = [OLD; 20];
    let transfer = write_words(&mut chip, &[1, 2], 1, &mut sent);
    assert_eq!(
        (transfer.done, transfer.sent, transfer.code),
        (1, 1, Code::Done)
    );
    assert_eq!(sent[..2], [1, OLD]);
}

/// No words: done, whether the port is open or not.
#[test]
fn no_words() {
    for chip in [
        Chip::new(),
        Bench::write_run(8).chip,
        Bench::read_run(0).chip,
    ] {
        let mut after = chip.clone();
        let nothing = Transfer {
            done: 0,
            sent: 0,
            code: Code::Done,
        };
        assert_eq!(write_words(&mut after, &[], 0, &mut []), nothing);
        assert_eq!(write_words(&mut after, &[], 0, &mut [OLD; 3]), nothing);
        assert_eq!(read_words(&mut after, &mut [], 0), nothing);
        assert_eq!(after, chip);
    }
}

/// An image that a step refuses: code 1, also for no words.
#[test]
fn a_refused_image() {
    let mut bench = Bench::new();
    bench.write(0x352, 0x88);
    let good = image_of(&bench.chip);
    let mut damaged = good.to_vec();
    damaged[1] |= 1;
    for image in [
        damaged,
        good[..202].to_vec(),
        vec![],
        [&good[..], &[0]].concat(),
    ] {
        for words in [0, 1, 70] {
            let (mut handed, mut buffer) = (image.clone(), vec![OLD; 2 * words]);
            let mut sent = vec![OLD; 8 * words];
            let written = write_words_image(&mut handed, &buffer, words, &mut sent);
            assert_eq!(
                (written.done, written.sent, written.code),
                (0, 0, Code::BadRecord)
            );
            assert_eq!(read_words_image(&mut handed, &mut buffer, words), written);
            assert_eq!(
                (handed, buffer, sent),
                (image.clone(), vec![OLD; 2 * words], vec![OLD; 8 * words])
            );
        }
    }
}

/// Blocks of a FIFO are its single bytes.
#[test]
fn blocks_of_a_fifo() {
    let mut random = Random::new(7);
    let (mut blocks, mut singles) = (Fifo::<128>::new(), Fifo::<128>::new());
    for _ in 0..10_000 {
        let count = random.below(blocks.room() as u32 + 1) as usize;
        let bytes = random_bytes(&mut random, count);
        blocks.put_all(&bytes);
        bytes.iter().for_each(|byte| singles.put(*byte));
        assert_eq!(blocks, singles);
        let mut taken = vec![0; random.below(blocks.count() as u32 + 1) as usize];
        blocks.take_all(&mut taken);
        assert!(taken.iter().all(|byte| *byte == singles.take()));
        assert_eq!(blocks, singles);
    }
}
