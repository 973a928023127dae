//! Request R-5: the image of a chip, which images are accepted, and the calls.

mod common;

use common::sequencer::*;
use common::*;
use reference::fifo::Fifo;
use reference::image::{read, run_image, step_image, write, SIZE};
use reference::random::Random;
use reference::sequencer::{Phase, Sequencer};
use reference::streams::stream;
use reference::{step, Chip};

/// A read of 35Ch: it is done wherever the image is accepted, and changes nothing.
const READ_REV: [u8; 4] = [0x5C, 0, 0, 0];
/// The answer to a refused image.
const REFUSED: [u8; 16] = {
    let mut answer = [0; 16];
    answer[0] = 0x20;
    answer
};
/// What a buffer holds before a call.
const OLD: u8 = 0xA5;

fn image_of(chip: &Chip) -> [u8; SIZE] {
    let mut image = [OLD; SIZE];
    assert!(write(chip, &mut image));
    image
}

/// Chips of random streams, and each stream from its start.
fn reached(seeds: std::ops::Range<u64>, length: usize, mut look: impl FnMut(&Chip, &[u8])) {
    for seed in seeds {
        let mut chip = Chip::new();
        for record in stream(seed, length).chunks(4) {
            look(&chip, record);
            step(&mut chip, record);
        }
    }
}

/// Both calls leave a refused image and any buffer as they say.
fn assert_refused(image: &[u8], why: &str) {
    assert_eq!(read(image), None, "{why}");
    let mut handed = image.to_vec();
    let mut answer = [OLD; 16];
    assert_eq!(step_image(&mut handed, &READ_REV, &mut answer), 1, "{why}");
    assert_eq!(answer, REFUSED, "{why}");
    let mut answers = [OLD; 40];
    assert_eq!(run_image(&mut handed, &[0; 12], &mut answers), 2, "{why}");
    assert_eq!(answers[..16], REFUSED, "{why}");
    assert_eq!(answers[16..32], REFUSED, "{why}");
    assert_eq!(answers[32..], [OLD; 8], "{why}");
    assert_eq!(handed, image, "{why}");
}

/// One byte of an accepted image is another.
fn assert_refused_with(chip: &Chip, place: usize, byte: u8, why: &str) {
    let mut image = image_of(chip);
    assert_eq!(read(&image).as_ref(), Some(chip), "{why}");
    image[place] = byte;
    assert_refused(&image, why);
}

/// A chip whose fields all differ, so that no two can be taken for each other;
/// it rests.
fn manifold() -> Chip {
    let mut chip = Chip {
        scsiseq: 0x8E,
        sxfrctl0: 0x28,
        sxfrctl1: 0xD2,
        scsisig: 0x53,
        scsirate: 0x3D,
        scsiid: 0x25,
        selid: 0x9A,
        data_latch: 0x67,
        counter: 0x12_3456,
        status0: 0x42,
        status1: 0xA1,
        latches0: 0x22,
        latches1: 0x8A,
        seldi_noted: true,
        kept_parity_bad: true,
        errors: 0x04,
        simode0: 0x7B,
        simode1: 0xC5,
        dmacntrl0: 0xED,
        dmacntrl1: 0x97,
        brstcntrl: 0xB8,
        id_place: 0x1D,
        offset: 7,
        automatic_ack: false,
        last_sent: 0xF1,
        quiet_ticks: 5,
        sequencer: Sequencer {
            phase: Phase::Idle,
            ticks: 0x65_4321,
        },
        others: reference::event::Lines {
            data: 0xC9,
            parity: true,
            reset: false,
            control: 0xB0,
        },
        ..Chip::new()
    };
    for byte in 0..32 {
        chip.stack[byte] = 0x80 + byte as u8;
    }
    for byte in 0..6 {
        chip.scsi_fifo.put(0xD0 + byte);
    }
    for byte in 0..100 {
        chip.host_fifo.put(1 + byte);
    }
    chip
}

// One chip, one image.

/// "An image of zeros is a chip after power reset".
#[test]
fn an_image_of_zeros_is_power_reset() {
    assert_eq!(image_of(&Chip::new()), [0; SIZE]);
    assert_eq!(read(&[0; SIZE]), Some(Chip::new()));
}

/// "Both exact": nothing is written into a slice of another length.
#[test]
fn a_chip_is_written_into_203_bytes_only() {
    for length in [0, 1, 202, 204, 406] {
        let mut slice = vec![OLD; length];
        assert!(!write(&manifold(), &mut slice));
        assert_eq!(slice, vec![OLD; length]);
    }
}

/// "reading what was written gives that chip; writing what was read gives the
/// same bytes".
#[test]
fn reached_chips_come_back() {
    let mut count = 0;
    reached(1..41, 2_000, |chip, _| {
        let image = image_of(chip);
        let again = read(&image).expect("every chip that an event has left is accepted");
        assert_eq!(again, *chip);
        assert_eq!(image_of(&again), image);
        count += 1;
    });
    assert_eq!(count, 80_000);
}

/// "two chips with the same image are the same", wherever a FIFO's bytes lie in
/// its ring.
#[test]
fn the_image_does_not_show_the_ring() {
    let mut turned = manifold();
    turned.host_fifo = Fifo::new();
    turned.scsi_fifo = Fifo::new();
    for _ in 0..3 {
        turned.scsi_fifo.put(0xEE);
        turned.scsi_fifo.take();
    }
    for _ in 0..90 {
        turned.host_fifo.put(0xEE);
        turned.host_fifo.take();
    }
    for byte in 0..6 {
        turned.scsi_fifo.put(0xD0 + byte);
    }
    for byte in 0..100 {
        turned.host_fifo.put(1 + byte);
    }
    assert_eq!(turned, manifold());
    assert_eq!(image_of(&turned), image_of(&manifold()));
}

/// Every byte of docs/IMAGE.md, of a chip whose fields all differ.
#[test]
fn every_byte_is_in_its_place() {
    let image = image_of(&manifold());
    let registers = [
        0x8E, 0x28, 0xD2, 0x53, 0x3D, 0x25, 0x67, 0x7B, 0xC5, 0xED, 0x80, 0xB8,
    ];
    assert_eq!(image[0..12], registers);
    // SPIORDY, SCSIRSTI, REQINIT and SYNCERR; latches SPIORDY, BUSFREE, PHASECHG.
    assert_eq!(image[12..14], [0b1100_0110, 0b0010_1010]);
    // Others' data, parity without RST, control lines.
    assert_eq!(image[14..17], [0xC9, 0b10, 0xB0]);
    // Offset, automatic ACK, last sent, quiet ticks, ID place, pointer, parity.
    assert_eq!(image[17..24], [7, 0, 0xF1, 5, 0x1D, 0x17, 1]);
    // SELDO, SELTO and noted, idle; latches SELDI and SELTO.
    assert_eq!(image[24..26], [0b1011_0000, 0b0101]);
    // The ticks of the phase, 345h on read, both counts, the counter.
    assert_eq!(image[26..30], [0x65, 0x43, 0x21, 0x9A]);
    assert_eq!(image[30..35], [6, 100, 0x12, 0x34, 0x56]);
    assert_eq!(image[35..43], [0xD0, 0xD1, 0xD2, 0xD3, 0xD4, 0xD5, 0, 0]);
    for place in 0..32 {
        assert_eq!(image[43 + place], 0x80 + place as u8);
    }
    for place in 0..128 {
        let byte = if place < 100 { 1 + place as u8 } else { 0 };
        assert_eq!(image[75 + place], byte);
    }
}

/// Reading takes every field from where writing puts it: a bit that changes in
/// an accepted image changes the chip, and comes back as the same image.
#[test]
fn no_two_fields_are_swapped() {
    let whole = image_of(&manifold());
    assert_eq!(read(&whole), Some(manifold()));
    let mut accepted = 0;
    for bit in 0..8 * SIZE {
        let mut image = whole;
        image[bit / 8] ^= 0x80 >> (bit % 8);
        if let Some(chip) = read(&image) {
            assert_ne!(chip, manifold(), "bit {bit}");
            assert_eq!(image_of(&chip), image, "bit {bit}");
            accepted += 1;
        } else {
            assert_refused(&image, "a changed bit");
        }
    }
    assert!(accepted > 1_100, "{accepted}");
}

/// The phase's number of docs/IMAGE.md.
#[test]
fn each_phase_has_its_number() {
    for (number, phase) in PHASES.into_iter().enumerate() {
        let bench = at(phase);
        let image = image_of(&bench.chip);
        assert_eq!(usize::from(image[24] & 7), number);
        assert_eq!(read(&image), Some(bench.chip));
    }
}

/// Each status and each latch alone.
#[test]
fn each_status_has_its_bit() {
    let statuses = [
        (0x02, 0x00, 0x00, 12, 7), // SPIORDY
        (0x00, 0x20, 0x00, 12, 6), // SCSIRSTI
        (0x00, 0x08, 0x00, 12, 5), // BUSFREE
        (0x00, 0x02, 0x00, 12, 3), // PHASECHG
        (0x00, 0x01, 0x00, 12, 2), // REQINIT
        (0x00, 0x00, 0x04, 12, 1), // SYNCERR
        (0x00, 0x00, 0x02, 12, 0), // FWERR
        (0x40, 0x00, 0x00, 24, 7), // SELDO
        (0x20, 0x00, 0x00, 24, 6), // SELDI
        (0x00, 0x80, 0x00, 24, 5), // SELTO
        (0x10, 0x00, 0x00, 24, 3), // SELINGO
    ];
    for (status0, status1, errors, place, bit) in statuses {
        let chip = Chip {
            status0,
            status1,
            errors,
            ..Chip::new()
        };
        assert_bit(&chip, place, bit);
    }
    let latches = [
        (0x02, 0x00, 13, 5), // SPIORDY
        (0x00, 0x20, 13, 4), // SCSIRSTI
        (0x00, 0x08, 13, 3), // BUSFREE
        (0x00, 0x04, 13, 2), // SCSIPERR
        (0x00, 0x02, 13, 1), // PHASECHG
        (0x00, 0x01, 13, 0), // REQINIT
        (0x40, 0x00, 25, 3), // SELDO
        (0x20, 0x00, 25, 2), // SELDI
        (0x10, 0x00, 25, 1), // SELINGO
        (0x00, 0x80, 25, 0), // SELTO
    ];
    for (latches0, latches1, place, bit) in latches {
        let chip = Chip {
            latches0,
            latches1,
            ..Chip::new()
        };
        assert_bit(&chip, place, bit);
    }
}

/// SCSIPERR stays only with ENSPCHK.
#[test]
fn scsiperr_has_its_bit() {
    let chip = Chip {
        status1: 0x04,
        sxfrctl1: 0x20,
        ..Chip::new()
    };
    let mut image = [0; SIZE];
    image[2] = 0x20;
    image[12] = 0x10;
    assert_eq!(image_of(&chip), image);
    assert_eq!(read(&image), Some(chip));
    image[2] = 0;
    assert_refused(&image, "SCSIPERR held at 0");
}

fn assert_bit(chip: &Chip, place: usize, bit: u32) {
    let mut image = [0; SIZE];
    image[place] = 1 << bit;
    assert_eq!(image_of(chip), image);
    assert_eq!(read(&image).as_ref(), Some(chip));
}

// Refusals, each alone.

/// "an image of the wrong length".
#[test]
fn another_length_is_refused() {
    for length in [0, 1, 16, 202, 204, 406] {
        assert_refused(&vec![0; length], "length");
    }
    let whole = image_of(&manifold());
    assert_refused(&whole[..202], "one byte less");
    assert_refused(&[&whole[..], &[0]].concat(), "one byte more");
}

/// "a FIFO count above its size".
#[test]
fn a_count_above_its_size_is_refused() {
    let mut full = Chip::new();
    for byte in 0..8 {
        full.scsi_fifo.put(1 + byte);
    }
    for byte in 0..128 {
        full.host_fifo.put(1 + byte);
    }
    for count in [9, 16, 255] {
        assert_refused_with(&full, 30, count, "SCSI FIFO count");
    }
    for count in [129, 130, 255] {
        assert_refused_with(&full, 31, count, "host FIFO count");
    }
}

/// "an offset or quiet count above 8".
#[test]
fn an_offset_or_quiet_count_above_8_is_refused() {
    let full = Chip {
        offset: 8,
        quiet_ticks: 8,
        ..Chip::new()
    };
    for number in [9, 16, 255] {
        assert_refused_with(&full, 17, number, "offset");
        assert_refused_with(&full, 20, number, "quiet ticks");
    }
}

/// "an unused bit ... not 0": each of them, by docs/IMAGE.md.
#[test]
fn every_unused_bit_is_refused() {
    let unused = [
        (1, 0x17),
        (2, 0x01),
        (4, 0x80),
        (5, 0x88),
        (7, 0x80),
        (9, 0x02),
        (10, 0x3F),
        (13, 0xC0),
        (15, 0xFC),
        (18, 0xFE),
        (21, 0xE0),
        (22, 0xE0),
        (23, 0xFE),
        (25, 0xF0),
    ];
    for chip in [Chip::new(), manifold()] {
        for (place, mask) in unused {
            let byte = image_of(&chip)[place];
            for bit in (0..8).filter(|bit| mask >> bit & 1 == 1) {
                assert_refused_with(&chip, place, byte | 1 << bit, "unused bit");
            }
        }
    }
}

/// "a byte past a count not 0".
#[test]
fn a_byte_past_a_count_is_refused() {
    for chip in [Chip::new(), manifold()] {
        for place in 35 + chip.scsi_fifo.count()..43 {
            assert_refused_with(&chip, place, 0x01, "past the SCSI FIFO's count");
        }
        for place in 75 + chip.host_fifo.count()..SIZE {
            assert_refused_with(&chip, place, 0x80, "past the host FIFO's count");
        }
    }
}

/// A chip that has been changed so that an event of 0 ticks would change it.
fn assert_restless(chip: Chip, why: &str) {
    let mut later = chip.clone();
    step(&mut later, &[0xC0, 0, 0, 0]);
    assert_ne!(chip, later, "{why}");
    assert_refused(&image_of(&chip), why);
}

/// "a chip that 0 ticks would change": moves and handshakes.
#[test]
fn a_chip_that_would_settle_is_refused() {
    let mut move_out = Bench::write_run(0).chip;
    move_out.host_fifo.put(0x41);
    assert_restless(move_out, "a move to the SCSI FIFO");

    let mut move_in = Bench::read_run(0).chip;
    move_in.scsi_fifo.put(0x41);
    assert_restless(move_in, "a move to the host FIFO");

    let mut asked_for = Bench::write_run(0).chip;
    asked_for.scsi_fifo.put(0x41);
    asked_for.others.control |= REQ as u8;
    assert_restless(asked_for, "an asynchronous handshake");

    let mut owed = Bench::write_run(4).chip;
    owed.scsi_fifo.put(0x41);
    owed.offset = 1;
    assert_restless(owed, "a synchronous handshake");
}

/// The same: what stands at an event's end.
#[test]
fn a_chip_that_a_status_awaits_is_refused() {
    let mut error = Bench::write_run(0).chip;
    error.dmacntrl0 &= !0x08;
    assert_restless(error, "FWERR");

    let mut ready = Bench::new();
    ready.write(0x341, 0x08);
    ready.lines(BSY);
    ready.chip.others.control |= REQ as u8;
    assert_restless(ready.chip, "SPIORDY");

    let acknowledged = Chip {
        status1: 0x01,
        automatic_ack: true,
        ..Chip::new()
    };
    assert_restless(acknowledged, "REQINIT with ACK seen");
}

/// The same: quiet ticks on a bus that is held, and the sequencer's turn.
#[test]
fn a_chip_that_the_bus_would_change_is_refused() {
    let mut held = Bench::write_run(0).chip;
    held.quiet_ticks = 1;
    assert_restless(held, "quiet ticks with BSY seen");

    let waiting = Chip {
        scsiseq: 0x40,
        ..Chip::new()
    };
    assert_restless(waiting, "asked and idle");

    let mut reset = at(Phase::Selecting).chip;
    reset.others.reset = true;
    assert_restless(reset, "a phase with RST seen");

    let mut won = at(Phase::Selecting).chip;
    won.others.control |= BSY as u8;
    assert_restless(won, "selecting with BSY");

    let mut left = at(Phase::Answered).chip;
    left.others.control &= !SEL as u8;
    assert_restless(left, "answered without SEL");
}

// The calls.

/// "the new image in place of the old; the answer as `step::step`".
#[test]
fn calls_over_an_image_step_the_chip() {
    for seed in 1..31 {
        let mut chip = Chip::new();
        let mut image = [0; SIZE];
        for record in stream(seed, 2_000).chunks(4) {
            let mut answer = [OLD; 16];
            let code = step_image(&mut image, record, &mut answer);
            assert_eq!(answer, step(&mut chip, record));
            assert_eq!(code, answer[0] >> 5);
            assert_eq!(image, image_of(&chip));
        }
    }
}

/// A run is its single calls, from where the chip stands, in pieces of any size.
#[test]
fn a_run_is_its_calls() {
    let mut random = Random::new(5);
    for seed in 1..31 {
        let records = stream(seed, 2_000);
        let (mut whole, mut single) = ([0; SIZE], [0; SIZE]);
        let mut left = &records[..];
        while !left.is_empty() {
            let (piece, rest) = left.split_at(left.len().min(4 * random.between(1, 50) as usize));
            let mut answers = vec![OLD; 16 * piece.len().div_ceil(4)];
            let count = run_image(&mut whole, piece, &mut answers);
            assert_eq!(16 * count, answers.len());
            for (record, answer) in piece.chunks(4).zip(answers.chunks(16)) {
                let mut expected = [0; 16];
                step_image(&mut single, record, &mut expected);
                assert_eq!(answer, expected);
            }
            assert_eq!(whole, single);
            left = rest;
        }
    }
}

/// "as many as there is room for whole answers"; "a last piece of 1 to 3 bytes
/// is a record too".
#[test]
fn a_run_ends_with_its_records_or_its_room() {
    let records = [0x5F, 0, 0, 0, 0x5F, 0, 0, 0, 0x5F];
    for (length, room, count) in [
        (9, 48, 3),
        (9, 47, 2),
        (9, 64, 3),
        (8, 64, 2),
        (9, 15, 0),
        (0, 64, 0),
        (1, 16, 1),
    ] {
        let mut image = [0; SIZE];
        let mut answers = vec![OLD; room];
        assert_eq!(
            run_image(&mut image, &records[..length], &mut answers),
            count
        );
        assert!(answers[16 * count..].iter().all(|byte| *byte == OLD));
        // Each done read of 35Fh is one ID byte further.
        assert_eq!(usize::from(image[21]), count.min(length / 4));
        let mut refused = [OLD; SIZE];
        assert_eq!(
            run_image(&mut refused, &records[..length], &mut answers),
            count
        );
        assert!(answers[..16 * count]
            .chunks(16)
            .all(|answer| answer == REFUSED));
        assert!(answers[16 * count..].iter().all(|byte| *byte == OLD));
        assert_eq!(refused, [OLD; SIZE]);
    }
}

/// "found before the record is looked at": the answer to a bad record shows the
/// state, that to a bad image shows nothing.
#[test]
fn the_image_is_looked_at_before_the_record() {
    let mut image = image_of(&manifold());
    let mut answer = [OLD; 16];
    assert_eq!(step_image(&mut image, &[0xE0, 0, 0, 0], &mut answer), 1);
    assert_eq!(answer[..8], [0x30, 0, 0, 0, 0x10, 0, 0x76, 100]);
    assert_eq!(image, image_of(&manifold()));
    image[1] |= 1;
    let before = image;
    for record in [&[0xE0, 0, 0, 0][..], &[0; 4], &[0; 3], &[], &READ_REV] {
        answer = [OLD; 16];
        assert_eq!(step_image(&mut image, record, &mut answer), 1);
        assert_eq!(answer, REFUSED);
        assert_eq!(image, before);
    }
}

/// "another buffer is not touched", whether the image is accepted or not.
#[test]
fn another_answer_buffer_is_not_touched() {
    let accepted = image_of(&manifold());
    let mut damaged = accepted;
    damaged[31] = 129;
    for before in [accepted, damaged] {
        for length in [0, 1, 15, 17, 32] {
            let mut image = before;
            let mut answer = vec![OLD; length];
            // A power reset would change the image.
            assert_eq!(step_image(&mut image, &[0; 4], &mut answer), 1);
            assert_eq!(answer, vec![OLD; length]);
            assert_eq!(image, before);
        }
    }
}

/// A refused access leaves the image as it is, and shows the state.
#[test]
fn a_refused_access_changes_no_byte() {
    let before = image_of(&manifold());
    for (record, code) in [
        (0x5700_0000_u32, 2), // 357h is absent
        (0x2E00_0001, 7),     // 34Eh
        (0x8000_0000, 3),     // a word read: DMA is set
        (0xE000_0000, 1),     // kind 7
    ] {
        let mut image = before;
        let mut answer = [OLD; 16];
        assert_eq!(
            step_image(&mut image, &record.to_be_bytes(), &mut answer),
            code
        );
        assert_eq!(answer[7], 100);
        assert_eq!(image, before);
    }
}

/// Every single bit of images of reached chips: refused, or the changed chip's
/// own step.
#[test]
fn a_changed_bit_is_refused_or_steps_as_the_changed_chip() {
    let mut random = Random::new(9);
    let (mut refused, mut stepped) = (0, 0);
    reached(50..62, 500, |chip, record| {
        if !random.percent(4) {
            return;
        }
        for bit in 0..8 * SIZE {
            let mut image = image_of(chip);
            image[bit / 8] ^= 0x80 >> (bit % 8);
            let Some(mut changed) = read(&image) else {
                assert_refused(&image, "a changed bit");
                refused += 1;
                continue;
            };
            assert_eq!(image_of(&changed), image);
            let mut answer = [OLD; 16];
            step_image(&mut image, record, &mut answer);
            assert_eq!(answer, step(&mut changed, record));
            assert_eq!(image, image_of(&changed));
            stepped += 1;
        }
    });
    assert!(refused > 50_000 && stepped > 50_000, "{refused} {stepped}");
}

// Chips that only an image gives.

/// A chip with these changes is accepted, and an event of ticks leaves it so.
fn assert_ticks(chip: Chip, ticks: u32, expected: Chip) {
    let mut image = image_of(&chip);
    assert_eq!(read(&image), Some(chip));
    let record = (6 << 29 | ticks).to_be_bytes();
    assert_eq!(step_image(&mut image, &record, &mut [OLD; 16]), 0);
    assert_eq!(read(&image), Some(expected));
}

/// A note without SELDI: events of ticks leave it.
#[test]
fn statuses_that_no_event_leaves_stay() {
    let chip = Chip {
        seldi_noted: true,
        ..Chip::new()
    };
    assert_ticks(chip.clone(), 0, chip.clone());
    let later = Chip {
        quiet_ticks: 3,
        ..chip.clone()
    };
    assert_ticks(chip, 3, later);
}

/// Ticks of a phase in which none count stay; those of a selection without
/// ENSTIMER start anew with the first tick.
#[test]
fn ticks_that_do_not_count() {
    for (phase, enables, left) in [
        (Phase::Idle, 0, 5),
        (Phase::Idle, 0x10, 5),
        (Phase::Selecting, 0, 0),
        (Phase::Holding, 0, 5),
        (Phase::Answered, 0, 5),
    ] {
        let mut chip = at(phase).chip;
        chip.scsiseq |= enables;
        let mut later = chip.clone();
        later.sequencer.ticks = left;
        chip.sequencer.ticks = 5;
        assert_ticks(chip.clone(), 0, chip.clone());
        assert_ticks(chip, 1, later);
    }
}

/// Ticks beyond a phase's length end it with the next one.
#[test]
fn ticks_beyond_the_end_end_the_phase() {
    let mut chip = at(Phase::Arbitrating).chip;
    chip.sequencer.ticks = 0xFF_FFFF;
    let mut expected = chip.clone();
    expected.sequencer = Sequencer {
        phase: Phase::Clearing,
        ticks: 0,
    };
    assert_ticks(chip, 1, expected);
}
