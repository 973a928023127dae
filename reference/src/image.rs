//! Request R-5: a chip as the 203 bytes of docs/IMAGE.md, and the calls over
//! such an image.

use crate::chip::Chip;
use crate::event::Lines;
use crate::fifo::Fifo;
use crate::registers::*;
use crate::sequencer::{Phase, Sequencer};
use crate::step;

/// The length of an image.
pub const SIZE: usize = 203;
/// The length of an answer.
pub const ANSWER: usize = 16;
const RECORD: usize = 4;

/// Code 1 in the answer's first byte, where the image is refused.
const REFUSED: u8 = 1;

// Places, in the order of docs/IMAGE.md.
const SEQUENCE_CONTROL: usize = 0;
const TRANSFER_CONTROL0: usize = 1;
const TRANSFER_CONTROL1: usize = 2;
const SIGNALS: usize = 3;
const RATE: usize = 4;
const IDS: usize = 5;
const DATA_LATCH: usize = 6;
const ENABLES0: usize = 7;
const ENABLES1: usize = 8;
const DMA_CONTROL0: usize = 9;
const DMA_CONTROL1: usize = 10;
const BURST_CONTROL: usize = 11;
const STATUSES: usize = 12;
const LATCHES: usize = 13;
const OTHERS_DATA: usize = 14;
const OTHERS_PARITY_RESET: usize = 15;
const OTHERS_CONTROL: usize = 16;
const OFFSET: usize = 17;
const AUTOMATIC_ACK: usize = 18;
const LAST_SENT: usize = 19;
const QUIET_TICKS: usize = 20;
const ID_PLACE: usize = 21;
const POINTER: usize = 22;
const KEPT_PARITY: usize = 23;
const SEQUENCER: usize = 24;
const SEQUENCER_LATCHES: usize = 25;
const PHASE_TICKS: usize = 26;
const SELECTING_ID: usize = 29;
const SCSI_COUNT: usize = 30;
const HOST_COUNT: usize = 31;
const COUNTER: usize = 32;
const SCSI_BYTES: usize = 35;
const STACK_BYTES: usize = 43;
const HOST_BYTES: usize = 75;

/// The bits that stand as `-`, by their places.
const UNUSED: [(usize, u8); 14] = [
    (TRANSFER_CONTROL0, 0x17),
    (TRANSFER_CONTROL1, 0x01),
    (RATE, 0x80),
    (IDS, 0x88),
    (ENABLES0, 0x80),
    (DMA_CONTROL0, 0x02),
    (DMA_CONTROL1, 0x3F),
    (LATCHES, 0xC0),
    (OTHERS_PARITY_RESET, 0xFC),
    (AUTOMATIC_ACK, 0xFE),
    (ID_PLACE, 0xE0),
    (POINTER, 0xE0),
    (KEPT_PARITY, 0xFE),
    (SEQUENCER_LATCHES, 0xF0),
];

/// "The phase of the sequencer is a number", and this its table.
const PHASES: [Phase; 8] = [
    Phase::Idle,
    Phase::Waiting,
    Phase::Arbitrating,
    Phase::Clearing,
    Phase::Selecting,
    Phase::Holding,
    Phase::Answering,
    Phase::Answered,
];

/// BUSFREE, SCSIPERR, PHASECHG and REQINIT, which stay together.
const LOW_STATUSES: u8 = BUSFREE | SCSIPERR | PHASECHG | REQINIT;
/// Parity and RST of byte 15.
const PARITY_BIT: u8 = 2;
const RESET_BIT: u8 = 1;
/// Noted and the phase of byte 24.
const NOTED_BIT: u8 = 0x10;
const PHASE_BITS: u8 = 7;

/// Writes a chip as its image; false, and nothing is written, into a slice of
/// another length.
#[inline]
pub fn write(chip: &Chip, image: &mut [u8]) -> bool {
    match image.try_into() {
        Ok(image) => {
            put_chip(chip, image);
            true
        }
        Err(_) => false,
    }
}

/// The chip of an image, or nothing if the image is refused.
#[inline]
pub fn read(image: &[u8]) -> Option<Chip> {
    let image: &[u8; SIZE] = image.try_into().ok()?;
    if !well_formed(image) {
        return None;
    }
    // "an event of 0 ticks would not change the chip".
    let mut chip = chip_of(image);
    chip.pass_no_ticks();
    (chip == chip_of(image)).then_some(chip)
}

/// One event on an image, in its place; the code.
///
/// "Refused image: code 1, found before the record is looked at; no byte of the
/// image changes; a 16-byte answer buffer gets code 1 and otherwise zeros;
/// another buffer is not touched."
#[inline]
pub fn step_image(image: &mut [u8], record: &[u8], answer: &mut [u8]) -> u8 {
    let Some(mut chip) = read(image) else {
        refuse(answer);
        return REFUSED;
    };
    // "if the answer buffer is not 16 bytes nothing is written to it".
    let Ok(answer) = <&mut [u8; ANSWER]>::try_from(answer) else {
        return REFUSED;
    };
    *answer = step(&mut chip, record);
    write(&chip, image);
    answer[0] >> 5
}

/// The records one after another from where the chip stands, as far as whole
/// answers fit; the number of records. The image is tested once.
#[inline]
pub fn run_image(image: &mut [u8], records: &[u8], answers: &mut [u8]) -> usize {
    let count = records.chunks(RECORD).len().min(answers.len() / ANSWER);
    let (answers, _) = answers.as_chunks_mut::<ANSWER>();
    let Some(mut chip) = read(image) else {
        answers[..count]
            .iter_mut()
            .for_each(|answer| refuse(answer));
        return count;
    };
    for (record, answer) in records.chunks(RECORD).zip(answers) {
        *answer = step(&mut chip, record);
    }
    write(&chip, image);
    count
}

/// "a 16-byte answer buffer gets code 1 and otherwise zeros".
fn refuse(answer: &mut [u8]) {
    if let Ok(answer) = <&mut [u8; ANSWER]>::try_from(answer) {
        *answer = [0; ANSWER];
        answer[0] = REFUSED << 5;
    }
}

// Which images are accepted.

/// All but the last sentence of "Which images are accepted".
#[inline]
fn well_formed(image: &[u8; SIZE]) -> bool {
    numbers_in_range(image) && unused_bits_zero(image) && rests_of_fifos_zero(image)
}

/// "the counts of the FIFOs are at most 8 and 128, the offset and the quiet
/// ticks at most 8".
#[inline]
fn numbers_in_range(image: &[u8; SIZE]) -> bool {
    image[SCSI_COUNT] <= 8
        && image[HOST_COUNT] <= 128
        && image[OFFSET] <= 8
        && image[QUIET_TICKS] <= BUS_FREE
}

#[inline]
fn unused_bits_zero(image: &[u8; SIZE]) -> bool {
    UNUSED
        .iter()
        .all(|(place, unused)| image[*place] & unused == 0)
}

/// "every byte past a count is 0"; the counts are in range.
#[inline]
fn rests_of_fifos_zero(image: &[u8; SIZE]) -> bool {
    let scsi_rest = &image[SCSI_BYTES + usize::from(image[SCSI_COUNT])..STACK_BYTES];
    let host_rest = &image[HOST_BYTES + usize::from(image[HOST_COUNT])..];
    all_zero(scsi_rest) && all_zero(host_rest)
}

#[inline]
fn all_zero(bytes: &[u8]) -> bool {
    bytes.iter().fold(0, |set, byte| set | byte) == 0
}

// From an image to a chip.

/// The chip of an image that is well formed.
#[inline]
fn chip_of(image: &[u8; SIZE]) -> Chip {
    Chip {
        scsiseq: image[SEQUENCE_CONTROL],
        sxfrctl0: image[TRANSFER_CONTROL0],
        sxfrctl1: image[TRANSFER_CONTROL1],
        scsisig: image[SIGNALS],
        scsirate: image[RATE],
        scsiid: image[IDS],
        selid: image[SELECTING_ID],
        data_latch: image[DATA_LATCH],
        counter: number_at(image, COUNTER),
        status0: status0_of(image),
        status1: status1_of(image),
        latches0: latches0_of(image),
        latches1: latches1_of(image),
        seldi_noted: image[SEQUENCER] & NOTED_BIT != 0,
        kept_parity_bad: image[KEPT_PARITY] != 0,
        errors: image[STATUSES] << 1 & (SYNCERR | FWERR),
        simode0: image[ENABLES0],
        simode1: image[ENABLES1],
        dmacntrl0: image[DMA_CONTROL0],
        dmacntrl1: image[DMA_CONTROL1] | image[POINTER],
        brstcntrl: image[BURST_CONTROL],
        stack: *bytes_at(image, STACK_BYTES),
        id_place: image[ID_PLACE],
        scsi_fifo: Fifo::stored(bytes_at(image, SCSI_BYTES), image[SCSI_COUNT].into()),
        host_fifo: Fifo::stored(bytes_at(image, HOST_BYTES), image[HOST_COUNT].into()),
        offset: image[OFFSET],
        automatic_ack: image[AUTOMATIC_ACK] != 0,
        last_sent: image[LAST_SENT],
        quiet_ticks: image[QUIET_TICKS],
        sequencer: sequencer_of(image),
        others: lines_of(image),
    }
}

/// "A number of several bytes has its highest byte first."
#[inline]
fn number_at(image: &[u8; SIZE], place: usize) -> u32 {
    let [high, middle, low] = *bytes_at(image, place);
    u32::from_be_bytes([0, high, middle, low])
}

#[inline]
fn bytes_at<const LENGTH: usize>(image: &[u8; SIZE], place: usize) -> &[u8; LENGTH] {
    image[place..place + LENGTH]
        .try_into()
        .expect("the length is the type's")
}

/// SELDO and SELDI stand one place higher than in 34Bh, SELINGO one lower,
/// SPIORDY at the top of its byte.
#[inline]
fn status0_of(image: &[u8; SIZE]) -> u8 {
    let sequencer = image[SEQUENCER];
    sequencer >> 1 & (SELDO | SELDI) | sequencer << 1 & SELINGO | image[STATUSES] >> 6 & SPIORDY
}

/// SELTO stands two places lower than in 34Ch, SCSIRSTI one higher, the low
/// four two higher.
#[inline]
fn status1_of(image: &[u8; SIZE]) -> u8 {
    let statuses = image[STATUSES];
    image[SEQUENCER] << 2 & SELTO | statuses >> 1 & SCSIRSTI | statuses >> 2 & LOW_STATUSES
}

/// SELDO, SELDI and SELINGO stand three places lower, SPIORDY four higher.
#[inline]
fn latches0_of(image: &[u8; SIZE]) -> u8 {
    image[SEQUENCER_LATCHES] << 3 & (SELDO | SELDI | SELINGO) | image[LATCHES] >> 4 & SPIORDY
}

/// SELTO stands seven places lower, SCSIRSTI one, the low four where they are.
#[inline]
fn latches1_of(image: &[u8; SIZE]) -> u8 {
    let latches = image[LATCHES];
    image[SEQUENCER_LATCHES] << 7 & SELTO | latches << 1 & SCSIRSTI | latches & LOW_STATUSES
}

#[inline]
fn sequencer_of(image: &[u8; SIZE]) -> Sequencer {
    Sequencer {
        phase: PHASES[usize::from(image[SEQUENCER] & PHASE_BITS)],
        ticks: number_at(image, PHASE_TICKS),
    }
}

#[inline]
fn lines_of(image: &[u8; SIZE]) -> Lines {
    Lines {
        data: image[OTHERS_DATA],
        parity: image[OTHERS_PARITY_RESET] & PARITY_BIT != 0,
        reset: image[OTHERS_PARITY_RESET] & RESET_BIT != 0,
        control: image[OTHERS_CONTROL],
    }
}

// From a chip to an image.

#[inline]
fn put_chip(chip: &Chip, image: &mut [u8; SIZE]) {
    image[SEQUENCE_CONTROL] = chip.scsiseq;
    image[TRANSFER_CONTROL0] = chip.sxfrctl0;
    image[TRANSFER_CONTROL1] = chip.sxfrctl1;
    image[SIGNALS] = chip.scsisig;
    image[RATE] = chip.scsirate;
    image[IDS] = chip.scsiid;
    image[DATA_LATCH] = chip.data_latch;
    image[ENABLES0] = chip.simode0;
    image[ENABLES1] = chip.simode1;
    image[DMA_CONTROL0] = chip.dmacntrl0;
    image[DMA_CONTROL1] = chip.dmacntrl1 & !STACK_POINTER;
    image[BURST_CONTROL] = chip.brstcntrl;
    image[STATUSES] = statuses_byte(chip);
    image[LATCHES] = latches_byte(chip);
    put_lines(&chip.others, image);
    image[OFFSET] = chip.offset;
    image[AUTOMATIC_ACK] = chip.automatic_ack.into();
    image[LAST_SENT] = chip.last_sent;
    image[QUIET_TICKS] = chip.quiet_ticks;
    image[ID_PLACE] = chip.id_place;
    image[POINTER] = chip.dmacntrl1 & STACK_POINTER;
    image[KEPT_PARITY] = chip.kept_parity_bad.into();
    image[SEQUENCER] = sequencer_byte(chip);
    image[SEQUENCER_LATCHES] = sequencer_latches_byte(chip);
    put_number(chip.sequencer.ticks, image, PHASE_TICKS);
    image[SELECTING_ID] = chip.selid;
    image[SCSI_COUNT] = chip.scsi_fifo.count() as u8;
    image[HOST_COUNT] = chip.host_fifo.count() as u8;
    put_number(chip.counter, image, COUNTER);
    chip.scsi_fifo.write(&mut image[SCSI_BYTES..STACK_BYTES]);
    image[STACK_BYTES..HOST_BYTES].copy_from_slice(&chip.stack);
    chip.host_fifo.write(&mut image[HOST_BYTES..]);
}

#[inline]
fn put_number(number: u32, image: &mut [u8; SIZE], place: usize) {
    image[place..place + 3].copy_from_slice(&number.to_be_bytes()[1..]);
}

#[inline]
fn put_lines(lines: &Lines, image: &mut [u8; SIZE]) {
    let parity = if lines.parity { PARITY_BIT } else { 0 };
    let reset = if lines.reset { RESET_BIT } else { 0 };
    image[OTHERS_DATA] = lines.data;
    image[OTHERS_PARITY_RESET] = parity | reset;
    image[OTHERS_CONTROL] = lines.control;
}

/// "SPIORDY, SCSIRSTI, BUSFREE, SCSIPERR, PHASECHG, REQINIT, SYNCERR, FWERR".
#[inline]
fn statuses_byte(chip: &Chip) -> u8 {
    let transfer = (chip.status1 & SCSIRSTI) << 1 | (chip.status1 & LOW_STATUSES) << 2;
    (chip.status0 & SPIORDY) << 6 | transfer | (chip.errors & (SYNCERR | FWERR)) >> 1
}

/// "-, -, SPIORDY, SCSIRSTI, BUSFREE, SCSIPERR, PHASECHG, REQINIT".
#[inline]
fn latches_byte(chip: &Chip) -> u8 {
    (chip.latches0 & SPIORDY) << 4 | (chip.latches1 & SCSIRSTI) >> 1 | chip.latches1 & LOW_STATUSES
}

/// "SELDO, SELDI, SELTO, noted, SELINGO, phase (3 bits)".
#[inline]
fn sequencer_byte(chip: &Chip) -> u8 {
    let outcomes = (chip.status0 & (SELDO | SELDI)) << 1 | (chip.status1 & SELTO) >> 2;
    let noted = if chip.seldi_noted { NOTED_BIT } else { 0 };
    outcomes | noted | (chip.status0 & SELINGO) >> 1 | phase_number(chip.sequencer.phase)
}

/// "-, -, -, -, SELDO, SELDI, SELINGO, SELTO".
#[inline]
fn sequencer_latches_byte(chip: &Chip) -> u8 {
    (chip.latches0 & (SELDO | SELDI | SELINGO)) >> 3 | (chip.latches1 & SELTO) >> 7
}

#[inline]
fn phase_number(phase: Phase) -> u8 {
    match phase {
        Phase::Idle => 0,
        Phase::Waiting => 1,
        Phase::Arbitrating => 2,
        Phase::Clearing => 3,
        Phase::Selecting => 4,
        Phase::Holding => 5,
        Phase::Answering => 6,
        Phase::Answered => 7,
    }
}
