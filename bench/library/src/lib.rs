//! The second implementation as a C program calls it, in the same way as the functions of `rabenteig.h`.

use reference::image::{run_image, step_image};
use reference::words::{read_words_image, write_words_image};
use std::slice::{from_raw_parts, from_raw_parts_mut};

/// A slice of a C program, which may give none for no bytes.
unsafe fn lent<'a>(bytes: *const u8, length: usize) -> &'a [u8] {
    match length {
        0 => &[],
        _ => from_raw_parts(bytes, length),
    }
}

/// The same for a slice that is written to.
unsafe fn lent_for_writing<'a>(bytes: *mut u8, length: usize) -> &'a mut [u8] {
    match length {
        0 => &mut [],
        _ => from_raw_parts_mut(bytes, length),
    }
}

/// One record on an image; the code.
///
/// # Safety
/// Each pointer leads to as many bytes as its length says, and no two overlap.
#[no_mangle]
pub unsafe extern "C" fn reference_step(
    image: *mut u8,
    image_length: usize,
    record: *const u8,
    record_length: usize,
    answer: *mut u8,
    answer_length: usize,
) -> u8 {
    step_image(
        lent_for_writing(image, image_length),
        lent(record, record_length),
        lent_for_writing(answer, answer_length),
    )
}

/// A run of records on an image; the number of records stepped.
///
/// # Safety
/// Each pointer leads to as many bytes as its length says, and no two overlap.
#[no_mangle]
pub unsafe extern "C" fn reference_run(
    image: *mut u8,
    image_length: usize,
    records: *const u8,
    records_length: usize,
    answers: *mut u8,
    answers_length: usize,
) -> usize {
    run_image(
        lent_for_writing(image, image_length),
        lent(records, records_length),
        lent_for_writing(answers, answers_length),
    )
}

/// Words written at the port of an image's chip, up to the first refusal; the code of that refusal, else 0.
///
/// # Safety
/// Each pointer leads to as many bytes as its length says, `done` and `sent_count` to a number each, and no two overlap.
#[no_mangle]
pub unsafe extern "C" fn reference_write_words(
    image: *mut u8,
    image_length: usize,
    data: *const u8,
    data_length: usize,
    words: usize,
    sent: *mut u8,
    sent_length: usize,
    done: *mut usize,
    sent_count: *mut usize,
) -> u8 {
    let transfer = write_words_image(
        lent_for_writing(image, image_length),
        lent(data, data_length),
        words,
        lent_for_writing(sent, sent_length),
    );
    *done = transfer.done;
    *sent_count = transfer.sent;
    transfer.code as u8
}

/// Words read at the port of an image's chip, up to the first refusal; the code of that refusal, else 0.
///
/// # Safety
/// Each pointer leads to as many bytes as its length says, `done` to a number, and no two overlap.
#[no_mangle]
pub unsafe extern "C" fn reference_read_words(
    image: *mut u8,
    image_length: usize,
    data: *mut u8,
    data_length: usize,
    words: usize,
    done: *mut usize,
) -> u8 {
    let transfer = read_words_image(
        lent_for_writing(image, image_length),
        lent_for_writing(data, data_length),
        words,
    );
    *done = transfer.done;
    transfer.code as u8
}
