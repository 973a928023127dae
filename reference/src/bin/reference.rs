//! Reads event records on standard input, four bytes each, and prints each
//! answer as 32 hex digits on a line, starting from power reset.

use reference::hex::{put_line, LINE};
use reference::{step, Chip};
use std::io::{self, ErrorKind, Read, Write};
use std::process::ExitCode;

const RECORD: usize = 4;
const RECORDS_AT_ONCE: usize = 16 * 1024;

fn main() -> ExitCode {
    match run(&mut io::stdin().lock(), &mut io::stdout().lock()) {
        Ok(()) => ExitCode::SUCCESS,
        // The reader of the answers has gone: nothing is left to do.
        Err(error) if error.kind() == ErrorKind::BrokenPipe => ExitCode::SUCCESS,
        Err(error) => {
            eprintln!("reference: {error}");
            ExitCode::FAILURE
        }
    }
}

fn run(input: &mut impl Read, output: &mut impl Write) -> io::Result<()> {
    let mut chip = Chip::new();
    let mut records = vec![0; RECORD * RECORDS_AT_ONCE];
    let mut lines = vec![0; LINE * RECORDS_AT_ONCE];
    let mut held = 0;
    loop {
        let got = read_some(input, &mut records[held..])?;
        held += got;
        // At the end a piece of 1 to 3 bytes is a record too.
        let whole = if got == 0 { held } else { held - held % RECORD };
        let length = answer_all(&mut chip, &records[..whole], &mut lines);
        // What has been asked is answered before the next wait.
        output.write_all(&lines[..length])?;
        if got == 0 {
            return output.flush();
        }
        records.copy_within(whole..held, 0);
        held -= whole;
    }
}

/// Reads what is there, or waits for some; 0 only at the end of the input.
fn read_some(input: &mut impl Read, buffer: &mut [u8]) -> io::Result<usize> {
    loop {
        match input.read(buffer) {
            Err(error) if error.kind() == ErrorKind::Interrupted => {}
            result => return result,
        }
    }
}

/// Answers each record with a line; the length of all lines.
fn answer_all(chip: &mut Chip, records: &[u8], lines: &mut [u8]) -> usize {
    let (places, _) = lines.as_chunks_mut::<LINE>();
    let mut count = 0;
    for (record, place) in records.chunks(RECORD).zip(places) {
        put_line(place, &step(chip, record));
        count += 1;
    }
    count * LINE
}
