//! `compare PATH FIRST_SEED COUNT [LENGTH]`: runs each seed's stream through
//! the program at PATH and through this library; ends non-zero at the first
//! difference.

use reference::hex::{put_line, text, LINE};
use reference::streams::{stream, USUAL_LENGTH};
use reference::{step, Chip};
use std::io::{self, BufRead, BufReader, Write};
use std::process::{Child, Command, ExitCode, Stdio};
use std::thread;

const USAGE: &str = "usage: compare PATH FIRST_SEED COUNT [LENGTH]";

struct Request {
    path: String,
    first_seed: u64,
    count: u64,
    length: usize,
}

fn main() -> ExitCode {
    let arguments: Vec<String> = std::env::args().skip(1).collect();
    let Some(request) = parse(&arguments) else {
        eprintln!("{USAGE}");
        return ExitCode::from(2);
    };
    match compare_streams(&request) {
        Ok(events) => {
            println!(
                "{events} events of {} streams compared: no difference",
                request.count
            );
            ExitCode::SUCCESS
        }
        Err(difference) => {
            println!("{difference}");
            ExitCode::FAILURE
        }
    }
}

fn parse(arguments: &[String]) -> Option<Request> {
    let (path, first_seed, count, length) = match arguments {
        [path, first_seed, count] => (path, first_seed, count, USUAL_LENGTH),
        [path, first_seed, count, length] => (path, first_seed, count, length.parse().ok()?),
        _ => return None,
    };
    let path = path.clone();
    Some(Request {
        path,
        first_seed: first_seed.parse().ok()?,
        count: count.parse().ok()?,
        length,
    })
}

/// The number of events compared, or the first difference.
fn compare_streams(request: &Request) -> Result<usize, String> {
    let mut events = 0;
    for seed in request.first_seed..request.first_seed.saturating_add(request.count) {
        let records = stream(seed, request.length);
        events += compare_stream(&request.path, &records)
            .map_err(|difference| format!("stream of seed {seed}: {difference}"))?;
    }
    Ok(events)
}

/// Runs the other program on the records, answers them here as well.
fn compare_stream(path: &str, records: &[u8]) -> Result<usize, String> {
    let mut child = start(path).map_err(|error| format!("{path} does not start: {error}"))?;
    let mut input = child.stdin.take().expect("standard input is piped");
    let output = BufReader::with_capacity(1 << 16, child.stdout.take().expect("output is piped"));
    let result = thread::scope(|scope| {
        // A program that ends early shows by its missing answers.
        scope.spawn(move || input.write_all(records));
        let result = compare_answers(records, output);
        if result.is_err() {
            // It may have ended already.
            let _ = child.kill();
        }
        result
    });
    let status = child.wait().map_err(|error| format!("{path}: {error}"))?;
    let events = result?;
    if !status.success() {
        return Err(format!(
            "all {events} answers agree, but the program ended with {status}"
        ));
    }
    Ok(events)
}

fn start(path: &str) -> io::Result<Child> {
    Command::new(path)
        .stdin(Stdio::piped())
        .stdout(Stdio::piped())
        .spawn()
}

fn compare_answers(records: &[u8], mut output: impl BufRead) -> Result<usize, String> {
    let mut chip = Chip::new();
    let mut expected = [0; LINE];
    let mut line = Vec::with_capacity(LINE);
    let mut events = 0;
    for record in records.chunks(4) {
        events += 1;
        put_line(&mut expected, &step(&mut chip, record));
        line.clear();
        output
            .read_until(b'\n', &mut line)
            .map_err(|error| format!("event {events}: {error}"))?;
        if line != expected {
            return Err(difference(events, record, &expected, &line));
        }
    }
    line.clear();
    let more = output
        .read_until(b'\n', &mut line)
        .map_err(|error| error.to_string())?;
    if more != 0 {
        return Err(format!(
            "after all {events} events the program prints {}",
            shown(&line)
        ));
    }
    Ok(events)
}

/// The first event has number 1, like the first line of the output.
fn difference(event: usize, record: &[u8], expected: &[u8], line: &[u8]) -> String {
    format!(
        "event {event}, record {}:\n  reference {}\n  program   {}",
        text(record),
        shown(expected),
        shown(line)
    )
}

fn shown(line: &[u8]) -> String {
    match line {
        [] => "(no answer)".to_string(),
        _ => String::from_utf8_lossy(line)
            .trim_end_matches('\n')
            .to_string(),
    }
}
