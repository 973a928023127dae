//! The programs: input in pieces, closed output, the comparison's verdicts.

use reference::streams::stream;
use std::io::{Read, Write};
use std::process::{Command, Output, Stdio};
use std::time::Duration;

fn reference(input: &[u8]) -> Output {
    let mut child = Command::new(env!("CARGO_BIN_EXE_reference"))
        .stdin(Stdio::piped())
        .stdout(Stdio::piped())
        .spawn()
        .unwrap();
    let mut pipe = child.stdin.take().unwrap();
    let input = input.to_vec();
    let writer = std::thread::spawn(move || pipe.write_all(&input));
    let output = child.wait_with_output().unwrap();
    writer.join().unwrap().unwrap();
    output
}

/// "a last piece of 1 to 3 bytes is a record too", and no input no answer.
#[test]
fn pieces_at_the_end() {
    assert_eq!(reference(&[]).stdout, b"");
    for length in 1..=3 {
        let output = reference(&vec![0; 4 + length]);
        assert!(output.status.success());
        let text = String::from_utf8(output.stdout).unwrap();
        assert_eq!(text, format!("{}\n2{}\n", "0".repeat(32), "0".repeat(31)));
    }
}

/// An input that pauses in the middle of a record is read on, and what is
/// already asked is answered.
#[test]
fn pauses_in_a_record() {
    let mut child = Command::new(env!("CARGO_BIN_EXE_reference"))
        .stdin(Stdio::piped())
        .stdout(Stdio::piped())
        .spawn()
        .unwrap();
    let mut input = child.stdin.take().unwrap();
    let mut output = child.stdout.take().unwrap();
    let mut line = [0; 33];
    for record in [[0x31, 0, 0, 0xFF], [0x51, 0, 0, 0]] {
        for byte in record {
            input.write_all(&[byte]).unwrap();
            input.flush().unwrap();
            std::thread::sleep(Duration::from_millis(2));
        }
        output.read_exact(&mut line).unwrap();
    }
    assert_eq!(&line[..8], b"000000FF");
    drop(input);
    assert_eq!(output.read(&mut line).unwrap(), 0);
    assert!(child.wait().unwrap().success());
}

/// A closed output ends the program quietly.
#[test]
fn closed_output() {
    let mut child = Command::new(env!("CARGO_BIN_EXE_reference"))
        .stdin(Stdio::piped())
        .stdout(Stdio::piped())
        .stderr(Stdio::piped())
        .spawn()
        .unwrap();
    drop(child.stdout.take());
    let mut input = child.stdin.take().unwrap();
    // The program may close its input before all is written.
    let _ = input.write_all(&vec![0; 1 << 20]);
    drop(input);
    let output = child.wait_with_output().unwrap();
    assert!(output.status.success());
    assert_eq!(output.stderr, b"");
}

/// The same seed gives the same stream, of the asked number of records.
#[test]
fn streams_are_repeatable() {
    for seed in 0..10 {
        let records = stream(seed, 500);
        assert_eq!(records, stream(seed, 500));
        assert_eq!(records.chunks(4).count(), 500);
    }
    assert_ne!(stream(1, 500), stream(2, 500));
    let output = Command::new(env!("CARGO_BIN_EXE_streams"))
        .args(["7", "500"])
        .output()
        .unwrap();
    assert_eq!(output.stdout, stream(7, 500));
    for benchmark in [
        "write",
        "read",
        "probe",
        "lines",
        "full-write",
        "full-read",
        "selection",
        "ticks",
    ] {
        let output = Command::new(env!("CARGO_BIN_EXE_streams"))
            .args([benchmark, "1000"])
            .output()
            .unwrap();
        assert_eq!(output.stdout.len(), 4000);
    }
}

fn compare(program: &str) -> Output {
    Command::new(env!("CARGO_BIN_EXE_compare"))
        .args([program, "5", "3", "400"])
        .output()
        .unwrap()
}

#[test]
fn the_comparison_agrees_with_itself() {
    let output = compare(env!("CARGO_BIN_EXE_reference"));
    assert!(output.status.success());
    assert_eq!(
        output.stdout,
        b"1200 events of 3 streams compared: no difference\n"
    );
}

/// A program that only copies its input differs at the first event.
#[test]
fn the_comparison_finds_a_difference() {
    let output = compare("cat");
    assert_eq!(output.status.code(), Some(1));
    let text = String::from_utf8(output.stdout).unwrap();
    assert!(
        text.starts_with("stream of seed 5: event 1, record "),
        "{text}"
    );
    let output = compare("true");
    assert_eq!(output.status.code(), Some(1));
    assert!(String::from_utf8(output.stdout)
        .unwrap()
        .contains("(no answer)"));
}
