//! Writes raw event records to standard output:
//! `streams SEED [LENGTH]` a mixed stream by seed,
//! `streams starts SEED N` N starts for string transfers, each from power reset,
//! `streams write|read|probe|lines|full-write|full-read|selection|ticks N` a benchmark stream of
//! N events.

use reference::streams::{benchmark_record, starts, stream, Benchmark, USUAL_LENGTH};
use std::io::{self, BufWriter, ErrorKind, Write};
use std::process::ExitCode;

const USAGE: &str = "usage: streams SEED [LENGTH]
       streams starts SEED N
       streams write|read|probe|lines|full-write|full-read|selection|ticks N";

enum Request {
    Mixed { seed: u64, length: usize },
    Starts { seed: u64, count: usize },
    Benchmark { benchmark: Benchmark, events: u64 },
}

fn main() -> ExitCode {
    let arguments: Vec<String> = std::env::args().skip(1).collect();
    let Some(request) = parse(&arguments) else {
        eprintln!("{USAGE}");
        return ExitCode::from(2);
    };
    match produce(&request) {
        Err(error) if error.kind() != ErrorKind::BrokenPipe => {
            eprintln!("streams: {error}");
            ExitCode::FAILURE
        }
        _ => ExitCode::SUCCESS,
    }
}

fn parse(arguments: &[String]) -> Option<Request> {
    let benchmark = match arguments.first()?.as_str() {
        "write" => Benchmark::Write,
        "read" => Benchmark::Read,
        "probe" => Benchmark::Probe,
        "lines" => Benchmark::Lines,
        "full-write" => Benchmark::FullWrite,
        "full-read" => Benchmark::FullRead,
        "selection" => Benchmark::Selection,
        "ticks" => Benchmark::Ticks,
        "starts" => return parse_starts(arguments),
        _ => return parse_mixed(arguments),
    };
    match arguments {
        [_, events] => Some(Request::Benchmark {
            benchmark,
            events: events.parse().ok()?,
        }),
        _ => None,
    }
}

fn parse_starts(arguments: &[String]) -> Option<Request> {
    match arguments {
        [_, seed, count] => Some(Request::Starts {
            seed: seed.parse().ok()?,
            count: count.parse().ok()?,
        }),
        _ => None,
    }
}

fn parse_mixed(arguments: &[String]) -> Option<Request> {
    let (seed, length) = match arguments {
        [seed] => (seed, USUAL_LENGTH),
        [seed, length] => (seed, length.parse().ok()?),
        _ => return None,
    };
    Some(Request::Mixed {
        seed: seed.parse().ok()?,
        length,
    })
}

fn produce(request: &Request) -> io::Result<()> {
    let mut output = BufWriter::with_capacity(1 << 16, io::stdout().lock());
    match *request {
        Request::Mixed { seed, length } => output.write_all(&stream(seed, length))?,
        Request::Starts { seed, count } => output.write_all(&starts(seed, count))?,
        Request::Benchmark { benchmark, events } => {
            for place in 0..events {
                output.write_all(&benchmark_record(benchmark, place).to_be_bytes())?;
            }
        }
    }
    output.flush()
}
