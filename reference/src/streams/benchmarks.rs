//! Long streams for measuring: each record follows from its place alone.

use super::{data_lines, records};
use crate::random::mix;
use crate::registers::*;

#[derive(Clone, Copy, Debug, PartialEq, Eq)]
pub enum Benchmark {
    /// A synchronous write run fed word by word, two REQs for each word.
    Write,
    /// A synchronous read run, two bytes and one word read in turn.
    Read,
    /// Reads and writes of every register.
    Probe,
    /// Line events alone: an inbound transfer in Automatic mode, random data, parity checked.
    Lines,
    /// The write run with the host FIFO near 128 bytes.
    FullWrite,
    /// The read run with the host FIFO near 128 bytes.
    FullRead,
    /// Start-ups: a selection with attention that is won, and one that times out.
    Selection,
    /// Ticks of every length, nearly nothing else, on a bus idle or waited for.
    Ticks,
}

/// Where the full write run starts to send: both FIFOs are full then, 128 bytes and 8.
const WRITE_FILLED: u64 = 5 + 68;
/// Where the full read run starts to be read: 128 bytes have come, a REQ up and down for each.
const READ_FILLED: u64 = 5 + 256;

/// The record at a place of a benchmark stream.
pub fn benchmark_record(benchmark: Benchmark, place: u64) -> u32 {
    match benchmark {
        Benchmark::Write => write_record(place),
        Benchmark::Read => read_record(place),
        Benchmark::Probe => probe_record(place),
        Benchmark::Lines => line_record(place),
        Benchmark::FullWrite => full_write_record(place),
        Benchmark::FullRead => full_read_record(place),
        Benchmark::Selection => selection_record(place),
        Benchmark::Ticks => ticks_record(place),
    }
}

fn write_record(place: u64) -> u32 {
    match place {
        0 => records::POWER_RESET,
        1 => records::write(DMACNTRL0, ENDMA | WRITE),
        2 => records::write(SCSIRATE, 8),
        3 => records::write(SXFRCTL0, SCSIEN | DMAEN | CHEN),
        4 => records::lines(u32::from(BSY)),
        _ => match place % 5 {
            0 => records::word_write(mix(place) as u16),
            1 | 3 => records::lines(u32::from(BSY | REQ)),
            _ => records::lines(u32::from(BSY)),
        },
    }
}

fn read_record(place: u64) -> u32 {
    match place {
        0 => records::POWER_RESET,
        1 => records::write(DMACNTRL0, ENDMA),
        2 => records::write(SCSIRATE, 8),
        3 => records::write(SCSISIG, IO),
        4 => records::write(SXFRCTL0, SCSIEN | DMAEN | CHEN),
        _ => match place % 5 {
            0 | 2 => byte_offered(place),
            1 | 3 => records::lines(u32::from(IO | BSY)),
            _ => records::WORD_READ,
        },
    }
}

fn byte_offered(place: u64) -> u32 {
    let data = data_lines(mix(place) as u8, true);
    records::lines(data | u32::from(IO | BSY | REQ))
}

fn probe_record(place: u64) -> u32 {
    let bits = mix(place);
    let offset = (bits >> 8 & 31) as u8;
    if bits >> 16 & 1 == 0 {
        records::read(offset)
    } else {
        records::write(offset, bits as u8)
    }
}

fn line_record(place: u64) -> u32 {
    match place {
        0 => records::POWER_RESET,
        1 => records::write(SXFRCTL1, ENSPCHK),
        2 => records::write(SCSISIG, IO),
        3 => records::write(SXFRCTL0, SPIOEN | CHEN),
        _ => {
            let data = data_lines(mix(place / 4) as u8, true);
            records::lines(match place % 4 {
                0 => data | u32::from(IO | BSY | REQ),
                1 => data | u32::from(IO | BSY | REQ | ACK),
                2 => u32::from(IO | BSY | ACK),
                _ => u32::from(IO | BSY),
            })
        }
    }
}

fn full_write_record(place: u64) -> u32 {
    if place < 5 {
        return write_record(place);
    }
    if place < WRITE_FILLED {
        return records::word_write(mix(place) as u16);
    }
    match (place - WRITE_FILLED) % 5 {
        0 | 2 => records::lines(u32::from(BSY | REQ)),
        1 | 3 => records::lines(u32::from(BSY)),
        _ => records::word_write(mix(place) as u16),
    }
}

fn full_read_record(place: u64) -> u32 {
    if place < 5 {
        return read_record(place);
    }
    if place < READ_FILLED {
        return match place % 2 {
            1 => byte_offered(place),
            _ => records::lines(u32::from(IO | BSY)),
        };
    }
    match (place - READ_FILLED) % 5 {
        0 => records::WORD_READ,
        1 | 3 => byte_offered(place),
        _ => records::lines(u32::from(IO | BSY)),
    }
}

/// After six records a round of 20: nobody answers, then the target does and leaves the bus again.
fn selection_record(place: u64) -> u32 {
    match place {
        0 => return records::POWER_RESET,
        1 => return records::write(SCSIID, 0x72),
        2 => return records::write(SXFRCTL1, ENSTIMER),
        3 => return records::write(SIMODE0, SELDO),
        4 => return records::write(SIMODE1, SELTO),
        5 => return records::write(DMACNTRL0, INTEN),
        _ => {}
    }
    let round = (place - 6) / 20;
    match (place - 6) % 20 {
        0 | 8 => records::ticks(8),
        1 | 9 => records::write(SCSISIG, CD | MSG),
        2 | 10 => records::write(SCSISEQ, ENSELO | ENAUTOATNO),
        3 if mix(round) & 1 == 0 => records::ticks(0xFF_FFFF),
        3 => records::ticks(5_120_100),
        4 | 13 => records::read(SSTAT0),
        5 => records::read(SSTAT1),
        6 | 18 => records::write(SSTAT1, 0xFF),
        7 => records::write(SCSISEQ, 0),
        11 => records::ticks(88),
        12 => records::lines(u32::from(BSY)),
        14 => records::write(SSTAT0, SELDO),
        15 => records::lines(u32::from(CD | MSG | BSY | REQ)),
        16 => records::read(SCSISIG),
        17 => records::lines(0),
        _ => records::ticks(100),
    }
}

/// In every 256 records four that change what the ticks find: a bus free or held by a target, asked or not, a higher ID or none.
fn ticks_record(place: u64) -> u32 {
    if place == 0 {
        return records::POWER_RESET;
    }
    let bits = mix(place);
    let choice = mix(place / 256);
    match place % 256 {
        1 => records::write(SCSISEQ, 0),
        2 if choice & 3 == 0 => records::lines(u32::from(BSY)),
        2 if choice & 3 == 1 => records::lines(data_lines(0x80, true)),
        2 => records::lines(0),
        3 if choice & 4 == 0 => records::write(SCSISEQ, ENSELO),
        3 => records::read(SSTAT1),
        4 => records::write(SSTAT1, BUSFREE),
        // Lengths of all magnitudes, up to the longest.
        _ => records::ticks((bits >> 40) as u32 >> (bits % 24)),
    }
}
