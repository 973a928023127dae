//! Event records: 4 bytes, "kind (3 bits), register offset from 340h (5),
//! payload (24)", most significant bit first.

/// The lines that others drive (kind 5).
#[derive(Clone, Copy, Debug, Default, PartialEq, Eq)]
pub struct Lines {
    pub data: u8,
    pub parity: bool,
    pub reset: bool,
    /// CD, IO, MSG, ATN, SEL, BSY, REQ, ACK: the order of 343h.
    pub control: u8,
}

impl Lines {
    /// "data 8, parity 1, RST, CD, IO, MSG, ATN, SEL, BSY, REQ, ACK
    /// (18 low bits, in that order)".
    #[inline]
    fn from_payload(payload: u32) -> Lines {
        Lines {
            data: (payload >> 10) as u8,
            parity: payload >> 9 & 1 == 1,
            reset: payload >> 8 & 1 == 1,
            control: payload as u8,
        }
    }
}

/// A well-formed record.
#[derive(Clone, Copy, Debug, PartialEq, Eq)]
pub enum Event {
    PowerReset,
    RegisterWrite { offset: u8, value: u8 },
    RegisterRead { offset: u8 },
    WordWrite { value: u16 },
    WordRead,
    Lines(Lines),
    Ticks(u32),
}

/// The event of a record, or nothing if the record is bad: "Unused bits, and
/// the offset except in kinds 1 and 2, are 0. Kind 7 is bad."
#[inline]
pub fn decode(record: &[u8]) -> Option<Event> {
    let bytes: [u8; 4] = record.try_into().ok()?;
    let word = u32::from_be_bytes(bytes);
    let kind = word >> 29;
    let offset = (word >> 24 & 0x1F) as u8;
    let payload = word & 0x00FF_FFFF;
    let no_offset = offset == 0;
    match kind {
        0 if no_offset && payload == 0 => Some(Event::PowerReset),
        1 if payload <= 0xFF => Some(Event::RegisterWrite {
            offset,
            value: payload as u8,
        }),
        2 if payload == 0 => Some(Event::RegisterRead { offset }),
        3 if no_offset && payload <= 0xFFFF => Some(Event::WordWrite {
            value: payload as u16,
        }),
        4 if no_offset && payload == 0 => Some(Event::WordRead),
        5 if no_offset && payload <= 0x3_FFFF => Some(Event::Lines(Lines::from_payload(payload))),
        6 if no_offset => Some(Event::Ticks(payload)),
        _ => None,
    }
}
