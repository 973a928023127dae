//! A chip with short names for events, and the answer's fields by name.

#![allow(dead_code)]

pub mod sequencer;

use reference::{step, Chip};

#[derive(Clone, Copy, Debug, PartialEq, Eq)]
pub struct Fields {
    pub code: u8,
    pub irq: bool,
    pub acks: u8,
    pub moves: u8,
    pub data_driven: bool,
    pub reset_driven: bool,
    pub parity: bool,
    pub value: u16,
    pub control: u8,
    pub data: u8,
    pub offset: u8,
    pub scsi_fifo: u8,
    pub host_fifo: u8,
    pub sent: [u8; 8],
}

/// Takes an answer apart: "code 3, IRQ 1, ACKs issued 4; moves 5, data driven
/// or not 1, RST driven 1, parity level driven 1; value read 16; control lines
/// driven 8; data driven 8; offset 4, SCSI FIFO count 4; host FIFO count 8;
/// then eight bytes".
pub fn fields(answer: [u8; 16]) -> Fields {
    Fields {
        code: answer[0] >> 5,
        irq: answer[0] & 0x10 != 0,
        acks: answer[0] & 0x0F,
        moves: answer[1] >> 3,
        data_driven: answer[1] & 4 != 0,
        reset_driven: answer[1] & 2 != 0,
        parity: answer[1] & 1 != 0,
        value: u16::from_be_bytes([answer[2], answer[3]]),
        control: answer[4],
        data: answer[5],
        offset: answer[6] >> 4,
        scsi_fifo: answer[6] & 15,
        host_fifo: answer[7],
        sent: answer[8..].try_into().unwrap(),
    }
}

pub struct Bench {
    pub chip: Chip,
}

impl Bench {
    pub fn new() -> Bench {
        Bench { chip: Chip::new() }
    }

    pub fn send(&mut self, record: u32) -> Fields {
        fields(step(&mut self.chip, &record.to_be_bytes()))
    }

    /// A register write that must be done; the address is 340h to 35Fh.
    pub fn write(&mut self, address: u32, value: u32) -> Fields {
        let answer = self.try_write(address, value);
        assert_eq!(answer.code, 0, "write of {value:02X}h to {address:03X}h");
        answer
    }

    pub fn try_write(&mut self, address: u32, value: u32) -> Fields {
        self.send(1 << 29 | (address - 0x340) << 24 | value)
    }

    /// The value of a register read that must be done.
    pub fn read(&mut self, address: u32) -> u16 {
        let answer = self.try_read(address);
        assert_eq!(answer.code, 0, "read of {address:03X}h");
        answer.value
    }

    pub fn try_read(&mut self, address: u32) -> Fields {
        self.send(2 << 29 | (address - 0x340) << 24)
    }

    pub fn word_write(&mut self, value: u32) -> Fields {
        self.send(3 << 29 | value)
    }

    pub fn word_read(&mut self) -> Fields {
        self.send(4 << 29)
    }

    /// Control lines in the order of 343h, nothing else driven by others.
    pub fn lines(&mut self, control: u32) -> Fields {
        self.send(5 << 29 | control)
    }

    /// Data, its parity line, and control lines.
    pub fn data_lines(&mut self, data: u32, parity: u32, control: u32) -> Fields {
        self.send(5 << 29 | data << 10 | parity << 9 | control)
    }

    pub fn ticks(&mut self, count: u32) -> Fields {
        self.send(6 << 29 | count)
    }

    /// The counter by its three reads.
    pub fn counter(&mut self) -> u32 {
        let low = u32::from(self.read(0x348));
        let middle = u32::from(self.read(0x349));
        let high = u32::from(self.read(0x34A));
        high << 16 | middle << 8 | low
    }

    /// A record that must be refused with this code, the state the same.
    pub fn refused(&mut self, record: u32, code: u8, value: u16) {
        let before = self.chip.clone();
        let answer = self.send(record);
        assert_eq!(
            (answer.code, answer.value),
            (code, value),
            "record {record:08X}"
        );
        assert_eq!((answer.acks, answer.moves, answer.sent), (0, 0, [0; 8]));
        assert!(self.chip == before, "record {record:08X} changed the state");
    }

    /// A write path in the data out phase: connected, SCSIEN, words.
    pub fn write_run(sofs: u32) -> Bench {
        let mut bench = Bench::new();
        bench.write(0x352, 0x88);
        bench.write(0x344, sofs);
        bench.write(0x341, 0xE0);
        bench.lines(BSY);
        bench
    }

    /// A read path in the data in phase: connected, SCSIEN, bytes.
    pub fn read_run(sofs: u32) -> Bench {
        let mut bench = Bench::new();
        bench.write(0x352, 0xC0);
        bench.write(0x343, 0x40);
        bench.write(0x344, sofs);
        bench.write(0x341, 0xE0);
        bench.lines(BSY | IO);
        bench
    }

    /// One inbound REQ pulse with right parity; the rise's answer.
    pub fn inbound_pulse(&mut self, byte: u32) -> Fields {
        let parity = 1 - byte.count_ones() % 2;
        let answer = self.data_lines(byte, parity, BSY | IO | REQ);
        self.lines(BSY | IO);
        answer
    }
}

pub const CD: u32 = 0x80;
pub const IO: u32 = 0x40;
pub const MSG: u32 = 0x20;
pub const ATN: u32 = 0x10;
pub const SEL: u32 = 0x08;
pub const BSY: u32 = 0x04;
pub const REQ: u32 = 0x02;
pub const ACK: u32 = 0x01;
/// RST by others, one place above the control lines.
pub const RST: u32 = 0x100;
