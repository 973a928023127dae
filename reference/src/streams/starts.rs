//! Starts for string transfers, request R-3: chips at the edges that runs by
//! chance seldom meet. Each start is a stream from power reset.

use super::{data_lines, records, Maker};
use crate::registers::*;

/// More than any start has records.
const MOST_RECORDS: usize = 1_000;

/// The records of so many starts, one after another, each from power reset.
pub fn starts(seed: u64, count: usize) -> Vec<u8> {
    let first = seed.wrapping_mul(1 << 32);
    (0..count as u64)
        .flat_map(|number| start(first.wrapping_add(number)))
        .collect()
}

/// The records of one start.
pub fn start(seed: u64) -> Vec<u8> {
    let mut maker = Maker::new(seed, MOST_RECORDS);
    maker.emit(records::POWER_RESET);
    maker.surroundings();
    let plan = maker.choose_plan();
    maker.fill(&plan);
    maker.prepare_transfer(&plan);
    maker.ask(&plan);
    maker.depart_from_plan(&plan);
    maker.records
}

/// What a start aims at. Settling may change the fills: it leaves what rests.
struct Plan {
    inbound: bool,
    /// The target's CD, IO, MSG.
    phase: u8,
    sofs: u8,
    scsi_fill: u32,
    host_fill: u32,
    /// REQs that come before SCSIEN is written.
    early_requests: u32,
    /// DMAEN, or now and then no path at the end.
    mode: u8,
    /// SCSIEN or not.
    enable: u8,
    /// REQ is up at the end.
    pending: bool,
}

impl Maker {
    /// Enables, parity, the counter's end, rings that start anywhere.
    fn surroundings(&mut self) {
        if self.random.percent(50) {
            self.random_enables();
            self.random_enables();
        }
        if self.random.percent(30) {
            let value = self.random.byte() & ENSPCHK;
            self.write(SXFRCTL1, value);
        }
        if self.random.percent(40) {
            self.counter_near_wrap();
        }
        if self.random.percent(40) {
            self.turn_rings();
        }
    }

    /// Bytes go into both FIFOs, back and out, so that the next ones lie across
    /// the end of their rings.
    fn turn_rings(&mut self) {
        let most = self.random.pick(&[8, 128]);
        let turned = self.random.below(most);
        self.write(DMACNTRL0, ENDMA | EIGHT_BIT | WRITE);
        self.put_bytes(turned);
        self.write(SXFRCTL0, DMAEN | CHEN);
        self.write(SCSISIG, IO);
        self.write(DMACNTRL0, ENDMA | EIGHT_BIT);
        for _ in 0..turned {
            self.port_access(true, true);
        }
        self.write(SXFRCTL0, CHEN);
        self.write(SCSISIG, 0);
    }

    fn put_bytes(&mut self, count: u32) {
        for _ in 0..count {
            self.port_access(false, true);
        }
    }

    fn choose_plan(&mut self) -> Plan {
        let inbound = self.random.percent(50);
        let direction = if inbound { IO } else { 0 };
        let others = if self.random.percent(85) {
            0
        } else {
            self.random.byte() & (CD | MSG)
        };
        Plan {
            inbound,
            phase: direction | others,
            sofs: self
                .random
                .pick(&[0, 0, 0, 0, 0, 0, 0, 1, 2, 3, 4, 5, 6, 7, 8, 8, 9, 15]),
            scsi_fill: self.random.pick(&[0, 0, 1, 2, 3, 4, 5, 6, 7, 8, 8]),
            host_fill: self.choose_host_fill(inbound),
            early_requests: self.random.pick(&[0, 0, 0, 0, 1, 2, 3, 4, 5, 6, 7, 8, 9]),
            mode: if self.random.percent(85) { DMAEN } else { 0 },
            enable: if self.random.percent(65) { SCSIEN } else { 0 },
            pending: self.random.percent(50),
        }
    }

    /// A write most often finds few bytes, a read a full FIFO.
    fn choose_host_fill(&mut self, inbound: bool) -> u32 {
        match self.random.below(6) {
            0 => self.random.below(129),
            1 => self.random.below(4),
            2 => self.random.between(118, 124),
            3 => self.random.between(125, 128),
            _ if inbound => 128,
            _ => 0,
        }
    }

    /// The bytes come through the port: into the SCSI FIFO while there is a
    /// path, then into the host FIFO.
    fn fill(&mut self, plan: &Plan) {
        self.write(SXFRCTL0, DMAEN | CHEN);
        self.write(DMACNTRL0, ENDMA | EIGHT_BIT | WRITE);
        // Both empty now and then, for REQs that wait for their bytes.
        let empty = self.random.percent(if plan.inbound { 10 } else { 40 });
        if !empty {
            self.put_bytes(plan.scsi_fill);
        }
        self.write(SXFRCTL0, CHEN);
        if !empty {
            self.put_bytes(plan.host_fill);
        }
    }

    /// The phase on the bus and as it is expected, the port open.
    fn prepare_transfer(&mut self, plan: &Plan) {
        self.drive_control(plan.phase | BSY);
        self.write(SCSISIG, plan.phase);
        self.write(SCSIRATE, plan.sofs);
        let direction = if plan.inbound { 0 } else { WRITE };
        let interrupts = self.random.byte() & (INTEN | SWINT);
        self.write(DMACNTRL0, ENDMA | direction | interrupts);
        self.write(SXFRCTL0, plan.mode | CHEN);
    }

    /// REQs that are counted while nothing answers; then, in either order,
    /// SCSIEN and a REQ that stays.
    fn ask(&mut self, plan: &Plan) {
        for _ in 0..plan.early_requests {
            self.ask_once(plan);
            self.drive_control(plan.phase | BSY);
        }
        let late = self.random.percent(50);
        if late {
            self.write(SXFRCTL0, plan.enable | plan.mode | CHEN);
        }
        if plan.pending {
            self.ask_once(plan);
        }
        if !late {
            self.write(SXFRCTL0, plan.enable | plan.mode | CHEN);
        }
    }

    fn ask_once(&mut self, plan: &Plan) {
        let data = if plan.inbound {
            let byte = self.random.byte();
            let right = self.random.percent(80);
            data_lines(byte, right)
        } else {
            0
        };
        self.drive(data | u32::from(plan.phase | BSY | REQ));
    }

    /// Mostly nothing; else something at odds with the transfer.
    fn depart_from_plan(&mut self, plan: &Plan) {
        match self.random.below(24) {
            0 | 1 => {
                let sofs = self.random.below(16) as u8;
                self.write(SCSIRATE, sofs);
            }
            2 => {
                let value = self.random.byte() & !RSTFIFO;
                self.write(DMACNTRL0, value);
            }
            3 => {
                let mode = self.random.pick(&[0, SPIOEN, DMAEN | SPIOEN, DMAEN]);
                self.write(SXFRCTL0, plan.enable | mode | CHEN);
            }
            4 => {
                let phase = self.random.byte() & PHASE;
                self.drive_control(phase | BSY | REQ);
            }
            5 => self.write(SCSISIG, plan.phase ^ IO),
            6 => {
                let away = self.random.pick(&[0, BSY | SEL, BSY | ACK]);
                self.drive_control(plan.phase | away | REQ);
            }
            7 => self.harsh_noise(),
            8 => self.drive_control(plan.phase | BSY),
            _ => {}
        }
    }
}
