//! Step B: edges, in the order of document 01.

use crate::answer::{odd_parity, Code};
use crate::chip::{Before, Chip};
use crate::registers::*;

impl Chip {
    #[inline]
    pub fn edges(&mut self, before: Before, tick: bool) -> Code {
        let mut code = Code::Done;
        let was_free = self.quiet_ticks == BUS_FREE;
        // "REQ falls: automatic ACK is released."
        if before.request && !self.sees(REQ) {
            self.automatic_ack = false;
        }
        if !before.reset && self.sees_reset() {
            self.bus_reset();
        }
        // "REQ rises and RST not seen".
        if !before.request && self.sees(REQ) && !self.sees_reset() {
            code = self.request();
        }
        self.watch_bus_free(tick);
        self.sequence(tick, was_free);
        // "PHASECHG is set when 'connected and not matched' is true here and
        // was false at the end of the last event."
        if !before.mismatched && self.mismatched() {
            self.raise1(PHASECHG);
        }
        code
    }

    /// "RST rises: SCSIRSTI; 340h bits 7-1, 343h, offset and SCSIEN become 0;
    /// automatic ACK is released. FIFOs and counter stay."
    fn bus_reset(&mut self) {
        self.raise1(SCSIRSTI);
        self.scsiseq &= SCSIRSTO;
        self.scsisig = 0;
        self.offset = 0;
        self.sxfrctl0 &= !SCSIEN;
        self.automatic_ack = false;
    }

    #[inline]
    fn request(&mut self) -> Code {
        self.raise1(REQINIT);
        self.check_parity();
        if self.matched() && self.path() && self.synchronous() {
            self.synchronous_request()
        } else {
            Code::Done
        }
    }

    /// "If connected, IO seen and ENSPCHK, and data with parity has an even
    /// number of ones: SCSIPERR, and with ENAUTOATNP 343h bit 4."
    ///
    /// "the parity at the last connected REQ rise with IO seen is kept",
    /// and the latch sets at a new error while enabled, "even with the status
    /// already 1".
    #[inline]
    fn check_parity(&mut self) {
        if !self.connected() || !self.sees(IO) {
            return;
        }
        // With IO seen the chip drives neither data nor parity.
        self.kept_parity_bad = self.others.parity != odd_parity(self.others.data);
        if self.kept_parity_bad && self.sxfrctl1 & ENSPCHK != 0 {
            self.status1 |= SCSIPERR;
            self.latches1 |= self.simode1 & SCSIPERR;
            if self.scsiseq & ENAUTOATNP != 0 {
                self.scsisig |= ATN;
            }
        }
    }

    /// "with offset at or above the limit, or IO seen and the SCSI FIFO holding
    /// 8, code 6, nothing stored, offset as before; else, inbound with offset 0
    /// and the SCSI FIFO not empty sets SYNCERR, then offset goes up one and an
    /// inbound byte is stored."
    #[inline]
    fn synchronous_request(&mut self) -> Code {
        let inbound = self.sees(IO);
        if self.offset >= self.limit() || (inbound && self.scsi_fifo.is_full()) {
            return Code::BeyondLimit;
        }
        if inbound && self.offset == 0 && !self.scsi_fifo.is_empty() {
            self.errors |= SYNCERR;
        }
        self.offset += 1;
        if inbound {
            let data = self.data_seen();
            self.scsi_fifo.put(data);
        }
        Code::Done
    }

    /// "Quiet ticks: 0 if BSY or SEL is seen, else ticks add, stopping at 8. On
    /// reaching 8: BUSFREE; 343h and offset 0; automatic ACK released."
    #[inline]
    fn watch_bus_free(&mut self, tick: bool) {
        if self.sees(BSY | SEL) {
            self.quiet_ticks = 0;
        } else if tick && self.quiet_ticks < BUS_FREE {
            self.quiet_ticks += 1;
            if self.quiet_ticks == BUS_FREE {
                self.bus_free();
            }
        }
    }

    /// "bus free also clears SELDO, and SELDI where noted."
    fn bus_free(&mut self) {
        self.raise1(BUSFREE);
        self.scsisig = 0;
        self.offset = 0;
        self.automatic_ack = false;
        self.status0 &= !SELDO;
        if self.seldi_noted {
            self.clear_seldi();
        }
    }
}
