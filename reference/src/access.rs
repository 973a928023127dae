//! Step A: the event's own effect, with the register map and the data port.

use crate::answer::{Code, Refusal};
use crate::chip::{Chip, Mode};
use crate::event::Event;
use crate::registers::*;

impl Chip {
    /// The value read ("what was read, else 0"), or why nothing was done.
    #[inline]
    pub fn own_effect(&mut self, event: Event) -> Result<u16, Refusal> {
        match event {
            Event::PowerReset => *self = Chip::new(),
            Event::RegisterWrite { offset, value } => self.register_write(offset, value)?,
            Event::RegisterRead { offset } => return self.register_read(offset),
            Event::WordWrite { value } => self.word_write(value)?,
            Event::WordRead => return self.word_read(),
            Event::Lines(lines) => self.others = lines,
            Event::Ticks(_) => {}
        }
        Ok(0)
    }

    fn register_read(&mut self, offset: u8) -> Result<u16, Refusal> {
        let value = match offset {
            SCSISEQ => self.scsiseq,
            SXFRCTL0 => self.sxfrctl0,
            SXFRCTL1 => self.sxfrctl1,
            // "The SCSISIG Read register reads the actual state of the signals".
            SCSISIG => self.control_seen(),
            SCSIID => self.selid,
            SCSIDAT => self.read_data_latch(),
            SCSIBUS => self.data_seen(),
            STCNT0 => self.counter as u8,
            STCNT1 => (self.counter >> 8) as u8,
            STCNT2 => (self.counter >> 16) as u8,
            SSTAT0 => self.status0,
            SSTAT1 => self.status1 | if self.phase_mismatch() { PHASEMIS } else { 0 },
            SSTAT2 => self.scsi_fifo_status(),
            SSTAT3 => self.offset_status(),
            SSTAT4 => self.errors,
            SIMODE0 => self.simode0,
            SIMODE1 => self.simode1,
            DMACNTRL0 => self.dmacntrl0,
            DMACNTRL1 => self.dmacntrl1,
            DMASTAT => self.dma_status(),
            FIFOSTAT => self.host_fifo.count() as u8,
            DMADATA => self.byte_read()?,
            BRSTCNTRL => self.brstcntrl,
            // "35Ch gives 1."
            REV => 1,
            STACK => self.stack[self.next_stack_place()],
            ID => self.next_id_byte(),
            // 344h is write-only, 35Eh cannot be read; 357h, 359h, 35Ah and
            // 35Bh are absent: "FFh on read".
            _ => {
                return Err(Refusal {
                    code: Code::AbsentRegister,
                    value: 0xFF,
                })
            }
        };
        Ok(value.into())
    }

    fn register_write(&mut self, offset: u8, value: u8) -> Result<(), Refusal> {
        match offset {
            SCSISEQ => self.write_sequence_control(value),
            SXFRCTL0 => self.write_transfer_control(value),
            SXFRCTL1 => self.write_parity_control(value),
            // A set bit 4 sets ATN; a clear one leaves ATN as it is.
            SCSISIG => self.scsisig = self.scsisig & ATN | value,
            SCSIRATE => self.scsirate = value & SCSIRATE_KEPT,
            SCSIID => self.scsiid = value & SCSIID_KEPT,
            SCSIDAT => self.write_data_latch(value),
            STCNT0 => self.write_counter_byte(0, value),
            STCNT1 => self.write_counter_byte(8, value),
            STCNT2 => self.write_counter_byte(16, value),
            SSTAT0 => self.clear_interrupts0(value),
            SSTAT1 => self.clear_interrupts1(value),
            // "34Fh clears errors."
            SSTAT4 => self.errors &= !value,
            SIMODE0 => self.write_enables0(value & SIMODE0_KEPT),
            SIMODE1 => self.write_enables1(value),
            DMACNTRL0 => self.write_dma_control(value),
            DMACNTRL1 => self.dmacntrl1 = value & DMACNTRL1_KEPT,
            DMADATA => self.byte_write(value)?,
            BRSTCNTRL => self.brstcntrl = value,
            STACK => {
                let place = self.next_stack_place();
                self.stack[place] = value;
            }
            // "nonzero write to 34Eh or 35Eh": code 7; a zero does nothing.
            SSTAT3 | TEST if value != 0 => {
                return Err(Refusal {
                    code: Code::TestRegister,
                    value: 0,
                })
            }
            SSTAT3 | TEST => {}
            // 347h, 34Dh, 354h, 355h, 35Ch, 35Fh cannot be written; 357h,
            // 359h, 35Ah, 35Bh are absent: "0 on write".
            _ => {
                return Err(Refusal {
                    code: Code::AbsentRegister,
                    value: 0,
                })
            }
        }
        Ok(())
    }

    // 341h, 342h, 352h: controls.

    /// "CLRSTCNT zeroes the counter; CLRCH empties the SCSI FIFO and zeroes
    /// the offset"; both act once and read 0.
    fn write_transfer_control(&mut self, value: u8) {
        self.sxfrctl0 = value & SXFRCTL0_KEPT;
        if value & CLRSTCNT != 0 {
            self.counter = 0;
        }
        if value & CLRCH != 0 {
            self.scsi_fifo.clear();
            self.offset = 0;
        }
    }

    /// "While ENSPCHK is 0, SCSIPERR is held at 0 and does not come back; its
    /// latch stays."
    fn write_parity_control(&mut self, value: u8) {
        self.sxfrctl1 = value & SXFRCTL1_KEPT;
        if value & ENSPCHK == 0 {
            self.status1 &= !SCSIPERR;
        }
    }

    /// "RSTFIFO empties the host FIFO", acts once and reads 0.
    fn write_dma_control(&mut self, value: u8) {
        self.dmacntrl0 = value & DMACNTRL0_KEPT;
        if value & RSTFIFO != 0 {
            self.host_fifo.clear();
        }
    }

    /// "The counter reads and writes as 24 bits, 348h lowest."
    fn write_counter_byte(&mut self, shift: u32, value: u8) {
        self.counter = self.counter & !(0xFF << shift) | u32::from(value) << shift;
    }

    // 346h: the data latch and Automatic PIO.

    /// "346h and 347h read the data seen"; with IO seen the read serves SPIORDY.
    fn read_data_latch(&mut self) -> u8 {
        let data = self.data_seen();
        if self.sees(IO) {
            self.serve_pio_ready();
        }
        data
    }

    /// "A write to 346h fills the latch"; with IO not seen it serves SPIORDY.
    fn write_data_latch(&mut self, value: u8) {
        self.data_latch = value;
        if !self.sees(IO) {
            self.serve_pio_ready();
        }
    }

    /// "An access to 346h ... with SPIORDY clears it and, if Automatic, matched
    /// and REQ is seen, turns automatic ACK on, adds one to the counter and
    /// clears REQINIT".
    fn serve_pio_ready(&mut self) {
        if self.status0 & SPIORDY == 0 {
            return;
        }
        self.status0 &= !SPIORDY;
        if self.mode() == Mode::Automatic && self.matched() && self.sees(REQ) {
            self.automatic_ack = true;
            self.count_ack();
        }
    }

    // 34Bh, 34Ch, 350h, 351h: clears and enables.

    /// "A write to 34Bh clears latches only".
    ///
    /// R-1: "A write of 34Bh bit 5 while SELDI is 1 and the quiet ticks stand
    /// at 8 clears SELDI at once; else it notes."
    fn clear_interrupts0(&mut self, value: u8) {
        self.latches0 &= !value;
        if value & self.status0 & SELDI != 0 {
            if self.quiet_ticks == BUS_FREE {
                self.clear_seldi();
            } else {
                self.seldi_noted = true;
            }
        } else if value & SELDI != 0 {
            // "Noted is 0 whenever SELDI is 0."
            self.seldi_noted = false;
        }
    }

    /// "Noted is 0 whenever SELDI is 0."
    pub fn clear_seldi(&mut self) {
        self.status0 &= !SELDI;
        self.seldi_noted = false;
    }

    /// "A write to 34Ch clears the named status bits and latches; bit 6 clears
    /// ATN."
    ///
    /// R-2: "a clear with ENSPCHK set copies [the kept parity] to the status.
    /// The latch is cleared all the same".
    fn clear_interrupts1(&mut self, value: u8) {
        self.status1 &= !value;
        self.latches1 &= !value;
        if self.kept_parity_bad && self.sxfrctl1 & ENSPCHK != 0 {
            self.status1 |= value & SCSIPERR;
        }
        if value & CLRATNO != 0 {
            self.scsisig &= !ATN;
        }
    }

    /// A latch also sets "when the enable rises while status is 1. Masking
    /// later does not clear it."
    fn write_enables0(&mut self, value: u8) {
        self.latches0 |= value & !self.simode0 & self.status0;
        self.simode0 = value;
    }

    fn write_enables1(&mut self, value: u8) {
        self.latches1 |= value & !self.simode1 & self.status1;
        self.simode1 = value;
    }

    // 34Dh, 34Eh, 354h: computed statuses.

    /// "34Dh gives the FIFO count's low 3 bits with EMPTY, SFULL, SOFFSET."
    fn scsi_fifo_status(&self) -> u8 {
        let mut status = self.scsi_fifo.count() as u8 & 7;
        if self.scsi_fifo.is_empty() {
            status |= EMPTY;
        }
        if self.scsi_fifo.is_full() {
            status |= SFULL;
        }
        if self.offset != 0 {
            status |= SOFFSET;
        }
        status
    }

    /// "34Eh gives (offset minus SCSI FIFO count) modulo 16, then offset."
    fn offset_status(&self) -> u8 {
        let difference = self.offset.wrapping_sub(self.scsi_fifo.count() as u8) & 0x0F;
        difference << 4 | self.offset
    }

    /// "WORDRDY 6 (WRITE 0 and two or more bytes), INSTAT 5, full 4, empty 3,
    /// half 2 (64 or more); others 0."
    fn dma_status(&self) -> u8 {
        let mut status = 0;
        if !self.host_writes() && self.host_fifo.count() >= 2 {
            status |= WORDRDY;
        }
        if self.interrupt_status() {
            status |= INSTAT;
        }
        if self.host_fifo.is_full() {
            status |= DFIFOFULL;
        }
        if self.host_fifo.is_empty() {
            status |= DFIFOEMP;
        }
        if self.host_fifo.count() >= 64 {
            status |= DFIFOHF;
        }
        status
    }

    // 35Dh and 35Fh: the stack and the ID.

    /// "35Dh uses the place the pointer names, then the pointer goes up one,
    /// modulo 32 with ENSTK32, else modulo 16 with bit 4 ignored and then 0."
    fn next_stack_place(&mut self) -> usize {
        let size = if self.dmacntrl1 & ENSTK32 != 0 {
            32
        } else {
            16
        };
        let place = self.dmacntrl1 & STACK_POINTER & (size - 1);
        let next = (place + 1) & (size - 1);
        self.dmacntrl1 = self.dmacntrl1 & !STACK_POINTER | next;
        place.into()
    }

    /// "35Fh gives the 32 ID bytes in turn and starts again".
    fn next_id_byte(&mut self) -> u8 {
        let byte = ID_STRING[usize::from(self.id_place) & 31];
        self.id_place = (self.id_place + 1) & 31;
        byte
    }

    // 356h: the data port.

    /// "data port shut: ENDMA 0, DMA/PIO 1, width or direction wrong".
    #[inline]
    pub fn port_shut(&self, eight_bit: bool, write: bool) -> bool {
        let open = ENDMA | if eight_bit { EIGHT_BIT } else { 0 } | if write { WRITE } else { 0 };
        self.dmacntrl0 & (ENDMA | DMA_NOT_PIO | EIGHT_BIT | WRITE) != open
    }

    fn byte_write(&mut self, value: u8) -> Result<(), Refusal> {
        self.check_port_write(true)?;
        self.host_fifo.put(value);
        Ok(())
    }

    /// "A word's low byte comes first."
    #[inline]
    fn word_write(&mut self, value: u16) -> Result<(), Refusal> {
        self.check_port_write(false)?;
        let [low, high] = value.to_le_bytes();
        self.host_fifo.put(low);
        self.host_fifo.put(high);
        Ok(())
    }

    fn byte_read(&mut self) -> Result<u8, Refusal> {
        self.check_port_read(true)?;
        Ok(self.host_fifo.take())
    }

    #[inline]
    fn word_read(&mut self) -> Result<u16, Refusal> {
        self.check_port_read(false)?;
        let low = self.host_fifo.take();
        let high = self.host_fifo.take();
        Ok(u16::from_le_bytes([low, high]))
    }

    /// Code 3, then "write and host FIFO lacks room for the whole access".
    #[inline]
    fn check_port_write(&self, eight_bit: bool) -> Result<(), Refusal> {
        let bytes = if eight_bit { 1 } else { 2 };
        if self.port_shut(eight_bit, true) {
            return Err(Refusal {
                code: Code::PortShut,
                value: 0,
            });
        }
        if self.host_fifo.room() < bytes {
            return Err(Refusal {
                code: Code::NoRoom,
                value: 0,
            });
        }
        Ok(())
    }

    /// Code 3, then "read and host FIFO lacks the whole access"; both give "all
    /// ones of the width".
    #[inline]
    fn check_port_read(&self, eight_bit: bool) -> Result<(), Refusal> {
        let (bytes, value) = if eight_bit { (1, 0x00FF) } else { (2, 0xFFFF) };
        if self.port_shut(eight_bit, false) {
            return Err(Refusal {
                code: Code::PortShut,
                value,
            });
        }
        if self.host_fifo.count() < bytes {
            return Err(Refusal {
                code: Code::TooFewBytes,
                value,
            });
        }
        Ok(())
    }
}
