//! Register offsets from 340h and the bits the rules speak of.

pub const SCSISEQ: u8 = 0x00; // 340h
pub const SXFRCTL0: u8 = 0x01; // 341h
pub const SXFRCTL1: u8 = 0x02; // 342h
pub const SCSISIG: u8 = 0x03; // 343h
pub const SCSIRATE: u8 = 0x04; // 344h, write
pub const SCSIID: u8 = 0x05; // 345h, write; SELID on read
pub const SCSIDAT: u8 = 0x06; // 346h
pub const SCSIBUS: u8 = 0x07; // 347h, read
pub const STCNT0: u8 = 0x08; // 348h
pub const STCNT1: u8 = 0x09; // 349h
pub const STCNT2: u8 = 0x0A; // 34Ah
pub const SSTAT0: u8 = 0x0B; // 34Bh, CLRSINT0 on write
pub const SSTAT1: u8 = 0x0C; // 34Ch, CLRSINT1 on write
pub const SSTAT2: u8 = 0x0D; // 34Dh, read
pub const SSTAT3: u8 = 0x0E; // 34Eh, SCSITEST on write
pub const SSTAT4: u8 = 0x0F; // 34Fh, CLRSERR on write
pub const SIMODE0: u8 = 0x10; // 350h
pub const SIMODE1: u8 = 0x11; // 351h
pub const DMACNTRL0: u8 = 0x12; // 352h
pub const DMACNTRL1: u8 = 0x13; // 353h
pub const DMASTAT: u8 = 0x14; // 354h, read
pub const FIFOSTAT: u8 = 0x15; // 355h, read
pub const DMADATA: u8 = 0x16; // 356h
pub const BRSTCNTRL: u8 = 0x18; // 358h
pub const REV: u8 = 0x1C; // 35Ch, read
pub const STACK: u8 = 0x1D; // 35Dh
pub const TEST: u8 = 0x1E; // 35Eh, write
pub const ID: u8 = 0x1F; // 35Fh, read

// 340h
pub const TEMODEO: u8 = 0x80;
pub const ENSELO: u8 = 0x40;
pub const ENRESELI: u8 = 0x10;
pub const ENAUTOATNO: u8 = 0x08;
pub const ENAUTOATNI: u8 = 0x04;
pub const ENAUTOATNP: u8 = 0x02;
pub const SCSIRSTO: u8 = 0x01;

// 341h
pub const SCSIEN: u8 = 0x80;
pub const DMAEN: u8 = 0x40;
pub const CHEN: u8 = 0x20;
pub const CLRSTCNT: u8 = 0x10;
pub const SPIOEN: u8 = 0x08;
pub const CLRCH: u8 = 0x02;

// 342h
pub const ENSPCHK: u8 = 0x20;
pub const STIMESEL: u8 = 0x18;
pub const ENSTIMER: u8 = 0x04;

// 343h: bit order of the control lines everywhere
pub const CD: u8 = 0x80;
pub const IO: u8 = 0x40;
pub const MSG: u8 = 0x20;
pub const ATN: u8 = 0x10;
pub const SEL: u8 = 0x08;
pub const BSY: u8 = 0x04;
pub const REQ: u8 = 0x02;
pub const ACK: u8 = 0x01;
/// CD, IO and MSG: the phase.
pub const PHASE: u8 = CD | IO | MSG;

// 344h
pub const SOFS: u8 = 0x0F;

// 34Bh and 350h
pub const SELDO: u8 = 0x40;
pub const SELDI: u8 = 0x20;
pub const SELINGO: u8 = 0x10;
pub const SPIORDY: u8 = 0x02;

// 34Ch and 351h
pub const SELTO: u8 = 0x80;
pub const SCSIRSTI: u8 = 0x20;
pub const PHASEMIS: u8 = 0x10;
pub const BUSFREE: u8 = 0x08;
pub const SCSIPERR: u8 = 0x04;
pub const PHASECHG: u8 = 0x02;
pub const REQINIT: u8 = 0x01;
/// In a write to 34Ch.
pub const CLRATNO: u8 = 0x40;

// 34Dh
pub const SOFFSET: u8 = 0x20;
pub const EMPTY: u8 = 0x10;
pub const SFULL: u8 = 0x08;

// 34Fh
pub const SYNCERR: u8 = 0x04;
pub const FWERR: u8 = 0x02;

// 352h
pub const ENDMA: u8 = 0x80;
pub const EIGHT_BIT: u8 = 0x40;
pub const DMA_NOT_PIO: u8 = 0x20;
pub const WRITE: u8 = 0x08;
pub const INTEN: u8 = 0x04;
pub const RSTFIFO: u8 = 0x02;
pub const SWINT: u8 = 0x01;

// 353h
pub const ENSTK32: u8 = 0x40;
pub const STACK_POINTER: u8 = 0x1F;

// 354h
pub const WORDRDY: u8 = 0x40;
pub const INSTAT: u8 = 0x20;
pub const DFIFOFULL: u8 = 0x10;
pub const DFIFOEMP: u8 = 0x08;
pub const DFIFOHF: u8 = 0x04;

/// The quiet ticks that make the bus free.
pub const BUS_FREE: u8 = 8;

// Bits that are kept; the reserved ones "are not stored and read 0", and
// those that act once read 0.
pub const SXFRCTL0_KEPT: u8 = SCSIEN | DMAEN | CHEN | SPIOEN;
pub const SXFRCTL1_KEPT: u8 = 0xFE;
pub const SCSIRATE_KEPT: u8 = 0x7F;
pub const SCSIID_KEPT: u8 = 0x77;
pub const SIMODE0_KEPT: u8 = 0x7F;
pub const DMACNTRL0_KEPT: u8 = !RSTFIFO;
pub const DMACNTRL1_KEPT: u8 = 0xDF;

/// "Successive reads of this register return a 32-byte ASCII string of
/// (C)1991ADAPTECAIC6360 followed by a pad of spaces (20h)."
pub const ID_STRING: [u8; 32] = *b"(C)1991ADAPTECAIC6360           ";
