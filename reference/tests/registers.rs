//! Each register: what is kept, what reads back, what is absent.

mod common;

use common::*;

/// Writes and reads back with every bit, for registers that only keep bits.
fn keeps(address: u32, mask: u16) {
    for value in [
        0x00, 0x01, 0x02, 0x04, 0x08, 0x10, 0x20, 0x40, 0x80, 0x5A, 0xFF,
    ] {
        let mut bench = Bench::new();
        bench.write(address, value);
        assert_eq!(
            bench.read(address),
            value as u16 & mask,
            "{value:02X}h at {address:03X}h"
        );
    }
}

/// 357h, 359h, 35Ah, 35Bh absent; 344h write-only; 35Eh cannot be read:
/// code 2, "FFh on read".
#[test]
fn absent_on_read() {
    let absent = [0x344, 0x357, 0x359, 0x35A, 0x35B, 0x35E];
    for address in 0x340..=0x35F {
        let mut bench = Bench::new();
        let record = 2 << 29 | (address - 0x340) << 24;
        if absent.contains(&address) {
            bench.refused(record, 2, 0xFF);
        } else {
            assert_ne!(bench.send(record).code, 2, "{address:03X}h");
        }
    }
}

/// "347h, 34Dh, 354h, 355h, 35Ch, 35Fh cannot be written": code 2, "0 on write".
#[test]
fn absent_on_write() {
    let absent = [
        0x347, 0x34D, 0x354, 0x355, 0x357, 0x359, 0x35A, 0x35B, 0x35C, 0x35F,
    ];
    for address in 0x340..=0x35F {
        let mut bench = Bench::new();
        let record = 1 << 29 | (address - 0x340) << 24;
        if absent.contains(&address) {
            bench.refused(record, 2, 0);
            bench.refused(record | 0x55, 2, 0);
        } else {
            assert_ne!(bench.send(record).code, 2, "{address:03X}h");
        }
    }
}

/// 340h: "This register can be read, allowing bit manipulation". SCSIRSTO makes
/// RST rise, which clears the bits 7-1 just written.
#[test]
fn scsiseq_340() {
    for value in [0x02, 0x5A, 0xFE] {
        let mut bench = Bench::new();
        bench.write(0x340, value);
        assert_eq!(u32::from(bench.read(0x340)), value);
    }
    let mut bench = Bench::new();
    let answer = bench.write(0x340, 0xFF);
    assert!(answer.reset_driven);
    assert_eq!(bench.read(0x340), 0x01);
    // With RST standing there is no rise: the bits stay.
    bench.write(0x340, 0xC3);
    assert_eq!(bench.read(0x340), 0xC3);
    assert!(!bench.write(0x340, 0xC2).reset_driven);
}

/// 341h: reserved "2 and 0 are not stored"; CLRSTCNT and CLRCH "act once and
/// read 0".
#[test]
fn sxfrctl0_341() {
    keeps(0x341, 0xE8);
}

/// "CLRSTCNT zeroes the counter; CLRCH empties the SCSI FIFO and zeroes the
/// offset"; CLRCH does not clear the counter.
#[test]
fn clear_bits_of_341() {
    let mut bench = Bench::write_run(8);
    bench.write(0x341, 0x60);
    bench.lines(BSY | REQ);
    bench.word_write(0x4241);
    bench.write(0x348, 5);
    let answer = bench.write(0x341, 0x10);
    assert_eq!((answer.offset, answer.scsi_fifo), (1, 2));
    assert_eq!(bench.counter(), 0);
    bench.write(0x348, 5);
    let answer = bench.write(0x341, 0x02);
    assert_eq!((answer.offset, answer.scsi_fifo), (0, 0));
    assert_eq!(bench.counter(), 5);
}

/// 342h: reserved 0.
#[test]
fn sxfrctl1_342() {
    keeps(0x342, 0xFE);
}

/// 343h: "reads the actual state of the signals"; "never CD, IO, MSG, REQ".
#[test]
fn scsisig_343_reads_lines_seen() {
    let mut bench = Bench::new();
    let answer = bench.write(0x343, 0xEE);
    assert_eq!(answer.control, 0x0C);
    assert_eq!(bench.read(0x343), 0x0C);
    bench.lines(CD | IO | MSG | REQ);
    assert_eq!(bench.read(0x343), 0xEE);
    bench.lines(ATN);
    assert_eq!(bench.read(0x343), 0x1C);
}

/// "bit 6 clears ATN": a write to 343h sets ATN but does not clear it.
#[test]
fn atn_is_set_by_343_and_cleared_by_34c() {
    let mut bench = Bench::new();
    assert_eq!(bench.write(0x343, 0x10).control, 0x10);
    assert_eq!(bench.write(0x343, 0x00).control, 0x10);
    assert_eq!(bench.write(0x34C, 0xBF).control, 0x10);
    assert_eq!(bench.write(0x34C, 0x40).control, 0x00);
}

/// 344h is write-only and SOFS its bits 3-0: with SOFS 0 a data phase is
/// asynchronous, whatever bits 6-4 say.
#[test]
fn scsirate_344() {
    let mut bench = Bench::write_run(0x70);
    bench.word_write(0x4241);
    let answer = bench.lines(BSY | REQ);
    assert_eq!((answer.acks, answer.control, answer.offset), (1, 0x01, 0));
    let mut bench = Bench::write_run(0x01);
    bench.word_write(0x4241);
    let answer = bench.lines(BSY | REQ);
    assert_eq!((answer.acks, answer.control, answer.offset), (1, 0x00, 0));
}

/// 345h reads the IDs of the last reselection, "0 after power reset", and
/// not what was written.
#[test]
fn scsiid_345_does_not_read_back() {
    let mut bench = Bench::new();
    bench.write(0x345, 0x75);
    assert_eq!(bench.read(0x345), 0);
}

/// "346h and 347h read the data seen. A write to 346h fills the latch."
#[test]
fn data_at_346_and_347() {
    let mut bench = Bench::new();
    bench.write(0x346, 0x0F);
    assert_eq!(bench.read(0x346), 0x00);
    // Connected, IO not seen, Manual: the latch is driven and seen.
    assert_eq!(bench.lines(BSY).data, 0x0F);
    assert_eq!(bench.read(0x346), 0x0F);
    assert_eq!(bench.read(0x347), 0x0F);
    // Seen is what others or the chip drive.
    bench.data_lines(0xC0, 0, BSY);
    assert_eq!(bench.read(0x347), 0xCF);
    // Inbound only the others' data.
    bench.data_lines(0xC0, 1, BSY | IO);
    assert_eq!(bench.read(0x346), 0xC0);
}

/// "The counter reads and writes as 24 bits, 348h lowest."
#[test]
fn counter_348_to_34a() {
    let mut bench = Bench::new();
    bench.write(0x348, 0x11);
    bench.write(0x349, 0x22);
    bench.write(0x34A, 0x33);
    assert_eq!(bench.counter(), 0x33_2211);
    bench.write(0x349, 0x00);
    assert_eq!(bench.counter(), 0x33_0011);
}

/// 34Bh: SETSDONE does nothing, and no clear sets a status.
#[test]
fn sstat0_34b_is_not_written() {
    let mut bench = Bench::new();
    bench.write(0x34B, 0xFF);
    assert_eq!(bench.read(0x34B), 0x00);
}

/// "34Dh gives the FIFO count's low 3 bits with EMPTY, SFULL, SOFFSET."
#[test]
fn sstat2_34d() {
    let mut bench = Bench::write_run(8);
    assert_eq!(bench.read(0x34D), 0x10);
    bench.write(0x341, 0x60);
    bench.word_write(0x0201);
    assert_eq!(bench.read(0x34D), 0x02);
    for _ in 0..3 {
        bench.word_write(0x0403);
    }
    assert_eq!(bench.read(0x34D), 0x08);
    bench.lines(BSY | REQ);
    assert_eq!(bench.read(0x34D), 0x28);
}

/// "34Eh gives (offset minus SCSI FIFO count) modulo 16, then offset."
#[test]
fn sstat3_34e() {
    let mut bench = Bench::write_run(8);
    bench.write(0x341, 0x60);
    assert_eq!(bench.read(0x34E), 0x00);
    bench.lines(BSY | REQ);
    assert_eq!(bench.read(0x34E), 0x11);
    bench.word_write(0x0201);
    assert_eq!(bench.read(0x34E), 0xF1);
}

/// Code 7: "nonzero write to 34Eh or 35Eh"; a zero is done.
#[test]
fn test_registers_34e_and_35e() {
    let mut bench = Bench::new();
    for address in [0x34E, 0x35E] {
        bench.write(address, 0);
        for value in [0x01, 0x04, 0x80, 0xFF] {
            bench.refused(1 << 29 | (address - 0x340) << 24 | value, 7, 0);
        }
    }
}

/// 34Fh reads SYNCERR and FWERR; "34Fh clears errors"; FWERR comes back while
/// its cause lasts: "Normal mode with DMAEN, SCSIEN and no path sets FWERR."
#[test]
fn sstat4_34f_and_fwerr() {
    let mut bench = Bench::new();
    assert_eq!(bench.read(0x34F), 0x00);
    bench.write(0x341, 0x40);
    assert_eq!(bench.read(0x34F), 0x00);
    bench.write(0x341, 0xC0);
    assert_eq!(bench.read(0x34F), 0x02);
    bench.write(0x34F, 0x02);
    assert_eq!(bench.read(0x34F), 0x02);
    // WRITE 1 with IOEXP 0 is a path; the error stays until cleared.
    bench.write(0x352, 0x08);
    assert_eq!(bench.read(0x34F), 0x02);
    bench.write(0x34F, 0x05);
    assert_eq!(bench.read(0x34F), 0x02);
    bench.write(0x34F, 0x02);
    assert_eq!(bench.read(0x34F), 0x00);
}

/// 350h: reserved 7.
#[test]
fn simode0_350() {
    keeps(0x350, 0x7F);
}

#[test]
fn simode1_351() {
    keeps(0x351, 0xFF);
}

/// 352h: RSTFIFO "acts once and reads 0".
#[test]
fn dmacntrl0_352() {
    keeps(0x352, 0xFD);
}

/// 353h: reserved 5; the pointer reads back as written.
#[test]
fn dmacntrl1_353() {
    keeps(0x353, 0xDF);
}

/// 354h: "WORDRDY 6 (WRITE 0 and two or more bytes), INSTAT 5, full 4, empty 3,
/// half 2 (64 or more)"; 355h "is the host FIFO count".
#[test]
fn dmastat_354_and_fifostat_355() {
    let mut bench = Bench::new();
    assert_eq!(bench.read(0x354), 0x08);
    bench.write(0x352, 0xC8);
    let expected = |count| match count {
        0 => 0x08,
        64..=127 => 0x04,
        128 => 0x14,
        _ => 0x00,
    };
    for count in 0..=128 {
        assert_eq!(bench.read(0x354), expected(count), "{count} bytes");
        assert_eq!(bench.read(0x355), count);
        if count < 128 {
            bench.write(0x356, 0);
        }
    }
    bench.write(0x352, 0xC0);
    assert_eq!(bench.read(0x354), 0x54);
    for _ in 0..126 {
        bench.read(0x356);
    }
    assert_eq!(bench.read(0x354), 0x40);
    bench.read(0x356);
    assert_eq!(bench.read(0x354), 0x00);
    bench.write(0x352, 0xC1);
    assert_eq!(bench.read(0x354), 0x20);
}

/// "358h is stored."
#[test]
fn brstcntrl_358() {
    keeps(0x358, 0xFF);
    // The 32-bit port is not covered: DWORDPIO and ENDMA change nothing.
    let mut bench = Bench::new();
    bench.write(0x352, 0x98);
    bench.write(0x358, 0x77);
    assert_eq!(bench.read(0x358), 0x77);
    assert_eq!(bench.read(0x355), 0);
}

/// "35Ch gives 1."
#[test]
fn rev_35c() {
    assert_eq!(Bench::new().read(0x35C), 1);
}

/// "modulo 32 with ENSTK32, else modulo 16 with bit 4 ignored and then 0".
#[test]
fn stack_35d() {
    let mut bench = Bench::new();
    bench.write(0x353, 0x40);
    for place in 0..33 {
        bench.write(0x35D, 0x80 + place);
    }
    assert_eq!(bench.read(0x353), 0x41);
    bench.write(0x353, 0x40);
    assert_eq!(bench.read(0x35D), 0xA0);
    assert_eq!(bench.read(0x35D), 0x81);
    // Bit 4 is kept as written, ignored by the access, and then 0.
    bench.write(0x353, 0x13);
    assert_eq!(bench.read(0x353), 0x13);
    assert_eq!(bench.read(0x35D), 0x83);
    assert_eq!(bench.read(0x353), 0x04);
    bench.write(0x353, 0x1F);
    assert_eq!(bench.read(0x35D), 0x8F);
    assert_eq!(bench.read(0x353), 0x00);
    // PWRDWN and ENSTK32 stay over an access.
    bench.write(0x353, 0xDF);
    assert_eq!(bench.read(0x35D), 0x9F);
    assert_eq!(bench.read(0x353), 0xC0);
}

/// "28, 43, 29, 31, 39, 39, 31, 41, ..." and "starts again".
#[test]
fn id_35f() {
    let mut bench = Bench::new();
    let string = [
        0x28, 0x43, 0x29, 0x31, 0x39, 0x39, 0x31, 0x41, 0x44, 0x41, 0x50, 0x54, 0x45, 0x43, 0x41,
        0x49, 0x43, 0x36, 0x33, 0x36, 0x30, 0x20, 0x20, 0x20, 0x20, 0x20, 0x20, 0x20, 0x20, 0x20,
        0x20, 0x20,
    ];
    for byte in string.iter().chain(&string) {
        assert_eq!(bench.read(0x35F), *byte);
    }
}
