/*
 * The tuner's driver for one block: a write run, a bus reset in its middle, the cut, the counter read, the clearing, and the
 * restart at the byte that the counter names. The target notes each byte that an ACK sends it.
 */
#include "driver.h"

enum { RESET_AFTER = 257 };

int main(void)
{
    make_block();
    put(DMACNTRL0, 0x88); /* ENDMA, 16 bits, WRITE */
    put(SXFRCTL0, 0xE0);  /* SCSIEN, DMAEN, CHEN */
    drive(BSY);
    size_t at = run(0, 2, RESET_AFTER);
    printf("round 1 from byte 0: the port took %zu bytes, the target %zu\n", at, taken);

    drive(RST);
    drive(0);
    put(SXFRCTL0, 0x60); /* the cut: SCSIEN 0 */
    size_t counter = 0;
    for (unsigned i = 0; i < 3; i++)
        counter |= (size_t)get(STCNT0 + i) << 8 * i;
    printf("bus reset and cut: the counter reads %zu, the FIFOs hold %u and %u\n", counter, scsi_fifo_count(), host_fifo_count());

    put(SXFRCTL0, 0x00);  /* Manual mode: the path is shut */
    put(DMACNTRL0, 0xCA); /* RSTFIFO; 8 bits from here on, since the rest may be odd */
    put(SXFRCTL0, 0x12);  /* CLRSTCNT, CLRCH */
    put(SCSISIG, 0x00);   /* ACKO 0, data out expected */
    put(SXFRCTL0, 0xE0);  /* SCSIEN, DMAEN, CHEN: anew */
    drive(BSY);
    at = run(counter, 1, BLOCK);
    printf("round 2 from byte %zu: the port took %zu bytes, the target has %zu\n", counter, at - counter, taken);

    if (!got_the_block()) {
        printf("the target did not get the block\n");
        return 1;
    }
    printf("the target got each of the %d bytes once, in order; %zu events\n", BLOCK, events);
    return 0;
}
