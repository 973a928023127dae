/*
 * What the examples have in common: one chip, a driver's accesses to it, and a target that notes each byte that an ACK sends it.
 * The chip is an image that each call of rabenteig_step is handed and leaves; zeros are power reset.
 */
#ifndef DRIVER_H
#define DRIVER_H

#include <stdio.h>
#include <stdlib.h>
#include <string.h>

#include "rabenteig.h"

enum { BLOCK = 512 };

/* Offsets from 340h. */
enum { SXFRCTL0 = 0x01, SCSISIG = 0x03, STCNT0 = 0x08, DMACNTRL0 = 0x12, DMADATA = 0x16 };

/* The lines others drive. */
enum { RST = 0x100, BSY = 0x04, REQ = 0x02 };

static uint8_t block[BLOCK];
static uint8_t got[2 * BLOCK];
static size_t taken;

static uint8_t image[RABENTEIG_IMAGE_SIZE];
static uint8_t answer[RABENTEIG_ANSWER_SIZE];
static size_t events;

static inline void make_block(void)
{
    for (size_t i = 0; i < BLOCK; i++)
        block[i] = (uint8_t)(i * 7 + i / 256);
}

/* One event, on the image that the last one left; its code. */
static inline unsigned event(uint32_t word)
{
    uint8_t record[4];
    for (int i = 0; i < 4; i++)
        record[i] = (uint8_t)(word >> (24 - 8 * i));
    events++;
    return rabenteig_step(image, sizeof image, record, sizeof record, answer, sizeof answer);
}

static inline void put(unsigned offset, unsigned value)
{
    if (event(1u << 29 | offset << 24 | value) != 0) {
        fprintf(stderr, "the write of %02Xh to 3%02Xh was refused\n", value, 0x40 + offset);
        exit(1);
    }
}

static inline unsigned get(unsigned offset)
{
    event(2u << 29 | offset << 24);
    return (unsigned)answer[2] << 8 | answer[3];
}

static inline unsigned scsi_fifo_count(void) { return answer[6] & 15; }

static inline unsigned host_fifo_count(void) { return answer[7]; }

/* The target's lines; it takes what the ACKs of this event send. */
static inline void drive(unsigned lines)
{
    event(5u << 29 | lines);
    unsigned acks = answer[0] & 15;
    memcpy(got + taken, answer + 8, acks);
    taken += acks;
}

static inline int offer_word(size_t at) { return event(3u << 29 | (unsigned)block[at + 1] << 8 | block[at]) == 0; }

static inline int offer_byte(size_t at) { return event(1u << 29 | DMADATA << 24 | block[at]) == 0; }

/* Offers bytes of the block from `at` on, one or two at a time, as far as the port takes them; where it stops. */
static inline size_t fill_port(size_t at, size_t width)
{
    while (at < BLOCK && (width == 2 ? offer_word(at) : offer_byte(at)))
        at += width;
    return at;
}

/* The target asks for a byte, and lets REQ fall once it has it. */
static inline void take_one(void)
{
    drive(BSY | REQ);
    drive(BSY);
}

/* A run from byte `at` until the target has `until` bytes: fills the port as far as it takes, then lets the target ask. */
static inline size_t run(size_t at, size_t width, size_t until)
{
    while (taken < until) {
        at = fill_port(at, width);
        take_one();
    }
    return at;
}

static inline int got_the_block(void) { return taken == BLOCK && memcmp(got, block, BLOCK) == 0; }

#endif
