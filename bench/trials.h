/* What the programs that compare have in common: sizes, numbers by seed, where a stream stands, bytes printed. */
#ifndef TRIALS_H
#define TRIALS_H

#include "rabenteig.h"
#include "reference.h"
#include "timing.h"

enum { IMAGE = RABENTEIG_IMAGE_SIZE, RECORD = 4, ANSWER = RABENTEIG_ANSWER_SIZE, OLD = 0xA5 };

static uint64_t state;
static const char *stream_name;
static size_t event;

/* splitmix64 */
static inline uint64_t number(void)
{
    uint64_t n = state += 0x9E3779B97F4A7C15u;
    n = (n ^ n >> 30) * 0xBF58476D1CE4E5B9u;
    n = (n ^ n >> 27) * 0x94D049BB133111EBu;
    return n ^ n >> 31;
}

static inline size_t below(size_t bound) { return (size_t)((number() >> 32) * bound >> 32); }

static inline void print_bytes(const char *name, const uint8_t *bytes, size_t length)
{
    printf("  %-9s ", name);
    for (size_t i = 0; i < length; i++)
        printf("%02X", bytes[i]);
    printf("\n");
}

#endif
