/* What the programs that measure have in common: streams in memory, processor time, rows of a table. */
#ifndef TIMING_H
#define TIMING_H

#include <stdint.h>
#include <stdio.h>
#include <stdlib.h>
#include <string.h>
#include <sys/stat.h>
#include <time.h>

enum { MOST = 999 };

static inline void fail(const char *what)
{
    perror(what);
    exit(1);
}

/* The processor time of this process so far. */
static inline double seconds_now(void)
{
    struct timespec now;
    clock_gettime(CLOCK_PROCESS_CPUTIME_ID, &now);
    return (double)now.tv_sec + (double)now.tv_nsec / 1e9;
}

static inline int by_size(const void *a, const void *b)
{
    double x = *(const double *)a, y = *(const double *)b;
    return (x > y) - (x < y);
}

/* The numbers are left in order of size. */
static inline double median(double *numbers, int count)
{
    qsort(numbers, (size_t)count, sizeof(double), by_size);
    return numbers[count / 2];
}

static inline void print_head(void)
{
    printf("| stream | what | million events | proved s | reference s | proved M/s | reference M/s | ratio |\n");
    printf("|-|-|-|-|-|-|-|-|\n");
}

/* The times of both sides, repeat by repeat; both are left in order of size. */
static inline void print_row(const char *name, const char *what, size_t events, int repeats, double *proved, double *other)
{
    double ratios[MOST];
    for (int i = 0; i < repeats; i++)
        ratios[i] = proved[i] / other[i];
    double ratio = median(ratios, repeats);
    qsort(proved, (size_t)repeats, sizeof(double), by_size);
    qsort(other, (size_t)repeats, sizeof(double), by_size);
    double millions = (double)events / 1e6;
    printf("| %s | %s | %.1f | %.3f | %.3f | %.1f | %.1f | %.2f |\n", name, what, millions, proved[0], other[0], millions / proved[0],
           millions / other[0], ratio);
    fflush(stdout);
}

static inline uint8_t *room(size_t size)
{
    uint8_t *bytes = malloc(size + 1);
    if (bytes == NULL)
        fail("memory");
    memset(bytes, 1, size + 1);
    return bytes;
}

static inline uint8_t *contents(const char *stream, size_t *length)
{
    struct stat about;
    FILE *file = fopen(stream, "rb");
    if (file == NULL || stat(stream, &about) != 0)
        fail(stream);
    *length = (size_t)about.st_size;
    uint8_t *bytes = room(*length);
    if (fread(bytes, 1, *length, file) != *length)
        fail(stream);
    fclose(file);
    return bytes;
}

/* The last part of a path. */
static inline const char *name_of(const char *stream)
{
    const char *slash = strrchr(stream, '/');
    return slash ? slash + 1 : stream;
}

#endif
