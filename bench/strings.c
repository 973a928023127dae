/*
 * strings REPEATS CALLS
 *
 * Times words through the port in one call, from the same prepared image each time: rabenteig_write_words or
 * rabenteig_read_words; the same words as records in one call of rabenteig_run; and the second implementation's own call. Where the
 * words are stopped, the run has the records up to the refused one, and that one.
 *
 * Each row is nanoseconds for a call, the median of the repeats, and the medians of the ratios to the proved call: the three of a
 * repeat are timed one right after the other. Before each call the prepared image is copied, 203 bytes; that is in all times alike,
 * and the first row is the copy alone: nothing is taken off. Before, all three are done once and compared.
 */
#define _DEFAULT_SOURCE
#include "rabenteig.h"
#include "reference.h"
#include "timing.h"

enum { IMAGE = RABENTEIG_IMAGE_SIZE, RECORD = 4, ANSWER = RABENTEIG_ANSWER_SIZE, MOST_WORDS = 64, WAYS = 3 };

/* A call and the chip it starts from. */
struct row {
    const char *name;
    int write;
    size_t words;
    /* Words put into the FIFOs first, with a path: into the SCSI FIFO too. */
    size_t held;
    int held_with_path;
    /* The target: its offset, and the times it raises REQ; the last stays up. */
    uint8_t offset;
    int requests;
};

static const struct row rows[] = {
    {"write, 64 words, FIFOs empty", 1, 64, 0, 0, 0, 0},
    {"write, 8 words, FIFOs empty", 1, 8, 0, 0, 0, 0},
    {"write, 1 word, FIFOs empty", 1, 1, 0, 0, 0, 0},
    {"write, 64 words, 120 bytes held", 1, 64, 64, 1, 0, 0},
    {"write, 64 words, asynchronous REQ waits", 1, 64, 0, 0, 0, 1},
    {"write, 8 words, asynchronous REQ waits", 1, 8, 0, 0, 0, 1},
    {"write, 64 words, offset of 8 open", 1, 64, 0, 0, 8, 8},
    {"write, 8 words, offset of 8 open", 1, 8, 0, 0, 8, 8},
    {"read, 64 words, 128 bytes held", 0, 64, 64, 0, 0, 0},
    {"read, 8 words, 128 bytes held", 0, 8, 64, 0, 0, 0},
    {"read, 1 word, 128 bytes held", 0, 1, 64, 0, 0, 0},
    {"read, 64 words, 8 bytes held", 0, 64, 4, 0, 0, 0},
    {"read, 64 words, both FIFOs full, asynchronous REQ waits", 0, 64, 68, 1, 0, 1},
};

/* What the ways work on. */
static struct {
    uint8_t prepared[IMAGE], image[IMAGE];
    uint8_t data[2 * MOST_WORDS], sent[8 * MOST_WORDS];
    uint8_t records[RECORD * MOST_WORDS], answers[ANSWER * MOST_WORDS];
    size_t words, steps, done, sent_count;
    uint8_t code;
} work;

typedef void way_function(void);

static void step_chip(uint32_t record)
{
    uint8_t bytes[RECORD] = {(uint8_t)(record >> 24), (uint8_t)(record >> 16), (uint8_t)(record >> 8), (uint8_t)record};
    uint8_t answer[ANSWER];
    if (reference_step(work.prepared, IMAGE, bytes, RECORD, answer, ANSWER) != 0)
        fail("a record of the preparation was refused");
}

static void ask(uint8_t lines, int requests)
{
    for (int i = 0; i < requests; i++) {
        step_chip(0xA0000000u | lines);
        step_chip(0xA0000000u | lines | 2);
    }
}

/* The bytes held come through the port; then the phase, the direction and the target. */
static void prepare(const struct row *row)
{
    uint8_t phase = row->write ? 0 : 0x40;
    memset(work.prepared, 0, IMAGE);
    step_chip(0x32000088);
    step_chip(row->held_with_path ? 0x21000060 : 0x21000020);
    for (uint32_t i = 0; i < row->held; i++)
        step_chip(0x60000000u | (i * 0x0201 & 0xFFFF));
    step_chip(0x21000020);
    step_chip(0xA0000004u | phase);
    step_chip(0x23000000u | phase);
    step_chip(0x24000000u | row->offset);
    step_chip(row->write ? 0x32000088 : 0x32000080);
    step_chip(0x210000E0);
    ask(phase | 4, row->requests);
}

static void put_records(int write)
{
    for (size_t i = 0; i < work.words; i++) {
        uint8_t record[RECORD] = {write ? 0x60 : 0x80, 0, write ? work.data[2 * i + 1] : 0, write ? work.data[2 * i] : 0};
        memcpy(work.records + RECORD * i, record, RECORD);
    }
}

static void copy_alone(void) {}

static void proved_write(void)
{
    work.code = rabenteig_write_words(work.image, IMAGE, work.data, 2 * work.words, work.words, work.sent, sizeof work.sent, &work.done,
                                      &work.sent_count);
}

static void proved_read(void)
{
    work.code = rabenteig_read_words(work.image, IMAGE, work.data, 2 * work.words, work.words, &work.done);
}

static void reference_write(void)
{
    work.code = reference_write_words(work.image, IMAGE, work.data, 2 * work.words, work.words, work.sent, sizeof work.sent, &work.done,
                                      &work.sent_count);
}

static void reference_read(void)
{
    work.code = reference_read_words(work.image, IMAGE, work.data, 2 * work.words, work.words, &work.done);
}

static void proved_run(void)
{
    rabenteig_run(work.image, IMAGE, work.records, RECORD * work.steps, work.answers, ANSWER * work.steps);
}

/* Not known to the compiler, so that each call is one. */
static way_function *volatile ways[2][WAYS] = {{proved_read, proved_run, reference_read}, {proved_write, proved_run, reference_write}};
static way_function *volatile copy_way = copy_alone;

static void once(way_function *way)
{
    memcpy(work.image, work.prepared, IMAGE);
    way();
}

static double time_of(way_function *way, size_t calls)
{
    double from = seconds_now();
    for (size_t i = 0; i < calls; i++)
        once(way);
    return (seconds_now() - from) * 1e9 / (double)calls;
}

static void check(int right, const struct row *row, const char *what)
{
    if (!right) {
        printf("%s: %s\n", row->name, what);
        exit(1);
    }
}

/* Buffers that a call before has not written to. */
static void refresh(int write)
{
    memset(work.sent, 0xA5, sizeof work.sent);
    for (size_t i = 0; i < sizeof work.data; i++)
        work.data[i] = write ? (uint8_t)(37 * i) : 0xA5;
}

/* All three ways leave the same chip, and both calls do the same; how many records the run has. */
static void compare(const struct row *row)
{
    uint8_t image[IMAGE], data[sizeof work.data], sent[sizeof work.sent];
    refresh(row->write);
    once(ways[row->write][0]);
    size_t done = work.done, sent_count = work.sent_count;
    uint8_t code = work.code;
    memcpy(image, work.image, IMAGE);
    memcpy(data, work.data, sizeof data);
    memcpy(sent, work.sent, sizeof sent);
    work.steps = done + (code != 0);
    put_records(row->write);
    once(ways[row->write][1]);
    check(memcmp(image, work.image, IMAGE) == 0, row, "the run leaves another image");
    check(code == 0 || work.answers[ANSWER * done] >> 5 == code, row, "the run is stopped elsewhere");
    refresh(row->write);
    once(ways[row->write][2]);
    check(memcmp(image, work.image, IMAGE) == 0, row, "the second implementation leaves another image");
    check(work.done == done && work.code == code, row, "the second implementation does other words");
    check(!row->write || work.sent_count == sent_count, row, "the second implementation sends another number of bytes");
    check(memcmp(data, work.data, sizeof data) == 0, row, "the second implementation reads other data");
    check(memcmp(sent, work.sent, sizeof sent) == 0, row, "the second implementation sends other bytes");
}

static void measure(const struct row *row, int repeats, size_t calls)
{
    static double times[WAYS][MOST], run_ratios[MOST], reference_ratios[MOST];
    work.words = row->words;
    prepare(row);
    compare(row);
    for (int i = 0; i < repeats; i++) {
        for (int way = 0; way < WAYS; way++)
            times[way][i] = time_of(ways[row->write][way], calls);
        run_ratios[i] = times[1][i] / times[0][i];
        reference_ratios[i] = times[2][i] / times[0][i];
    }
    printf("| %s | %zu | %.1f | %.1f | %.1f | %.2f | %.2f |\n", row->name, work.done, median(times[0], repeats), median(times[1], repeats),
           median(times[2], repeats), median(run_ratios, repeats), median(reference_ratios, repeats));
    fflush(stdout);
}

static void measure_copy(int repeats, size_t calls)
{
    static double times[MOST];
    for (int i = 0; i < repeats; i++)
        times[i] = time_of(copy_way, calls);
    double copy = median(times, repeats);
    printf("| the copy alone | 0 | %.1f | %.1f | %.1f | | |\n", copy, copy, copy);
}

int main(int count, char **words)
{
    if (count != 3 || atoi(words[1]) < 1 || atoi(words[1]) > MOST || atoi(words[2]) < 1) {
        fprintf(stderr, "usage: strings REPEATS CALLS  (1 to %d repeats)\n", MOST);
        return 2;
    }
    int repeats = atoi(words[1]);
    size_t calls = (size_t)atoi(words[2]);
    printf("| call | words done | proved ns | as a run ns | reference ns | run to proved | reference to proved |\n|-|-|-|-|-|-|-|\n");
    measure_copy(repeats, calls);
    for (size_t i = 0; i < sizeof rows / sizeof rows[0]; i++)
        measure(&rows[i], repeats, calls);
    return 0;
}
