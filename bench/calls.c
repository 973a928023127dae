/*
 * calls REPEATS STREAM..
 *
 * Times calls over an image, one record each, each handed the image that the last one left: rabenteig_step beside reference_step,
 * turn by turn, in the same way and with the same columns as `measure`. Before, both sides go through the stream once, untimed,
 * and every code, answer and image is compared.
 *
 * A second table says how much of a call is the test of the image. The stream is timed once as it is, and once with a record of
 * kind 7 after each: such a call tests the image, finds the record malformed and makes the answer, and nothing else. What the
 * second time is longer is the time of these calls, at the very images that the stream goes through.
 */
#define _DEFAULT_SOURCE
#include "rabenteig.h"
#include "reference.h"
#include "timing.h"

typedef uint8_t step_function(uint8_t *, size_t, const uint8_t *, size_t, uint8_t *, size_t);

static const uint8_t malformed[4] = {0xE0, 0, 0, 0};

static size_t length_at(size_t at, size_t length) { return length - at < 4 ? length - at : 4; }

/* The stream, and after each record so many idle calls; the codes' sum keeps every call in use. */
static double calls_time(step_function *step, const uint8_t *records, size_t length, int idle)
{
    uint8_t image[RABENTEIG_IMAGE_SIZE] = {0};
    uint8_t answer[RABENTEIG_ANSWER_SIZE];
    unsigned long codes = 0;
    double from = seconds_now();
    for (size_t at = 0; at < length; at += 4) {
        codes += step(image, sizeof image, records + at, length_at(at, length), answer, sizeof answer);
        for (int i = 0; i < idle; i++)
            codes += step(image, sizeof image, malformed, sizeof malformed, answer, sizeof answer);
    }
    double to = seconds_now();
    if (codes < (unsigned long)idle * (length / 4))
        fail("a malformed record was stepped");
    return to - from;
}

/* Both sides once, record by record. */
static void compare(const uint8_t *records, size_t length, const char *name)
{
    uint8_t ours[RABENTEIG_IMAGE_SIZE] = {0}, theirs[RABENTEIG_IMAGE_SIZE] = {0};
    uint8_t answer[RABENTEIG_ANSWER_SIZE], expected[RABENTEIG_ANSWER_SIZE];
    for (size_t at = 0; at < length; at += 4) {
        uint8_t code = rabenteig_step(ours, sizeof ours, records + at, length_at(at, length), answer, sizeof answer);
        uint8_t right = reference_step(theirs, sizeof theirs, records + at, length_at(at, length), expected, sizeof expected);
        if (code != right || memcmp(answer, expected, sizeof answer) != 0 || memcmp(ours, theirs, sizeof ours) != 0) {
            printf("%s: the calls differ at record %zu\n", name, at / 4 + 1);
            exit(1);
        }
    }
}

/* Times of one side: the stream as it is, and the idle calls. */
struct times {
    double whole[MOST];
    double idle[MOST];
};

static void time_side(struct times *times, int repeat, step_function *step, const uint8_t *records, size_t length)
{
    times->whole[repeat] = calls_time(step, records, length, 0);
    times->idle[repeat] = calls_time(step, records, length, 1) - times->whole[repeat];
}

static double nanoseconds(double *times, int repeats, size_t events) { return median(times, repeats) * 1e9 / (double)events; }

/* The row of the second table is kept until the first is complete. */
static void measure(int repeats, const char *stream, char *row, size_t row_size)
{
    static struct times ours, theirs;
    size_t length;
    uint8_t *records = contents(stream, &length);
    size_t events = (length + 3) / 4;
    compare(records, length, name_of(stream));
    for (int i = 0; i < repeats; i++) {
        time_side(&ours, i, rabenteig_step, records, length);
        time_side(&theirs, i, reference_step, records, length);
    }
    print_row(name_of(stream), "calls", events, repeats, ours.whole, theirs.whole);
    double proved = nanoseconds(ours.whole, repeats, events), proved_idle = nanoseconds(ours.idle, repeats, events);
    double other = nanoseconds(theirs.whole, repeats, events), other_idle = nanoseconds(theirs.idle, repeats, events);
    snprintf(row, row_size, "| %s | %.1f | %.1f | %.0f %% | %.1f | %.1f | %.0f %% |", name_of(stream), proved, proved_idle,
             100 * proved_idle / proved, other, other_idle, 100 * other_idle / other);
    free(records);
}

int main(int count, char **words)
{
    enum { STREAMS = 16 };
    static char rows[STREAMS][200];
    if (count < 3 || count > 2 + STREAMS || atoi(words[1]) < 1 || atoi(words[1]) > MOST) {
        fprintf(stderr, "usage: calls REPEATS STREAM..  (1 to %d repeats, 1 to %d streams)\n", MOST, STREAMS);
        return 2;
    }
    print_head();
    for (int i = 2; i < count; i++)
        measure(atoi(words[1]), words[i], rows[i - 2], sizeof rows[i - 2]);
    printf("\nOf a call, the test of the image and the answer (medians, ns):\n\n");
    printf("| stream | proved call | test and answer | share | reference call | test and answer | share |\n|-|-|-|-|-|-|-|\n");
    for (int i = 2; i < count; i++)
        puts(rows[i - 2]);
    return 0;
}
