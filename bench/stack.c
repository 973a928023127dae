/*
 * stack REPEATS ACCESSES
 *
 * Times accesses to 35Dh, a write and a read in turn, through the record that holds the stack apart (rabenteig_stack) and beside it the
 * same through the chip: all in one run of records (rabenteig_run), and one call for each with the chip's image (rabenteig_step). Prints
 * the best time of each, and the median of the ratios to the stack's own call, timed one right after the other. Times are processor time.
 * The values that are read must be the same in all.
 */
#define _DEFAULT_SOURCE
#include "rabenteig.h"
#include "timing.h"

typedef void way_function(const uint8_t *records, size_t accesses, uint8_t *values);

static uint8_t *answers;

static void by_stack(const uint8_t *records, size_t accesses, uint8_t *values)
{
    uint8_t stack[33] = {0};
    uint8_t control = 0;
    for (size_t i = 0; i < accesses; i++)
        if (rabenteig_stack(stack, sizeof stack, &control, 1, records + 4 * i, 4, values + i, 1) != 0)
            exit(1);
}

static void by_run(const uint8_t *records, size_t accesses, uint8_t *values)
{
    uint8_t image[RABENTEIG_IMAGE_SIZE] = {0};
    if (rabenteig_run(image, sizeof image, records, 4 * accesses, answers, RABENTEIG_ANSWER_SIZE * accesses) != accesses)
        exit(1);
    for (size_t i = 0; i < accesses; i++)
        values[i] = answers[RABENTEIG_ANSWER_SIZE * i + 3];
}

static void by_step(const uint8_t *records, size_t accesses, uint8_t *values)
{
    uint8_t image[RABENTEIG_IMAGE_SIZE] = {0};
    uint8_t answer[RABENTEIG_ANSWER_SIZE];
    for (size_t i = 0; i < accesses; i++) {
        if (rabenteig_step(image, sizeof image, records + 4 * i, 4, answer, sizeof answer) != 0)
            exit(1);
        values[i] = answer[3];
    }
}

static double timed(way_function *way, const uint8_t *records, size_t accesses, uint8_t *values)
{
    double start = seconds_now();
    way(records, accesses, values);
    return seconds_now() - start;
}

static void row(const char *name, way_function *way, size_t repeats, const uint8_t *records, size_t accesses, const uint8_t *expected)
{
    static double ratios[MOST];
    double best = 1e9, best_stack = 1e9;
    uint8_t *values = malloc(accesses);
    if (!values)
        exit(1);
    way(records, accesses, values);
    if (memcmp(values, expected, accesses) != 0) {
        printf("%s: another value was read\n", name);
        exit(1);
    }
    for (size_t i = 0; i < repeats; i++) {
        double stack = timed(by_stack, records, accesses, values);
        double other = timed(way, records, accesses, values);
        ratios[i] = stack / other;
        best = other < best ? other : best;
        best_stack = stack < best_stack ? stack : best_stack;
    }
    printf("| %s | %.1f | %.1f | %.2f |\n", name, best_stack * 1e9 / (double)accesses, best * 1e9 / (double)accesses,
           median(ratios, (int)repeats));
    fflush(stdout);
    free(values);
}

int main(int count, char **words)
{
    size_t repeats = count > 1 ? strtoul(words[1], 0, 10) : 15;
    size_t accesses = count > 2 ? strtoul(words[2], 0, 10) : 10000000;
    if (repeats < 1 || repeats > MOST || accesses < 2)
        return 1;
    uint8_t *records = calloc(accesses, 4), *expected = malloc(accesses);
    answers = malloc(RABENTEIG_ANSWER_SIZE * accesses);
    if (!records || !expected || !answers)
        return 1;
    memset(answers, 1, RABENTEIG_ANSWER_SIZE * accesses);
    for (size_t i = 0; i < accesses; i++) {
        records[4 * i] = i % 2 ? 0x5D : 0x3D;
        records[4 * i + 3] = i % 2 ? 0 : (uint8_t)(i * 37);
    }
    by_stack(records, accesses, expected);
    puts("| 35Dh through | lent record, ns | this, ns | ratio |");
    puts("|-|-|-|-|");
    row("`rabenteig_run`, all in one call", by_run, repeats, records, accesses, expected);
    row("`rabenteig_step`, a call for each", by_step, repeats, records, accesses, expected);
    return 0;
}
