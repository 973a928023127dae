/*
 * measure REPEATS PROVED REFERENCE STREAM..
 *
 * Times both programs over each stream (standard output to nothing; not where PROVED is "-": the processor is another than the
 * proved program's), then both libraries over it in one call, turn by turn, and
 * prints the best time of each, and the median of the ratios of the proved to the other: the two of a ratio are timed one right
 * after the other, so that a processor whose clock moves moves both. Times are processor time, user and system, since both sides
 * have one thread: other load on the machine then counts least. The answer buffers are written over once before. A library starts
 * each stream with an image of zeros.
 */
#define _DEFAULT_SOURCE
#include <fcntl.h>
#include <sys/resource.h>
#include <sys/wait.h>
#include <unistd.h>

#include "rabenteig.h"
#include "reference.h"
#include "timing.h"

typedef size_t run_function(uint8_t *, size_t, const uint8_t *, size_t, uint8_t *, size_t);

/* A side's chip and answers. */
struct side {
    run_function *run;
    uint8_t image[RABENTEIG_IMAGE_SIZE];
    uint8_t *answers;
};

static double seconds_of(struct timeval t) { return (double)t.tv_sec + (double)t.tv_usec / 1e6; }

static void become(const char *program, const char *stream)
{
    int input = open(stream, O_RDONLY);
    int output = open("/dev/null", O_WRONLY);
    if (input < 0 || output < 0 || dup2(input, 0) < 0 || dup2(output, 1) < 0)
        fail(stream);
    execl(program, program, (char *)0);
    fail(program);
}

static double program_time(const char *program, const char *stream)
{
    pid_t child = fork();
    if (child < 0)
        fail("fork");
    if (child == 0)
        become(program, stream);
    int status;
    struct rusage used;
    if (wait4(child, &status, 0, &used) < 0 || status != 0)
        fail(program);
    return seconds_of(used.ru_utime) + seconds_of(used.ru_stime);
}

static double library_time(struct side *side, const uint8_t *records, size_t length, size_t events)
{
    memset(side->image, 0, sizeof side->image);
    double from = seconds_now();
    size_t count = side->run(side->image, sizeof side->image, records, length, side->answers, RABENTEIG_ANSWER_SIZE * events);
    double to = seconds_now();
    if (count != events)
        fail("a record was not stepped");
    return to - from;
}

static int differ(const struct side *proved, const struct side *other, size_t events)
{
    return memcmp(proved->answers, other->answers, RABENTEIG_ANSWER_SIZE * events) != 0 || memcmp(proved->image, other->image, sizeof proved->image) != 0;
}

static void measure(int repeats, const char *proved, const char *reference, const char *stream)
{
    size_t length;
    uint8_t *records = contents(stream, &length);
    size_t events = (length + 3) / 4;
    struct side ours = {rabenteig_run, {0}, room(RABENTEIG_ANSWER_SIZE * events)};
    struct side theirs = {reference_run, {0}, room(RABENTEIG_ANSWER_SIZE * events)};
    int programs = strcmp(proved, "-") != 0;
    double times[4][MOST];
    for (int i = 0; i < repeats; i++) {
        if (programs) {
            times[0][i] = program_time(proved, stream);
            times[1][i] = program_time(reference, stream);
        }
        times[2][i] = library_time(&ours, records, length, events);
        times[3][i] = library_time(&theirs, records, length, events);
    }
    if (programs)
        print_row(name_of(stream), "program", events, repeats, times[0], times[1]);
    print_row(name_of(stream), "library", events, repeats, times[2], times[3]);
    if (differ(&ours, &theirs, events)) {
        printf("the answers or the images differ\n");
        exit(1);
    }
    free(records);
    free(ours.answers);
    free(theirs.answers);
}

int main(int count, char **words)
{
    if (count < 5 || atoi(words[1]) < 1 || atoi(words[1]) > MOST) {
        fprintf(stderr, "usage: measure REPEATS PROVED REFERENCE STREAM..  (1 to %d repeats)\n", MOST);
        return 2;
    }
    print_head();
    for (int i = 4; i < count; i++)
        measure(atoi(words[1]), words[2], words[3], words[i]);
    return 0;
}
