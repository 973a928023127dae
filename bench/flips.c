/*
 * flips SEED EVERY STREAM..
 *
 * Calls of rabenteig_step and rabenteig_run beside those of the second implementation, on images of chips that the streams reach
 * and on every image that differs from one of them in a single bit: refused by both sides, the image untouched, or stepped as the
 * second implementation steps the changed chip. EVERY is the number of records from one image that is taken to the next. Every
 * fourth image strays first: some bits of it are changed where that is accepted, so that it is of a chip that no stream reaches.
 *
 * A changed image gets some records, of the stream and random ones of all kinds, each on the image that the last one left. Each
 * image that is taken also gets images, records and answer buffers of other lengths, and runs. All buffers are compared with the
 * bytes behind them. The program prints what it did, and ends non-zero at the first difference, which it prints.
 */
#define _DEFAULT_SOURCE
#include "trials.h"

/* Room behind an image, and for the answers of a run. */
enum { IMAGE_ROOM = IMAGE + 37, RECORDS_ROOM = 64, ANSWERS_ROOM = ANSWER * 18 };
/* Records that a changed image gets; runs and other lengths that each image gets; changes of an image that strays. */
enum { WALK = 4, RUNS = 20, LENGTHS = 60, STRAYS = 6 };

/* A read of 35Ch: done wherever the image is accepted, and changes nothing. */
static const uint8_t read_rev[RECORD] = {0x5C, 0, 0, 0};

/* All that a call may write to, and what it returns. */
struct trial {
    uint8_t image[IMAGE_ROOM];
    uint8_t answers[ANSWERS_ROOM];
    size_t result;
};

/* What a call is handed besides the image's bytes. */
struct call {
    int run;
    uint8_t records[RECORDS_ROOM];
    size_t image_length, records_length, answers_length;
};

static struct {
    unsigned long images, strayed, bits, refused, stepped, calls, runs, lengths;
} done;

static void print_trial(const char *name, const struct trial *trial, const struct call *call)
{
    printf("%s: result %zu\n", name, trial->result);
    print_bytes("image", trial->image, call->image_length);
    print_bytes("answers", trial->answers, call->answers_length);
}

static void differ(const char *why, const struct trial *before, const struct trial *ours, const struct trial *theirs,
                   const struct call *call)
{
    printf("%s, event %zu: %s\n", stream_name, event, why);
    printf("%s with an image of %zu bytes, records of %zu, answers of %zu\n", call->run ? "a run" : "a call", call->image_length,
           call->records_length, call->answers_length);
    print_bytes("image", before->image, call->image_length);
    print_bytes("records", call->records, call->records_length);
    print_trial("under test", ours, call);
    print_trial("second implementation", theirs, call);
    exit(1);
}

static void call_ours(struct trial *t, const struct call *c)
{
    if (c->run)
        t->result = rabenteig_run(t->image, c->image_length, c->records, c->records_length, t->answers, c->answers_length);
    else
        t->result = rabenteig_step(t->image, c->image_length, c->records, c->records_length, t->answers, c->answers_length);
}

static void call_theirs(struct trial *t, const struct call *c)
{
    if (c->run)
        t->result = reference_run(t->image, c->image_length, c->records, c->records_length, t->answers, c->answers_length);
    else
        t->result = reference_step(t->image, c->image_length, c->records, c->records_length, t->answers, c->answers_length);
}

static struct trial trial_of(const uint8_t *image)
{
    struct trial trial;
    memset(&trial, OLD, sizeof trial);
    memcpy(trial.image, image, IMAGE);
    trial.result = 0;
    return trial;
}

/* The same call on both sides; all that they wrote is the same. */
static struct trial both(const struct trial *before, const struct call *call)
{
    struct trial ours = *before, theirs = *before;
    call_ours(&ours, call);
    call_theirs(&theirs, call);
    done.calls++;
    if (ours.result != theirs.result)
        differ("the results differ", before, &ours, &theirs, call);
    if (memcmp(ours.answers, theirs.answers, sizeof ours.answers) != 0)
        differ("the answers differ", before, &ours, &theirs, call);
    if (memcmp(ours.image, theirs.image, sizeof ours.image) != 0)
        differ("the images differ", before, &ours, &theirs, call);
    return ours;
}

static struct call call_of(const uint8_t *record)
{
    struct call call = {0, {0}, IMAGE, RECORD, ANSWER};
    memcpy(call.records, record, RECORD);
    return call;
}

/* Both sides say the same; a refusal is exactly as it is laid down, whatever the record. */
static int accepted(const uint8_t *image)
{
    struct trial before = trial_of(image);
    struct call call = call_of(read_rev);
    struct trial after = both(&before, &call);
    if (after.result == 0)
        return 1;
    struct trial refused = before;
    memset(refused.answers, 0, ANSWER);
    refused.answers[0] = 0x20;
    refused.result = 1;
    if (memcmp(&after, &refused, sizeof after) != 0)
        differ("this is no refusal", &before, &after, &refused, &call);
    return 0;
}

static void put_record(uint8_t *record, uint32_t word)
{
    for (int i = 0; i < RECORD; i++)
        record[i] = (uint8_t)(word >> (24 - 8 * i));
}

/* Lines: any, or few of them. */
static uint32_t random_lines(void)
{
    uint32_t lines = (uint32_t)number() & 0x3FFFF;
    return below(2) ? lines & (uint32_t)number() & (uint32_t)number() : lines;
}

/* Ticks: few, around the sequencer's delays, or any number. */
static uint32_t random_ticks(void)
{
    switch (below(4)) {
    case 0: return (uint32_t)below(10);
    case 1: return (uint32_t)below(100);
    case 2: return 640000u * (uint32_t)(1 + below(8)) + (uint32_t)below(3) - 1;
    default: return (uint32_t)number() >> (8 + below(24));
    }
}

/* A record of any kind, mostly well formed. */
static void random_record(uint8_t *record)
{
    static const uint32_t payloads[8] = {0, 0xFF, 0, 0xFFFF, 0, 0x3FFFF, 0xFFFFFF, 0xFFFFFF};
    static const uint8_t kinds[16] = {0, 1, 1, 1, 1, 2, 2, 3, 3, 4, 5, 5, 5, 6, 6, 7};
    uint32_t kind = kinds[below(16)];
    uint32_t offset = kind == 1 || kind == 2 ? (uint32_t)below(32) : 0;
    uint32_t payload = kind == 5 ? random_lines() : kind == 6 ? random_ticks() : (uint32_t)number() & payloads[kind];
    uint32_t damage = below(20) == 0 ? (uint32_t)1 << below(32) : 0;
    put_record(record, (kind << 29 | offset << 24 | payload) ^ damage);
}

/* A record of the stream from here on, or a random one. */
static void choose_record(uint8_t *record, const uint8_t *records, size_t length)
{
    size_t ahead = RECORD * below(WALK);
    if (below(2) && ahead + RECORD <= length)
        memcpy(record, records + ahead, RECORD);
    else
        random_record(record);
}

static void flip(uint8_t *image, size_t bit) { image[bit / 8] ^= (uint8_t)(0x80 >> bit % 8); }

/* Some records, one after another, on an image. */
static void walk(const uint8_t *image, size_t steps, const uint8_t *records, size_t length)
{
    struct trial trial = trial_of(image);
    for (size_t i = 0; i < steps; i++) {
        uint8_t record[RECORD];
        choose_record(record, records, length);
        struct call call = call_of(record);
        trial = both(&trial, &call);
    }
}

static void flip_every_bit(const uint8_t *image, const uint8_t *records, size_t length)
{
    for (size_t bit = 0; bit < 8 * IMAGE; bit++) {
        uint8_t changed[IMAGE];
        memcpy(changed, image, IMAGE);
        flip(changed, bit);
        int stepped = accepted(changed);
        done.bits++;
        done.stepped += (unsigned long)stepped;
        done.refused += (unsigned long)!stepped;
        /* A refused image is handed in with one other record, an accepted one goes on. */
        walk(changed, stepped ? WALK : 1, records, length);
    }
}

/* Changes bits where both sides accept that. */
static void stray(uint8_t *image)
{
    size_t changes = 1 + below(STRAYS);
    for (size_t i = 0; i < changes; i++) {
        size_t bit = 8 * below(35) + below(8);
        flip(image, bit);
        if (!accepted(image))
            flip(image, bit);
    }
}

/* Damaged or not. */
static struct trial perhaps_damaged(const uint8_t *image)
{
    struct trial trial = trial_of(image);
    if (below(2))
        flip(trial.image, below(8 * IMAGE));
    return trial;
}

/* The right length or another. */
static size_t some_length(size_t right, size_t most) { return below(2) ? right : below(most + 1); }

static void try_lengths(const uint8_t *image, const uint8_t *records, size_t length)
{
    for (int i = 0; i < LENGTHS; i++) {
        struct trial before = perhaps_damaged(image);
        struct call call = {0, {0}, some_length(IMAGE, IMAGE_ROOM), some_length(RECORD, 12), some_length(ANSWER, 40)};
        choose_record(call.records, records, length);
        both(&before, &call);
        done.lengths++;
    }
}

static void try_runs(const uint8_t *image, const uint8_t *records, size_t length)
{
    for (int i = 0; i < RUNS; i++) {
        struct trial before = perhaps_damaged(image);
        struct call call = {1, {0}, IMAGE, below(RECORDS_ROOM + 1), below(ANSWERS_ROOM + 1)};
        if (below(8) == 0)
            call.image_length = below(IMAGE_ROOM + 1);
        for (size_t at = 0; at < RECORDS_ROOM; at += RECORD)
            choose_record(call.records + at, records, length);
        both(&before, &call);
        done.runs++;
    }
}

static void take_image(const uint8_t *image, const uint8_t *records, size_t length)
{
    uint8_t taken[IMAGE];
    memcpy(taken, image, IMAGE);
    if (done.images++ % 4 == 3) {
        stray(taken);
        done.strayed++;
    }
    if (!accepted(taken)) {
        printf("%s, event %zu: the image that a call left is refused\n", stream_name, event);
        exit(1);
    }
    flip_every_bit(taken, records, length);
    try_lengths(taken, records, length);
    try_runs(taken, records, length);
}

static void go_through(const char *stream, size_t every)
{
    size_t length;
    uint8_t *records = contents(stream, &length);
    uint8_t zeros[IMAGE] = {0};
    struct trial trial = trial_of(zeros);
    size_t next = below(every);
    stream_name = stream;
    for (size_t at = 0; at < length; at += RECORD) {
        size_t left = length - at;
        event = at / RECORD + 1;
        if (event > next) {
            take_image(trial.image, records + at, left);
            next = event + every - 1;
        }
        struct call call = {0, {0}, IMAGE, left < RECORD ? left : RECORD, ANSWER};
        memcpy(call.records, records + at, call.records_length);
        trial = both(&trial, &call);
    }
    free(records);
}

int main(int count, char **words)
{
    if (count < 4 || atoi(words[2]) < 1) {
        fprintf(stderr, "usage: flips SEED EVERY STREAM..\n");
        return 2;
    }
    state = strtoull(words[1], NULL, 10);
    for (int i = 3; i < count; i++)
        go_through(words[i], (size_t)atoi(words[2]));
    printf("%lu images, of these %lu strayed; %lu changed bits: %lu refused, %lu stepped;\n", done.images, done.strayed, done.bits,
           done.refused, done.stepped);
    printf("%lu calls compared, of these %lu runs and %lu with other lengths: no difference\n", done.calls, done.runs, done.lengths);
    return 0;
}
