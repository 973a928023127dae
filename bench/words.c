/*
 * words SEED WORDS STREAM..
 *
 * Calls of rabenteig_write_words and rabenteig_read_words beside those of the second implementation, and both beside the words one by
 * one: a record of a word each, stepped by reference_run up to the first refusal. The images are those at which a stream reaches a
 * power reset or its end (`streams starts` makes such), and some on the way. Each gets chains of calls, each call on the image that
 * the last one left: any number of words, mostly in the port's direction; some with buffers of other lengths, with a number of
 * words whose double wraps to the right length, with an image of another length or with a changed bit.
 *
 * The code, the words done, the bytes sent, the image and the whole buffers are compared, and the bytes around them. The streams are
 * gone through until WORDS words were done. The program prints what it did, and ends non-zero at the first difference, which it prints.
 */
#define _DEFAULT_SOURCE
#include "trials.h"

/* The most words of a call with right buffers; bytes before and behind a buffer. */
enum { MOST_WORDS = 160, MARGIN = 32 };
/* Chains that a start gets, and an image on the way, of which one in so many is taken; the calls of the longest. */
enum { CHAINS = 30, FEW_CHAINS = 3, SELDOM = 40, LONGEST = 4 };

/* All that a call may write to. */
struct trial {
    uint8_t image[IMAGE + MARGIN];
    uint8_t data[2 * MOST_WORDS + 2 * MARGIN];
    uint8_t sent[8 * MOST_WORDS + 2 * MARGIN];
    size_t done, sent_count;
    uint8_t code;
};

/* What a call is handed besides the bytes, and where in their room the buffers lie. */
struct call {
    int write;
    size_t image_length, words, data_length, sent_length, data_at, sent_at;
};

static struct {
    unsigned long calls, writes, words, sent, images, codes[8];
} totals;

static void print_trial(const char *name, const struct trial *t)
{
    printf("%s: code %u, %zu words done, %zu bytes sent\n", name, t->code, t->done, t->sent_count);
    print_bytes("image", t->image, sizeof t->image);
    print_bytes("data", t->data, sizeof t->data);
    print_bytes("sent", t->sent, sizeof t->sent);
}

static void differ(const char *why, const char *side, const struct trial *before, const struct trial *t, const struct trial *right,
                   const struct call *c)
{
    printf("%s, event %zu: %s\n", stream_name, event, why);
    printf("a %s call of %zu words with an image of %zu bytes, data of %zu at %zu, sent of %zu at %zu\n", c->write ? "write" : "read",
           c->words, c->image_length, c->data_length, c->data_at, c->sent_length, c->sent_at);
    print_trial("before", before);
    print_trial(side, t);
    print_trial("the words one by one", right);
    exit(1);
}

static void call_proved(struct trial *t, const struct call *c)
{
    if (c->write)
        t->code = rabenteig_write_words(t->image, c->image_length, t->data + c->data_at, c->data_length, c->words,
                                        t->sent + c->sent_at, c->sent_length, &t->done, &t->sent_count);
    else
        t->code = rabenteig_read_words(t->image, c->image_length, t->data + c->data_at, c->data_length, c->words, &t->done);
}

static void call_reference(struct trial *t, const struct call *c)
{
    if (c->write)
        t->code = reference_write_words(t->image, c->image_length, t->data + c->data_at, c->data_length, c->words,
                                        t->sent + c->sent_at, c->sent_length, &t->done, &t->sent_count);
    else
        t->code = reference_read_words(t->image, c->image_length, t->data + c->data_at, c->data_length, c->words, &t->done);
}

/* A read of 35Ch is done wherever the image is accepted, and changes nothing. */
static int accepted(const uint8_t *image, size_t length)
{
    static const uint8_t read_rev[RECORD] = {0x5C, 0, 0, 0};
    uint8_t copy[IMAGE + MARGIN], answer[ANSWER];
    memcpy(copy, image, sizeof copy);
    return reference_step(copy, length, read_rev, RECORD, answer, ANSWER) == 0;
}

/* Lengths are divided, so that nothing overflows. */
static int buffers_right(const struct call *c)
{
    int data_right = c->data_length % 2 == 0 && c->data_length / 2 == c->words;
    return data_right && (!c->write || c->sent_length / 8 >= c->words);
}

/* What a word's answer says goes to the buffers. */
static void keep(struct trial *t, const struct call *c, const uint8_t *answer)
{
    size_t acks = c->write ? answer[0] & 15 : 0;
    memcpy(t->sent + c->sent_at + t->sent_count, answer + 8, acks);
    t->sent_count += acks;
    if (!c->write) {
        t->data[c->data_at + 2 * t->done] = answer[3];
        t->data[c->data_at + 2 * t->done + 1] = answer[2];
    }
    t->done++;
}

static void call_one_by_one(struct trial *t, const struct call *c)
{
    t->done = 0;
    t->sent_count = c->write ? 0 : t->sent_count;
    t->code = 1;
    if (!accepted(t->image, c->image_length) || !buffers_right(c))
        return;
    t->code = 0;
    while (t->done < c->words) {
        const uint8_t *word = t->data + c->data_at + 2 * t->done;
        uint8_t record[RECORD] = {0x80, 0, 0, 0}, written[RECORD] = {0x60, 0, word[1], word[0]}, answer[ANSWER];
        reference_run(t->image, IMAGE, c->write ? written : record, RECORD, answer, ANSWER);
        t->code = answer[0] >> 5;
        if (t->code != 0)
            return;
        keep(t, c, answer);
    }
}

static void same(const char *side, const struct trial *before, const struct trial *t, const struct trial *right, const struct call *c)
{
    if (t->code != right->code)
        differ("the codes differ", side, before, t, right, c);
    if (t->done != right->done)
        differ("the words done differ", side, before, t, right, c);
    if (t->sent_count != right->sent_count)
        differ("the numbers of bytes sent differ", side, before, t, right, c);
    if (memcmp(t->image, right->image, sizeof t->image) != 0)
        differ("the images differ", side, before, t, right, c);
    if (memcmp(t->data, right->data, sizeof t->data) != 0)
        differ("the data buffers differ", side, before, t, right, c);
    if (memcmp(t->sent, right->sent, sizeof t->sent) != 0)
        differ("the sent buffers differ", side, before, t, right, c);
}

/* The same call three times; what it leaves. */
static struct trial all_three(const struct trial *before, const struct call *c)
{
    struct trial proved = *before, reference = *before, right = *before;
    call_proved(&proved, c);
    call_reference(&reference, c);
    call_one_by_one(&right, c);
    same("under test", before, &proved, &right, c);
    same("second implementation", before, &reference, &right, c);
    totals.calls++;
    totals.writes += (unsigned long)c->write;
    totals.words += right.done;
    totals.sent += c->write ? right.sent_count : 0;
    totals.codes[right.code]++;
    return right;
}

/* Few words, some about a full FIFO, or any number up to the most. */
static size_t some_words(void)
{
    switch (below(5)) {
    case 0: return below(6);
    case 1: return 60 + below(14);
    case 2: return below(MOST_WORDS + 1);
    default: return below(80);
    }
}

/* One thing about the lengths is wrong, or larger than it need be. */
static void spoil(struct call *c)
{
    switch (below(7)) {
    case 0: c->words += (SIZE_MAX / 2 + 1) * (1 + below(2)) + below(2); break;
    case 1: c->words += SIZE_MAX / 8 + 1; break;
    case 2: c->data_length = below(2 * MOST_WORDS + 1); break;
    case 3: c->data_length += c->data_length > 0 && below(2) ? (size_t)-1 : 1; break;
    case 4: c->sent_length -= c->sent_length > 0; break;
    case 5: c->sent_length = below(8 * MOST_WORDS + 1); break;
    default: c->image_length = below(IMAGE + MARGIN + 1); break;
    }
}

/* Byte 9 of an image is 352h: WRITE is bit 3. */
static struct call choose_call(const uint8_t *image)
{
    int write = (image[9] & 8) != 0;
    struct call c = {below(12) == 0 ? !write : write, IMAGE, some_words(), 0, 0, 1 + below(MARGIN), 1 + below(MARGIN)};
    c.data_length = 2 * c.words;
    c.sent_length = 8 * c.words;
    if (below(10) == 0)
        spoil(&c);
    return c;
}

/* Fresh buffers with old content; the image stays. */
static void refresh(struct trial *t)
{
    for (size_t i = 0; i < sizeof t->data; i++)
        t->data[i] = (uint8_t)(number() >> 56);
    memset(t->sent, OLD, sizeof t->sent);
    t->done = t->sent_count = (size_t)number();
    t->code = 0;
}

/* Between two calls: the port turned round, REQ up or down, a bit of the image changed, or nothing. */
static void disturb(uint8_t *image)
{
    static const uint8_t records[4][RECORD] = {{0x32, 0, 0, 0x88}, {0x32, 0, 0, 0x80}, {0xA0, 0, 0, 0x06}, {0xA0, 0, 0, 0x04}};
    uint8_t record[RECORD], answer[ANSWER];
    size_t choice = below(12);
    if (choice < 4) {
        memcpy(record, records[choice], RECORD);
        /* The lines' phase is as it was (byte 16 of an image). */
        record[3] |= choice < 2 ? 0 : image[16] & 0xE0;
        reference_step(image, IMAGE, record, RECORD, answer, ANSWER);
    }
    if (choice == 4) {
        size_t bit = below(8 * IMAGE);
        image[bit / 8] ^= (uint8_t)(0x80 >> bit % 8);
    }
}

static void chain(const uint8_t *image)
{
    struct trial t;
    size_t calls = 1 + below(LONGEST);
    memset(&t, OLD, sizeof t);
    memcpy(t.image, image, IMAGE);
    for (size_t i = 0; i < calls; i++) {
        refresh(&t);
        disturb(t.image);
        struct call c = choose_call(t.image);
        t = all_three(&t, &c);
    }
}

static void take_image(const uint8_t *image, int chains)
{
    totals.images++;
    for (int i = 0; i < chains; i++)
        chain(image);
}

static void go_through(const char *stream, unsigned long wanted)
{
    static const uint8_t power_reset[RECORD] = {0};
    size_t length;
    uint8_t *records = contents(stream, &length);
    uint8_t image[IMAGE] = {0}, answer[ANSWER];
    stream_name = stream;
    for (size_t at = 0; at + RECORD <= length && totals.words < wanted; at += RECORD) {
        event = at / RECORD + 1;
        reference_step(image, IMAGE, records + at, RECORD, answer, ANSWER);
        int last = length - at < 2 * RECORD || memcmp(records + at + RECORD, power_reset, RECORD) == 0;
        if (last || below(SELDOM) == 0)
            take_image(image, last ? CHAINS : FEW_CHAINS);
    }
    free(records);
}

int main(int count, char **words)
{
    if (count < 4 || strtoul(words[2], NULL, 10) < 1) {
        fprintf(stderr, "usage: words SEED WORDS STREAM..\n");
        return 2;
    }
    state = strtoull(words[1], NULL, 10);
    unsigned long wanted = strtoul(words[2], NULL, 10), before = 0;
    for (int i = 3; totals.words < wanted; i = i + 1 < count ? i + 1 : 3) {
        go_through(words[i], wanted);
        if (i + 1 == count && totals.words == before) {
            printf("no word is done in these streams\n");
            return 1;
        }
        before = i + 1 == count ? totals.words : before;
    }
    printf("%lu calls, %lu of them writes, on %lu images: %lu words done, %lu bytes sent; all words done in %lu calls, others stopped by "
           "code 1 (%lu), 3 (%lu), 4 (%lu), 5 (%lu): no difference\n", totals.calls, totals.writes, totals.images, totals.words,
           totals.sent, totals.codes[0], totals.codes[1], totals.codes[3], totals.codes[4], totals.codes[5]);
    return 0;
}
