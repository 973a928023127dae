/*
 * apart ACCESSES [SEED]
 *
 * A box that holds the stack apart, beside the second implementation: accesses to 35Dh and 353h at random, reads and writes of any
 * value, some of another length or for another register. Each goes to rabenteig_stack and to reference_step over an image. The values,
 * the stack, its pointer and the two bits of 353h must be the same after each, and a refused call must change nothing. Ends non-zero
 * at the first difference and says where.
 */
#include <stdio.h>
#include <stdlib.h>
#include <string.h>

#include "rabenteig.h"
#include "reference.h"

/* Places of an image (docs/IMAGE.md). */
enum { CONTROL = 10, POINTER = 22, STACK = 43, STACK_SIZE = 32 };

static uint64_t state;

static unsigned below(unsigned n)
{
    state = state * 6364136223846793005u + 1442695040888963407u;
    return (unsigned)(state >> 33) % n;
}

static int differs(const uint8_t *stack, uint8_t control, const uint8_t *image)
{
    return memcmp(stack, image + STACK, STACK_SIZE) != 0 || stack[STACK_SIZE] != image[POINTER] || control != image[CONTROL];
}

/* A call that is for the step, or has a length of its own: refused, and every buffer as it was. */
static int refused_changes(uint8_t *stack, uint8_t *control)
{
    uint8_t before[STACK_SIZE + 1], held = *control, value = 0xA5, record[4] = {0x5D, 0, 0, 0};
    size_t lengths[4] = {sizeof before, 1, 4, 1};
    memcpy(before, stack, sizeof before);
    if (below(2))
        record[0] = 0x40 | (uint8_t)below(0x13);
    else
        lengths[below(4)] = 0;
    uint8_t code = rabenteig_stack(stack, lengths[0], control, lengths[1], record, lengths[2], &value, lengths[3]);
    return code != 1 || memcmp(before, stack, sizeof before) != 0 || held != *control || value != 0xA5;
}

int main(int count, char **words)
{
    unsigned long accesses = count > 1 ? strtoul(words[1], 0, 10) : 10000000;
    uint8_t stack[STACK_SIZE + 1] = {0}, control = 0, image[RABENTEIG_IMAGE_SIZE] = {0}, answer[RABENTEIG_ANSWER_SIZE];
    state = count > 2 ? strtoul(words[2], 0, 10) : 1;
    for (unsigned long i = 0; i < accesses; i++) {
        uint8_t offset = below(8) ? 0x1D : 0x13, value = 0;
        uint8_t read = (uint8_t)below(2), record[4] = {(uint8_t)((read ? 0x40 : 0x20) | offset), 0, 0, read ? 0 : (uint8_t)below(256)};
        uint8_t code = rabenteig_stack(stack, sizeof stack, &control, 1, record, 4, &value, 1);
        uint8_t other = reference_step(image, sizeof image, record, 4, answer, sizeof answer);
        if (code != other || value != answer[3] || differs(stack, control, image) || (below(16) == 0 && refused_changes(stack, &control))) {
            printf("access %lu: the stack held apart differs\n", i);
            return 1;
        }
    }
    printf("%lu accesses to 35Dh and 353h on a stack held apart, beside the second implementation: no difference\n", accesses);
    return 0;
}
