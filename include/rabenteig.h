/* The proved model of the AIC-6360 for a C program. */
#ifndef RABENTEIG_H
#define RABENTEIG_H

#include <stddef.h>
#include <stdint.h>

#ifdef __cplusplus
extern "C" {
#endif

/*
 * A chip is an image of so many bytes; docs/IMAGE.md says what each is. An image of zeros is the chip after power reset, and a
 * host starts with it. The image that a call leaves is the chip's latest: it can be saved to a file and handed in again later,
 * also by another process.
 *
 * An image is refused if its length is another, if a FIFO's count, the offset or the quiet ticks are above their limits, if an
 * unused bit or a byte past a count is not 0, or if an event of 0 ticks would change the chip. No call leaves such an image.
 *
 * A slice is a pointer and then its length in bytes. The slices of one call must not overlap, and every pointer must be valid, also one
 * of length 0: a null pointer is not allowed. Numbers that a call reports (done, sent_count) lie in no slice of it and not in one another.
 * A call touches nothing but its arguments. A refused record or word leaves the image as it was, and so does a refused image; of a string
 * call the words done before stay done.
 */
#define RABENTEIG_IMAGE_SIZE 203

/* The bytes of an answer. */
#define RABENTEIG_ANSWER_SIZE 16

/*
 * Steps the chip by one event record of four bytes, stores the answer of sixteen bytes, and returns the code, which is also in
 * the answer's upper three bits. The new image takes the place of the old.
 *
 * Code 1 is returned and no byte of the image changes
 * - if the image is refused, whatever the record is: an answer buffer of sixteen bytes gets code 1 and otherwise zeros, so
 *   that its first byte is 20h; another buffer is not touched;
 * - if the image is accepted and the answer buffer is not of sixteen bytes: it is not touched;
 * - if the image is accepted and the record is not of four bytes or not well formed: the answer has code 1 and shows the chip.
 * The codes 2 to 5 and 7 leave the image as it was too; the codes 0 and 6 leave the new one. The record is only read.
 */
uint8_t rabenteig_step(uint8_t *image, size_t image_length, const uint8_t *record, size_t record_length, uint8_t *answer,
                       size_t answer_length);

/*
 * Steps the chip by the event records, four bytes each (a last piece of 1 to 3 bytes is a record too), from where the chip
 * stands, and stores sixteen bytes of answer for each. Stops where no whole answer fits; the rest of the answer buffer stays as
 * it was. Returns the number of records stepped. The image that the last record leaves takes the place of the old.
 *
 * This is rabenteig_step for each of these records, but the image is tested once. If it is refused, each of these answers gets
 * code 1 and otherwise zeros, no byte of the image changes, and the number of these records is returned all the same.
 */
size_t rabenteig_run(uint8_t *image, size_t image_length, const uint8_t *records, size_t records_length, uint8_t *answers,
                     size_t answers_length);

/*
 * Words through the data port in one call, for a processor's repeated word instructions. This is rabenteig_step with a word write,
 * or a word read, for each of the words one after another, up to the first that is refused: the same image, the same bytes sent,
 * the same code. The refused word is not done and changes nothing.
 *
 *   data        two bytes for each word asked for, a word's low byte first: a write call only reads them, a read call stores there
 *               what it has read and leaves the part past the words done as it was
 *   words       the number of words asked for
 *   sent        eight bytes for each word asked for, or more: gets the bytes that Normal-mode ACKs sent, in order; the part past
 *               the last of them stays as it was. A read call sends nothing and has no such buffer
 *   done        gets the number of words done, whatever the code
 *   sent_count  gets the number of bytes sent, whatever the code
 *
 * Returns 0 if all words were done, also where none was asked for; else the code of the refusal that stopped them: 3 if the port is
 * shut, 4 if the host FIFO lacks room for the word (a write call), 5 if it lacks the word (a read call). The words done before it
 * stay done.
 *
 * Code 1 is returned before any word, no byte of the image or of a buffer changes, and done and sent_count get 0
 * - if the image is refused;
 * - if data is not of exactly two bytes for each word;
 * - if sent is of fewer than eight bytes for each word.
 * This holds for every number of words: one of which the double or the eightfold is past the largest size_t fits no buffer.
 */
uint8_t rabenteig_write_words(uint8_t *image, size_t image_length, const uint8_t *data, size_t data_length, size_t words, uint8_t *sent,
                              size_t sent_length, size_t *done, size_t *sent_count);
uint8_t rabenteig_read_words(uint8_t *image, size_t image_length, uint8_t *data, size_t data_length, size_t words, size_t *done);

/*
 * For a program that holds the stack apart from the chip: one access to 35Dh or 353h, on the stack alone.
 *
 *   stack    33 bytes: the thirty-two of the stack, place 0 first, and then the pointer
 *   control  1 byte: PWRDWN in bit 7, ENSTK32 in bit 6, as 353h has them; the other bits are 0 afterwards
 *   record   4 bytes: 5D 00 00 00 reads 35Dh, 3D 00 00 vv writes it, 53 00 00 00 reads 353h, 33 00 00 vv writes it
 *   value    1 byte: what was read, else 0
 *
 * Returns 0; or 1, with every buffer as it was, where a length is another, or where the record is not well formed or is not one of
 * these; with right lengths the record is then for the step. A pointer past 31 counts modulo 32. All zero is the stack after power
 * reset: a program that hands a power reset to the step zeroes stack and control as well.
 */
uint8_t rabenteig_stack(uint8_t *stack, size_t stack_length, uint8_t *control, size_t control_length, const uint8_t *record,
                        size_t record_length, uint8_t *value, size_t value_length);

#ifdef __cplusplus
}
#endif

#endif
