/* The second implementation for a C program: the same calls as those of rabenteig.h, under other names (bench/library). */
#ifndef REFERENCE_H
#define REFERENCE_H

#include <stddef.h>
#include <stdint.h>

uint8_t reference_step(uint8_t *image, size_t image_length, const uint8_t *record, size_t record_length, uint8_t *answer,
                       size_t answer_length);
size_t reference_run(uint8_t *image, size_t image_length, const uint8_t *records, size_t records_length, uint8_t *answers,
                     size_t answers_length);
uint8_t reference_write_words(uint8_t *image, size_t image_length, const uint8_t *data, size_t data_length, size_t words, uint8_t *sent,
                              size_t sent_length, size_t *done, size_t *sent_count);
uint8_t reference_read_words(uint8_t *image, size_t image_length, uint8_t *data, size_t data_length, size_t words, size_t *done);

#endif
