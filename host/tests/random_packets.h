/* Packets and records at random, for tests and measurements. */
#ifndef RANDOM_PACKETS_H
#define RANDOM_PACKETS_H

#include <stddef.h>
#include <stdint.h>

/* The same seed gives the same numbers. */
struct source {
    uint64_t state;
};

void source_start(struct source *source, uint64_t seed);
uint64_t source_next(struct source *source);
uint32_t source_below(struct source *source, uint32_t limit);
void source_fill(struct source *source, uint8_t *to, size_t count);

/* A listed size for MPS or MRRS. */
uint32_t random_size_setting(struct source *source);

/* Fills a record of 48 bytes that the writer accepts, of this kind and, where the kind has a length
 * (I/O and configuration: 1), of this many doublewords. */
void random_record(struct source *source, uint8_t kind, uint32_t length, uint8_t *record);

#endif
