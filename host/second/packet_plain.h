/* A plain C reader and writer of PCI Express packets, to compare the proved ones with and to measure
 * them against.  It is written from document 01, what docs/DECISIONS.md settles and docs/RECORD.md, not
 * from the proved code, and does the same checks.
 *
 * Both functions answer 0, or the number of the first fault in document 01's order of checking; on a
 * refusal nothing that was lent is changed.  A pointer may be NULL where its length is 0.  What is
 * written may not overlap what is read.
 */
#ifndef PACKET_PLAIN_H
#define PACKET_PLAIN_H

#include <stddef.h>
#include <stdint.h>

#define PLAIN_RECORD_SIZE 48

/* Reads a packet into the first 48 bytes of `record`; the bytes past them stay.  A record that is too
 * short is 12, looked at last. */
uint32_t plain_read(uint32_t mps, uint32_t mrrs, uint32_t rcb,
                    const uint8_t *packet, size_t packet_length,
                    uint8_t *record, size_t record_length);

/* Writes header, payload and digest over the front of `out`; the bytes past them stay.  `size` gets
 * the packet's size.  What is not a record at all is 6, looked at after 11. */
uint32_t plain_write(uint32_t mps, uint32_t mrrs, uint32_t rcb,
                     const uint8_t *record, size_t record_length,
                     const uint8_t *payload, size_t payload_length,
                     uint8_t *out, size_t out_length, uint64_t *size);

#endif
