/* Plain C tables of open memory reads, changed in place, to measure the proved one against.  They are
 * written from document 01 and what docs/DECISIONS.md settles, not from the proved code, and do the
 * same checks in the same order, the test behind 11 in every call included.
 *
 * A table keeps its reads in one of three forms, chosen when it is compiled: as slots that each say
 * whether they are open (plain_slots.h); with PLAIN_SET as rows beside a set of the open tags
 * (plain_set.h); with PLAIN_LENT as the proved core is lent them, which then answers (reads_lent.c).
 *
 * Numbers are document 01's, 0 for accepted.  A refused call changes nothing.  Packets and outputs lie
 * apart from the store.
 */
#ifndef READS_PLAIN_H
#define READS_PLAIN_H

#include <stdbool.h>
#include <stddef.h>
#include <stdint.h>

/* There is room for more tags than may be opened. */
enum { PLAIN_TAGS = 32, PLAIN_CAPACITY = 256, PLAIN_STORE_MOST = 65536 };

/* What open is asked for; the window starts at byte `start` of the store.  The proved core is lent it as
 * four words: address; start; length; enables, traffic class and attributes from the lowest byte up.
 */
struct plain_request {
    uint64_t address;
    uint64_t start;
    uint32_t length;
#ifdef PLAIN_LENT
    uint32_t none;
#endif
    uint8_t first, last;
    uint8_t traffic_class, attributes;
};

/* A tag's record. */
struct plain_slot {
    struct plain_request request;
    uint32_t taken;
    bool open; /* not looked at where a set says it */
};

#if defined PLAIN_LENT
struct plain_reads {
    uint32_t from[4]; /* what the table is made from: MPS, MRRS, RCB, requester ID */
    uint64_t opened[PLAIN_CAPACITY / 64];
    uint64_t words[4 * PLAIN_CAPACITY];
};
#elif defined PLAIN_SET
#include "plain_set.h"
#else
#include "plain_slots.h"
#endif

struct plain_table {
    uint32_t mps, mrrs, rcb;
    uint16_t requester;
    struct plain_reads reads;
};

enum plain_outcome { PLAIN_REFUSED, PLAIN_MORE, PLAIN_DONE, PLAIN_FAILED, PLAIN_POISONED };

struct plain_answer {
    enum plain_outcome outcome;
    uint32_t value; /* the number of a refusal, the status of a failure */
};

uint32_t plain_make(struct plain_table *table, uint32_t mps, uint32_t mrrs, uint32_t rcb,
                    uint16_t requester);

/* The store is only measured; the header is written over the front of `out`. */
uint32_t plain_open(struct plain_table *table, const struct plain_request *request, uint32_t tag,
                    size_t store_length, uint8_t *out, size_t out_length);

struct plain_answer plain_take(struct plain_table *table, const uint8_t *packet, size_t packet_length,
                               uint8_t *store, size_t store_length);

uint32_t plain_withdraw(struct plain_table *table, uint32_t tag);

uint32_t plain_owed(const struct plain_table *table, uint64_t *owed);

/* For tests, which look into a table and make ones that no call reaches.  Tags are below PLAIN_TAGS. */
size_t plain_size(void);

void plain_put_settings(struct plain_table *table, uint32_t mps, uint32_t mrrs, uint32_t rcb);

bool plain_record(const struct plain_table *table, uint32_t tag, struct plain_request *request,
                  uint32_t *taken);

void plain_force(struct plain_table *table, uint32_t tag, const struct plain_request *request,
                 uint32_t taken);

#endif
