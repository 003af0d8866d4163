/* The turns of reads_turns.c over the proved core, which is lent the set of open tags and the words of
 * the reads: each call of a turn is one of crates/bench_lent.  They stand in one unit with the turns, so
 * that nothing is called between the two.
 */
#define PLAIN_LENT
#include "reads_plain.h"

#include <string.h>

#include "plain_rules.h"

/* What crates/bench_lent exports: document 01's numbers, 0 for accepted. */

/* A request is four words, and so has the size of these. */
_Static_assert(sizeof(struct plain_request) == 32, "a request is four words");
uint32_t bench_open(const uint32_t (*from)[4], uint64_t (*opened)[PLAIN_CAPACITY / 64],
                    uint64_t (*words)[4 * PLAIN_CAPACITY], const struct plain_request *request, uint32_t tag,
                    const uint8_t *store, size_t store_length, uint8_t *out, size_t out_length);

/* 0 for Done, 255 for another answer without a number. */
uint32_t bench_take(const uint32_t (*from)[4], uint64_t (*opened)[PLAIN_CAPACITY / 64],
                    uint64_t (*words)[4 * PLAIN_CAPACITY], const uint8_t *bytes, size_t length,
                    uint8_t *store, size_t store_length);

uint32_t bench_withdraw(const uint32_t (*from)[4], uint64_t (*opened)[PLAIN_CAPACITY / 64],
                        uint64_t (*words)[4 * PLAIN_CAPACITY], uint32_t tag);

uint32_t plain_make(struct plain_table *table, uint32_t mps, uint32_t mrrs, uint32_t rcb,
                    uint16_t requester)
{
    memset(table, 0, sizeof *table);
    table->reads.from[0] = mps;
    table->reads.from[1] = mrrs;
    table->reads.from[2] = rcb;
    table->reads.from[3] = requester;
    return settings_allowed(mps, mrrs, rcb) ? 0 : 11;
}

/* Open only measures its store, so it is lent another that has the length. */
inline uint32_t plain_open(struct plain_table *table, const struct plain_request *request, uint32_t tag,
                           size_t store_length, uint8_t *out, size_t out_length)
{
    static const uint8_t room[PLAIN_STORE_MOST];
    return bench_open(&table->reads.from, &table->reads.opened, &table->reads.words, request, tag, room,
                      store_length, out, out_length);
}

inline struct plain_answer plain_take(struct plain_table *table, const uint8_t *packet,
                                      size_t packet_length, uint8_t *store, size_t store_length)
{
    uint32_t number = bench_take(&table->reads.from, &table->reads.opened, &table->reads.words, packet,
                                 packet_length, store, store_length);
    enum plain_outcome outcome = number == 0 ? PLAIN_DONE : number == 255 ? PLAIN_MORE : PLAIN_REFUSED;
    return (struct plain_answer){outcome, number};
}

inline uint32_t plain_withdraw(struct plain_table *table, uint32_t tag)
{
    return bench_withdraw(&table->reads.from, &table->reads.opened, &table->reads.words, tag);
}

#include "reads_turns.c"
