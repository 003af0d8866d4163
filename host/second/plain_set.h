/* The quick form: a set of the open tags, a bit for each, beside the slots.  A scan goes from set bit to
 * set bit, over the tags that may be opened.
 */
#ifndef PLAIN_SET_H
#define PLAIN_SET_H

struct plain_reads {
    uint64_t opened[PLAIN_CAPACITY / 64];
    struct plain_slot slots[PLAIN_CAPACITY];
};

static inline bool is_open(const struct plain_reads *reads, uint32_t tag)
{
    return reads->opened[tag / 64] >> tag % 64 & 1;
}

static inline void set_open(struct plain_reads *reads, uint32_t tag)
{
    reads->opened[tag / 64] |= (uint64_t)1 << tag % 64;
}

static inline void set_closed(struct plain_reads *reads, uint32_t tag)
{
    reads->opened[tag / 64] &= ~((uint64_t)1 << tag % 64);
}

/* The bits of the 64 tags from `tag` on, without those that may not be opened. */
static inline uint64_t opened_from(const struct plain_reads *reads, size_t tag)
{
    size_t tags = PLAIN_TAGS - tag;
    return reads->opened[tag / 64] & (tags < 64 ? ((uint64_t)1 << tags) - 1 : UINT64_MAX);
}

/* A walk over the open reads: the bits not yet met of 64 tags, and the first of these. */
struct plain_walk {
    const struct plain_reads *reads;
    uint64_t left;
    size_t tag;
};

static inline struct plain_walk walk_over(const struct plain_reads *reads)
{
    return (struct plain_walk){reads, opened_from(reads, 0), 0};
}

/* The next open read, NULL past the last. */
static inline const struct plain_slot *next_open(struct plain_walk *walk)
{
    while (walk->left == 0) {
        walk->tag += 64;
        if (walk->tag >= PLAIN_TAGS)
            return NULL;
        walk->left = opened_from(walk->reads, walk->tag);
    }
    const struct plain_slot *slot = &walk->reads->slots[walk->tag + (unsigned)__builtin_ctzll(walk->left)];
    walk->left &= walk->left - 1;
    return slot;
}

#endif
