/* The straightforward form: an array of slots, each of which says whether it is open.  A scan looks at
 * all of them; those past the tags that may be opened stay closed.
 */
#ifndef PLAIN_SLOTS_H
#define PLAIN_SLOTS_H

#ifndef PLAIN_SLOTS
#define PLAIN_SLOTS PLAIN_CAPACITY
#endif

struct plain_reads {
    struct plain_slot slots[PLAIN_SLOTS];
};

static inline bool is_open(const struct plain_reads *reads, uint32_t tag)
{
    return reads->slots[tag].open;
}

static inline void set_open(struct plain_reads *reads, uint32_t tag)
{
    reads->slots[tag].open = true;
}

static inline void set_closed(struct plain_reads *reads, uint32_t tag)
{
    reads->slots[tag].open = false;
}

/* A walk over the open reads: by index, as a table is mostly written, or with PLAIN_BY_POINTER by the
 * slots not yet met, which this compiler makes quicker code of.
 */
#ifdef PLAIN_BY_POINTER
struct plain_walk {
    const struct plain_slot *next, *end;
};

static inline struct plain_walk walk_over(const struct plain_reads *reads)
{
    return (struct plain_walk){reads->slots, reads->slots + PLAIN_SLOTS};
}

/* The next open read, NULL past the last. */
static inline const struct plain_slot *next_open(struct plain_walk *walk)
{
    for (; walk->next != walk->end; walk->next++)
        if (walk->next->open)
            return walk->next++;
    return NULL;
}
#else
struct plain_walk {
    const struct plain_reads *reads;
    int tag;
};

static inline struct plain_walk walk_over(const struct plain_reads *reads)
{
    return (struct plain_walk){reads, 0};
}

/* The next open read, NULL past the last. */
static inline const struct plain_slot *next_open(struct plain_walk *walk)
{
    while (walk->tag < PLAIN_SLOTS) {
        const struct plain_slot *slot = &walk->reads->slots[walk->tag++];
        if (slot->open)
            return slot;
    }
    return NULL;
}
#endif

#endif
