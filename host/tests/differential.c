/* Compares the library's reader and writer with plain C ones, written on their own from the
 * specification (host/second/packet_plain.c), on packets and records at random: good ones, damaged
 * ones and mere bytes.
 *
 *     differential [CALLS [SEED]]       so many packets read and as many records written; 1,000,000
 *     differential --calls CALLS SEED   print such calls in the form of the stored vectors
 *
 * Every lent output stands between guards, every input in a block of just its size (so that valgrind
 * sees a read past its end), and after each call guards, outputs and inputs are looked at. Every
 * disagreement is printed with the bytes that show it. Exits with 1 after one, or where in 100,000
 * calls or more a number that the functions can answer did not come up.
 */
#include <inttypes.h>
#include <stdio.h>
#include <stdlib.h>
#include <string.h>

#include "packet_plain.h"
#include "random_packets.h"
#include "tollpebble.h"

enum { GUARD = 32, GUARD_BYTE = 0xa5, FILLER = 0xee };
enum { MOST_PAYLOAD = 4096, MOST_PACKET = MOST_PAYLOAD + 20, POOL = 1 << 16 };
enum { MOST_SHOWN = 50, ENOUGH_CALLS = 100000 };

static const uint64_t UNTOUCHED = 0x5151515151515151u;

static uint8_t pool[POOL + MOST_PACKET]; /* bytes at random */

struct settings {
    uint32_t mps, mrrs, rcb;
};

/* A call: what is lent to be read, and the room for what is written. */
struct call {
    struct settings settings;
    uint8_t *first; /* the packet, or the record */
    size_t first_length;
    uint8_t *payload; /* of a writing */
    size_t payload_length;
    size_t room;
};

/* What a call answered and left. */
struct outcome {
    uint32_t number;
    uint64_t size;
    uint8_t *block; /* guard, output, guard */
};

/* ---- what was seen */

static uint64_t seen_numbers[2][TOLLPEBBLE_BAD_STORE + 1]; /* of readings and of writings */
static int disagreements;

/* ---- calls at random */

static void *block_of(size_t size)
{
    void *block = malloc(size == 0 ? 1 : size);
    if (block == NULL) {
        fprintf(stderr, "differential: no memory\n");
        exit(1);
    }
    return block;
}

static const uint8_t *random_bytes(struct source *source)
{
    return pool + source_below(source, POOL);
}

static struct settings random_settings(struct source *source)
{
    static const uint32_t odd[] = {0, 1, 32, 64, 127, 129, 192, 384, 4095, 4097, 8192, UINT32_MAX};
    struct settings made = {random_size_setting(source), random_size_setting(source),
                            64u << source_below(source, 2)};
    uint32_t other = odd[source_below(source, sizeof odd / sizeof odd[0])];
    switch (source_below(source, 64)) {
    case 0: made.mps = other; break;
    case 1: made.mrrs = other; break;
    case 2: made.rcb = other; break;
    default: break;
    }
    return made;
}

/* A good record whose data mostly keeps within MPS, and is mostly short. */
static void good_record(struct source *source, uint32_t mps, uint8_t *record)
{
    uint32_t most = mps >= 128 && mps <= 4096 ? mps / 4 : 1024;
    if (source_below(source, 4))
        most = 8;
    if (source_below(source, 16) == 0)
        most = 1024;
    uint32_t length = source_below(source, 8) ? 1 + source_below(source, most) : most;
    random_record(source, (uint8_t)(1 + source_below(source, 12)), length, record);
}

static void damage(struct source *source, uint8_t *bytes, size_t count)
{
    if (count == 0)
        return;
    uint8_t *at = bytes + source_below(source, (uint32_t)count);
    if (source_below(source, 2))
        *at = (uint8_t)(*at ^ 1u << source_below(source, 8));
    else
        *at = (uint8_t)source_below(source, 256);
}

/* A size near the right one, or a small one. */
static size_t damaged_size(struct source *source, size_t size, size_t most)
{
    size_t made = source_below(source, 2) ? size + source_below(source, 9) : source_below(source, 64);
    made = made >= 4 ? made - 4 : 0;
    return made < most ? made : most;
}

/* A good packet, damaged in its header or in its size more often than not; or bytes at random. */
static size_t random_packet(struct source *source, uint32_t mps, uint8_t *packet)
{
    uint8_t record[TOLLPEBBLE_RECORD_SIZE];
    uint64_t size = 0;
    if (source_below(source, 8) == 0) {
        memcpy(packet, random_bytes(source), 64);
        return source_below(source, 64);
    }
    good_record(source, mps, record);
    if (plain_write(4096, 4096, 64, record, sizeof record, random_bytes(source),
                    tollpebble_payload_size(record), packet, MOST_PACKET, &size) != 0) {
        fprintf(stderr, "differential: a good record cannot be written\n");
        exit(1);
    }
    for (uint32_t i = source_below(source, 4); i > 0; i--)
        damage(source, packet, 16);
    if (source_below(source, 32) == 0)
        memset(packet + 8, 0, 4); /* the upper half of a 64-bit address */
    if (source_below(source, 8) == 0)
        return damaged_size(source, size, MOST_PACKET);
    return size;
}

static struct call random_reading(struct source *source)
{
    uint8_t packet[MOST_PACKET] = {0};
    struct call call = {.settings = random_settings(source)};
    call.first_length = random_packet(source, call.settings.mps, packet);
    call.first = block_of(call.first_length);
    memcpy(call.first, packet, call.first_length);
    call.room = TOLLPEBBLE_RECORD_SIZE + source_below(source, 16);
    if (source_below(source, 16) == 0)
        call.room = source_below(source, TOLLPEBBLE_RECORD_SIZE);
    return call;
}

static struct call random_writing(struct source *source)
{
    uint8_t record[TOLLPEBBLE_RECORD_SIZE + 64];
    struct call call = {.settings = random_settings(source), .first_length = TOLLPEBBLE_RECORD_SIZE};
    memcpy(record, random_bytes(source), sizeof record);
    if (source_below(source, 16))
        good_record(source, call.settings.mps, record);
    for (uint32_t i = source_below(source, 3); i > 0; i--)
        damage(source, record, TOLLPEBBLE_RECORD_SIZE);
    size_t payload = tollpebble_payload_size(record) % (MOST_PAYLOAD + 4);
    size_t packet = tollpebble_header_size(record) + payload + 4;
    if (source_below(source, 16) == 0)
        call.first_length = damaged_size(source, TOLLPEBBLE_RECORD_SIZE, sizeof record);
    call.payload_length = source_below(source, 12) ? payload : damaged_size(source, payload, MOST_PAYLOAD);
    call.room = source_below(source, 4) ? packet + source_below(source, 8) : damaged_size(source, packet, packet);
    call.first = block_of(call.first_length);
    memcpy(call.first, record, call.first_length);
    call.payload = block_of(call.payload_length);
    memcpy(call.payload, random_bytes(source), call.payload_length);
    return call;
}

static void end_call(struct call *call)
{
    free(call->first);
    free(call->payload);
}

/* ---- making a call */

/* NULL for what is empty, every other time: a C host may lend that. */
static uint8_t *lent(uint8_t *bytes, size_t length, uint32_t turn)
{
    return length == 0 && turn % 2 ? NULL : bytes;
}

static struct outcome start_outcome(const struct call *call)
{
    struct outcome outcome = {.size = UNTOUCHED, .block = block_of(call->room + 2 * GUARD)};
    memset(outcome.block, GUARD_BYTE, call->room + 2 * GUARD);
    memset(outcome.block + GUARD, FILLER, call->room);
    return outcome;
}

static struct outcome run_call(const struct call *call, int by_plain, uint32_t turn)
{
    struct outcome outcome = start_outcome(call);
    const struct settings *s = &call->settings;
    uint8_t *first = lent(call->first, call->first_length, turn);
    uint8_t *payload = lent(call->payload, call->payload_length, turn);
    uint8_t *out = lent(outcome.block + GUARD, call->room, turn);
    if (call->payload == NULL)
        outcome.number = (by_plain ? plain_read : tollpebble_read)(
            s->mps, s->mrrs, s->rcb, first, call->first_length, out, call->room);
    else
        outcome.number = (by_plain ? plain_write : tollpebble_write)(
            s->mps, s->mrrs, s->rcb, first, call->first_length, payload, call->payload_length, out,
            call->room, &outcome.size);
    return outcome;
}

/* ---- comparing */

static void print_bytes(const char *name, const uint8_t *bytes, size_t count)
{
    printf("  %s (%zu) ", name, count);
    for (size_t i = 0; i < count; i++)
        printf("%02x", bytes[i]);
    printf("\n");
}

static void print_outcome(const char *name, const struct call *call, const struct outcome *outcome)
{
    printf("  %s: number %" PRIu32 ", size %" PRIu64 "\n", name, outcome->number, outcome->size);
    print_bytes("guard, output, guard", outcome->block, call->room + 2 * GUARD);
}

static void print_call(const struct call *call)
{
    printf("  %s with mps %" PRIu32 ", mrrs %" PRIu32 ", rcb %" PRIu32 "\n",
           call->payload == NULL ? "reading" : "writing", call->settings.mps, call->settings.mrrs,
           call->settings.rcb);
    print_bytes(call->payload == NULL ? "packet" : "record", call->first, call->first_length);
    if (call->payload != NULL)
        print_bytes("payload", call->payload, call->payload_length);
}

/* The sizes that the header's functions give are those of the packet. */
static int sizes_agree(const struct call *call, const struct outcome *outcome)
{
    if (outcome->number != TOLLPEBBLE_ACCEPTED)
        return 1;
    if (call->payload != NULL)
        return tollpebble_packet_size(call->first) == outcome->size;
    return tollpebble_packet_size(outcome->block + GUARD) == call->first_length;
}

/* The two start from the same blocks, so that whatever either wrote must be the same: the guards
 * too, since the plain one is seen to keep within them. */
static int agrees(const struct call *call, const struct outcome *a, const struct outcome *b)
{
    uint8_t guard[GUARD];
    memset(guard, GUARD_BYTE, GUARD);
    return a->number == b->number && a->size == b->size &&
           memcmp(a->block, b->block, call->room + 2 * GUARD) == 0 &&
           memcmp(a->block, guard, GUARD) == 0 && memcmp(a->block + GUARD + call->room, guard, GUARD) == 0 &&
           sizes_agree(call, a);
}

static int same_inputs(const struct call *call, const uint8_t *first, const uint8_t *payload)
{
    return memcmp(call->first, first, call->first_length) == 0 &&
           (call->payload == NULL || memcmp(call->payload, payload, call->payload_length) == 0);
}

static void compare(const struct call *call, uint32_t turn)
{
    uint8_t first[MOST_PACKET], payload[MOST_PAYLOAD + 4];
    memcpy(first, call->first, call->first_length);
    if (call->payload != NULL)
        memcpy(payload, call->payload, call->payload_length);
    struct outcome library = run_call(call, 0, turn);
    struct outcome plain = run_call(call, 1, turn);
    if (library.number <= TOLLPEBBLE_BAD_STORE)
        seen_numbers[call->payload != NULL][library.number]++;
    if (!agrees(call, &library, &plain) || !same_inputs(call, first, payload)) {
        disagreements++;
        printf("disagreement %d\n", disagreements);
        print_call(call);
        print_outcome("library", call, &library);
        print_outcome("plain", call, &plain);
    }
    free(library.block);
    free(plain.block);
}

/* ---- the two ways to run */

/* How often each number came up, and whether all did. */
static int report(const char *name, int which, const uint32_t *numbers, size_t count)
{
    int all = 1;
    printf("%s:", name);
    for (size_t i = 0; i < count; i++) {
        printf(" %" PRIu32 ":%" PRIu64, numbers[i], seen_numbers[which][numbers[i]]);
        all = all && seen_numbers[which][numbers[i]] > 0;
    }
    printf("%s\n", all ? "" : "; one did not come up");
    return all;
}

static int compare_all(uint64_t calls, struct source *source)
{
    static const uint32_t read_numbers[] = {0, 1, 2, 3, 4, 5, 6, 7, 8, 9, 10, 11, 12};
    static const uint32_t write_numbers[] = {0, 3, 5, 6, 7, 8, 11, 12};
    for (uint64_t i = 0; i < 2 * calls && disagreements < MOST_SHOWN; i++) {
        struct call call = i % 2 ? random_writing(source) : random_reading(source);
        compare(&call, (uint32_t)(i / 2));
        end_call(&call);
    }
    if (disagreements > 0) {
        printf("differential: %d disagreements%s\n", disagreements,
               disagreements == MOST_SHOWN ? "; stopped there" : "");
        return 1;
    }
    int all = report("numbers of readings", 0, read_numbers, sizeof read_numbers / sizeof read_numbers[0]);
    all &= report("numbers of writings", 1, write_numbers, sizeof write_numbers / sizeof write_numbers[0]);
    if (calls >= ENOUGH_CALLS && !all)
        return 1;
    printf("differential: %" PRIu64 " readings and %" PRIu64 " writings agree\n", calls, calls);
    return 0;
}

static void print_hex(const uint8_t *bytes, size_t count)
{
    for (size_t i = 0; i < count; i++)
        printf("%02x", bytes[i]);
}

/* The form of the stored vectors, host/second/make_vectors.py. */
static void print_vector(const struct call *call)
{
    const struct settings *s = &call->settings;
    printf("%c %08" PRIx32 " %08" PRIx32 " %08" PRIx32 " ", call->payload == NULL ? 'r' : 'w', s->mps,
           s->mrrs, s->rcb);
    if (call->payload != NULL)
        printf("%04zx %04zx ", call->room, call->first_length);
    print_hex(call->first, call->first_length);
    if (call->payload != NULL) {
        printf(" ");
        print_hex(call->payload, call->payload_length);
    }
    printf("\n");
}

static void print_vectors(uint64_t calls, struct source *source)
{
    for (uint64_t i = 0; i < calls; i++) {
        struct call call = i % 2 ? random_writing(source) : random_reading(source);
        print_vector(&call);
        end_call(&call);
    }
}

int main(int count, char **words)
{
    int printing = count > 1 && strcmp(words[1], "--calls") == 0;
    uint64_t calls = count > 1 + printing ? strtoull(words[1 + printing], NULL, 10) : 1000000;
    uint64_t seed = count > 2 + printing ? strtoull(words[2 + printing], NULL, 10) : 1;
    struct source source;
    source_start(&source, seed);
    source_fill(&source, pool, sizeof pool);
    if (calls == 0) {
        fprintf(stderr, "usage: differential [CALLS [SEED]], or differential --calls CALLS SEED\n");
        return 2;
    }
    if (printing) {
        print_vectors(calls, &source);
        return 0;
    }
    return compare_all(calls, &source);
}
