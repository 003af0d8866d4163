/* Measures the proved reader and writer against plain C ones that do the same checks
 * (packet_plain.c, built with -O2), in one run and side by side.
 *
 * Each group of packets is read and written over and over, by one implementation and the other in
 * turn, and the ratio of the two times is taken within each round, so that a slower moment of the
 * machine weighs on both. Printed is the median of the ratios: the proved one's time for one of the
 * plain one's. Exits with 1 where the two disagree, and with 2 where the mix is over the bound.
 */
#define _POSIX_C_SOURCE 199309L

#include <stdio.h>
#include <stdlib.h>
#include <string.h>
#include <time.h>

#include "packet_plain.h"
#include "random_packets.h"
#include "tollpebble.h"

enum { MPS = 4096, MRRS = 4096, RCB = 64 };
enum { PACKETS = 512, ROUNDS = 301, MOST_BYTES = 4096 + 20 };

static const double BOUND = 1.2;

struct sample {
    uint8_t record[TOLLPEBBLE_RECORD_SIZE];
    uint8_t *packet;
    size_t length;
    const uint8_t *payload;
    size_t payload_length;
};

/* ---- groups of packets */

/* Of each hundred packets; what is left are the rarer kinds. */
struct group {
    const char *name;
    uint32_t completions, reads, writes;
    uint32_t completion_bytes; /* 0: 64, 128, .. 4096 */
};

static const struct group groups[] = {
    {"mix of kinds", 60, 20, 12, 0}, /* what a bench sees; the bound is for this one */
    {"completions, 64 to 4096 bytes", 100, 0, 0, 0},
    {"completions, 64 bytes", 100, 0, 0, 64},
    {"completions, 256 bytes", 100, 0, 0, 256},
    {"completions, 4096 bytes", 100, 0, 0, 4096},
    {"memory reads", 0, 100, 0, 0},
    {"memory writes, up to 256 bytes", 0, 0, 100, 0},
    {"I/O, configuration, messages, Cpl", 0, 0, 0, 0},
};

static const uint8_t rare_kinds[] = {
    TOLLPEBBLE_IORD, TOLLPEBBLE_IOWR, TOLLPEBBLE_CFGRD0, TOLLPEBBLE_CFGWR0, TOLLPEBBLE_CFGRD1,
    TOLLPEBBLE_CFGWR1, TOLLPEBBLE_MSG, TOLLPEBBLE_MSGD, TOLLPEBBLE_CPL,
};

static void choose(struct source *source, const struct group *group, uint8_t *kind, uint32_t *length)
{
    uint32_t of_100 = source_below(source, 100);
    if (of_100 < group->completions) {
        *kind = TOLLPEBBLE_CPLD;
        *length = group->completion_bytes ? group->completion_bytes / 4 : 16u << source_below(source, 7);
    } else if (of_100 < group->completions + group->reads) {
        *kind = TOLLPEBBLE_MRD;
        *length = 1 + source_below(source, 1024);
    } else if (of_100 < group->completions + group->reads + group->writes) {
        *kind = TOLLPEBBLE_MWR;
        *length = 1 + source_below(source, 64);
    } else {
        *kind = rare_kinds[source_below(source, sizeof rare_kinds)];
        *length = 1 + source_below(source, 16);
    }
}

static void fail(const char *what)
{
    printf("packets: %s\n", what);
    exit(1);
}

static void make_sample(struct source *source, const struct group *group, struct sample *sample)
{
    uint8_t kind;
    uint32_t length;
    uint8_t payload[4096];
    uint64_t size = 0;
    choose(source, group, &kind, &length);
    random_record(source, kind, length, sample->record);
    sample->payload_length = tollpebble_payload_size(sample->record);
    source_fill(source, payload, sample->payload_length);
    sample->length = tollpebble_packet_size(sample->record);
    sample->packet = malloc(sample->length);
    if (sample->packet == NULL)
        fail("no memory");
    if (plain_write(MPS, MRRS, RCB, sample->record, sizeof sample->record, payload,
                    sample->payload_length, sample->packet, sample->length, &size) != 0)
        fail("a sample cannot be written");
    sample->payload = sample->packet + tollpebble_header_size(sample->record);
}

/* ---- one pass over the packets of a group, by either implementation */

typedef uint32_t read_function(uint32_t, uint32_t, uint32_t, const uint8_t *, size_t, uint8_t *, size_t);
typedef uint32_t write_function(uint32_t, uint32_t, uint32_t, const uint8_t *, size_t, const uint8_t *,
                                size_t, uint8_t *, size_t, uint64_t *);

struct implementation {
    read_function *read;
    write_function *write;
};

static const struct implementation proved = {tollpebble_read, tollpebble_write};
static const struct implementation plain = {plain_read, plain_write};

typedef uint32_t pass(const struct implementation *by, const struct sample *samples);

static uint32_t read_pass(const struct implementation *by, const struct sample *samples)
{
    uint8_t record[TOLLPEBBLE_RECORD_SIZE];
    uint32_t seen = 0;
    for (int i = 0; i < PACKETS; i++) {
        seen += by->read(MPS, MRRS, RCB, samples[i].packet, samples[i].length, record, sizeof record);
        seen += record[TOLLPEBBLE_AT_TAG];
    }
    return seen;
}

static uint32_t write_pass(const struct implementation *by, const struct sample *samples)
{
    uint8_t out[MOST_BYTES];
    uint64_t size = 0;
    uint32_t seen = 0;
    for (int i = 0; i < PACKETS; i++) {
        seen += by->write(MPS, MRRS, RCB, samples[i].record, sizeof samples[i].record,
                          samples[i].payload, samples[i].payload_length, out, sizeof out, &size);
        seen += (uint32_t)size + out[size - 1];
    }
    return seen;
}

/* ---- times */

static double seconds(void)
{
    struct timespec now;
    clock_gettime(CLOCK_MONOTONIC, &now);
    return (double)now.tv_sec + (double)now.tv_nsec * 1e-9;
}

static double timed(pass *run, const struct implementation *by, const struct sample *samples, uint32_t *seen)
{
    double start = seconds();
    *seen = run(by, samples);
    return seconds() - start;
}

static int by_size(const void *a, const void *b)
{
    double x = *(const double *)a, y = *(const double *)b;
    return (x > y) - (x < y);
}

/* The median of the rounds' ratios. The two take turns at going first. */
static double ratio(pass *run, const struct sample *samples)
{
    double ratios[ROUNDS];
    for (int i = 0; i < ROUNDS; i++) {
        uint32_t seen[2];
        double time[2];
        int first = i % 2;
        for (int turn = 0; turn < 2; turn++) {
            int which = (first + turn) % 2;
            time[which] = timed(run, which ? &plain : &proved, samples, &seen[which]);
        }
        if (seen[0] != seen[1])
            fail("the two disagree");
        ratios[i] = time[0] / time[1];
    }
    qsort(ratios, ROUNDS, sizeof ratios[0], by_size);
    return ratios[ROUNDS / 2];
}

int main(void)
{
    static struct sample samples[PACKETS];
    struct source source;
    int over = 0;
    source_start(&source, 1);
    printf("%-36s %8s %8s   proved for 1 of plain C, %d packets, median of %d rounds\n", "", "read",
           "write", PACKETS, ROUNDS);
    for (size_t g = 0; g < sizeof groups / sizeof groups[0]; g++) {
        for (int i = 0; i < PACKETS; i++)
            make_sample(&source, &groups[g], &samples[i]);
        double reading = ratio(read_pass, samples);
        double writing = ratio(write_pass, samples);
        printf("%-36s %8.2f %8.2f\n", groups[g].name, reading, writing);
        if (g == 0)
            over = reading > BOUND || writing > BOUND;
        for (int i = 0; i < PACKETS; i++)
            free(samples[i].packet);
    }
    if (over)
        printf("over the bound of %.1f for the mix\n", BOUND);
    return over ? 2 : 0;
}
