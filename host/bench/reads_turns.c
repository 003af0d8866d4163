/* Turns of calls on a table of reads_plain.h, to be timed beside crates/bench_by_value and
 * crates/bench_in_place: the same lines of input, and the same lines of output.
 *
 *     take|withdraw others=N size=N tag=N turns=N
 *
 * A turn opens a read of `size` bytes on `tag`, and takes it whole with one completion or withdraws it;
 * `others` reads are open on the tags above, and on from 0 past the last.
 */
#include <stdio.h>
#include <string.h>

#include "reads_plain.h"

enum { MOST_BYTES = 4096, HEADER = 12, STORE = 65536 };

struct work {
    bool takes;
    uint32_t others, size, tag, turns;
};

static uint8_t packet[HEADER + MOST_BYTES], store[STORE], out[16];

static void put_packet(uint32_t size, uint32_t tag)
{
    uint32_t length = size / 4;
    memset(packet, 0, sizeof packet);
    packet[0] = 0x4a;
    packet[2] = (uint8_t)(length >> 8 & 3);
    packet[3] = (uint8_t)length;
    packet[4] = 2;
    packet[6] = (uint8_t)(size >> 8 & 15);
    packet[7] = (uint8_t)size;
    packet[8] = 1;
    packet[10] = (uint8_t)tag;
    for (uint32_t k = 0; k < size; k++)
        packet[HEADER + k] = (uint8_t)(7 * k + 1);
}

static struct plain_request request_of(uint64_t address, uint32_t length, uint64_t start)
{
    struct plain_request request = {
        .address = address, .start = start, .length = length, .first = 15, .last = length == 1 ? 0 : 15};
    return request;
}

static void first_table(struct plain_table *table, const struct work *work)
{
    plain_make(table, 4096, 4096, 64, 0x0100);
    for (uint32_t i = 0; i < work->others; i++) {
        struct plain_request request = request_of(131072 + 64 * (uint64_t)i, 16, 4096 + 64 * (uint64_t)i);
        plain_open(table, &request, (work->tag + 1 + i) % PLAIN_TAGS, STORE, out, sizeof out);
    }
}

/* The number of the first call that is refused; a take that is not Done counts as 255. */
static uint32_t take_turns(struct plain_table *table, const struct plain_request *request,
                           const struct work *work)
{
    uint32_t code = 0;
    for (uint32_t i = 0; i < work->turns; i++) {
        uint32_t number = plain_open(table, request, work->tag, STORE, out, sizeof out);
        struct plain_answer answer = plain_take(table, packet, HEADER + work->size, store, STORE);
        if (number == 0 && answer.outcome != PLAIN_DONE)
            number = answer.outcome == PLAIN_REFUSED ? answer.value : 255;
        if (code == 0)
            code = number;
    }
    return code;
}

static uint32_t withdraw_turns(struct plain_table *table, const struct plain_request *request,
                               const struct work *work)
{
    uint32_t code = 0;
    for (uint32_t i = 0; i < work->turns; i++) {
        uint32_t number = plain_open(table, request, work->tag, STORE, out, sizeof out);
        uint32_t withdrawn = plain_withdraw(table, work->tag);
        if (number == 0)
            number = withdrawn;
        if (code == 0)
            code = number;
    }
    return code;
}

static void run(const struct work *work)
{
    struct plain_table table;
    struct plain_request request = request_of(65536, work->size / 4, 0);
    uint64_t sum = 0;
    memset(store, 0, sizeof store);
    put_packet(work->size, work->tag);
    first_table(&table, work);
    uint32_t code = work->takes ? take_turns(&table, &request, work)
                                : withdraw_turns(&table, &request, work);
    for (int i = 0; i < MOST_BYTES; i++)
        sum += store[i];
    printf("code=%u sum=%llu\n", (unsigned)code, (unsigned long long)sum);
}

int main(void)
{
    char line[128], word[16];
    while (fgets(line, sizeof line, stdin) != NULL) {
        struct work work;
        unsigned others, size, tag, turns;
        if (sscanf(line, "%15s others=%u size=%u tag=%u turns=%u", word, &others, &size, &tag, &turns) != 5 ||
            others > 31 || size == 0 || size > MOST_BYTES || size % 4 != 0 || tag > 31) {
            puts("bad");
            continue;
        }
        work.takes = strcmp(word, "take") == 0;
        work.others = others;
        work.size = size;
        work.tag = tag;
        work.turns = turns;
        run(&work);
    }
    return 0;
}
