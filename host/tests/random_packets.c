#include "random_packets.h"

#include <string.h>

#include "tollpebble.h"

void source_start(struct source *source, uint64_t seed)
{
    source->state = seed * 2 + 1;
    for (int i = 0; i < 8; i++)
        source_next(source);
}

/* xorshift64* */
uint64_t source_next(struct source *source)
{
    uint64_t x = source->state;
    x ^= x >> 12;
    x ^= x << 25;
    x ^= x >> 27;
    source->state = x;
    return x * 0x2545f4914f6cdd1du;
}

uint32_t source_below(struct source *source, uint32_t limit)
{
    return (uint32_t)((source_next(source) >> 32) * limit >> 32);
}

void source_fill(struct source *source, uint8_t *to, size_t count)
{
    for (size_t i = 0; i < count; i++)
        to[i] = (uint8_t)(source_next(source) >> 56);
}

uint32_t random_size_setting(struct source *source)
{
    return 128u << source_below(source, 6);
}

/* ---- records */

static const uint8_t first_kinds[] = {0xf, 0xe, 0xc, 0x8};
static const uint8_t last_kinds[] = {0xf, 0x7, 0x3, 0x1};

static void set_enables(struct source *source, uint32_t length, uint8_t *record)
{
    uint32_t first = source_below(source, 16), last = 0;
    if (length == 2) {
        first = 1 + source_below(source, 15);
        last = 1 + source_below(source, 15);
    } else if (length > 2) {
        first = first_kinds[source_below(source, 4)];
        last = last_kinds[source_below(source, 4)];
    }
    tollpebble_set_first_enables(record, (uint8_t)first);
    tollpebble_set_last_enables(record, (uint8_t)last);
}

/* Below or above 4 GiB, and so that the request stays within its 4096 bytes, now and then up to
 * their end. */
static uint64_t random_address(struct source *source, uint32_t length)
{
    uint64_t page = source_below(source, 1u << 20);
    uint32_t last = 1024 - length;
    if (source_below(source, 2))
        page |= (source_next(source) >> 12 | 1u << 20) & 0xfffffffffffffu;
    return page << 12 | 4 * (source_below(source, 8) ? source_below(source, last + 1) : last);
}

static void set_memory(struct source *source, uint32_t length, uint8_t *record)
{
    set_enables(source, length, record);
    tollpebble_set_route(record, TOLLPEBBLE_BY_ADDRESS);
    tollpebble_set_route_value(record, random_address(source, length));
}

/* I/O and configuration have traffic class and attributes 0. */
static void set_register(struct source *source, uint8_t *record)
{
    set_enables(source, 1, record);
    tollpebble_set_traffic_class(record, 0);
    tollpebble_set_attributes(record, 0);
    tollpebble_set_route(record, TOLLPEBBLE_BY_ID);
    tollpebble_set_route_value(record, source_below(source, 1u << 16));
    tollpebble_set_extended_register(record, (uint8_t)source_below(source, 16));
    tollpebble_set_register(record, (uint8_t)source_below(source, 64));
}

static void set_io(struct source *source, uint8_t *record)
{
    set_register(source, record);
    tollpebble_set_extended_register(record, 0);
    tollpebble_set_register(record, 0);
    tollpebble_set_route(record, TOLLPEBBLE_BY_ADDRESS);
    tollpebble_set_route_value(record, 4 * (uint64_t)source_below(source, 1u << 30));
}

static void set_message(struct source *source, uint8_t *record)
{
    uint64_t bytes = source_next(source);
    uint8_t route = (uint8_t)source_below(source, 6);
    uint64_t value = route == TOLLPEBBLE_BY_ADDRESS ? bytes : route == TOLLPEBBLE_BY_ID ? bytes >> 48 : 0;
    tollpebble_set_message_code(record, (uint8_t)source_below(source, 256));
    tollpebble_set_message_bytes(record, bytes);
    tollpebble_set_route(record, route);
    tollpebble_set_route_value(record, value);
}

static void set_completion(struct source *source, uint8_t *record)
{
    tollpebble_set_route(record, TOLLPEBBLE_BY_ID);
    tollpebble_set_route_value(record, source_below(source, 1u << 16));
    tollpebble_set_byte_count(record, source_below(source, 8) ? 1 + source_below(source, 4096) : 4096);
    tollpebble_set_status(record, (uint8_t)source_below(source, 8));
    tollpebble_set_byte_count_modified(record, (uint8_t)source_below(source, 2));
    tollpebble_set_lower_address(record, (uint8_t)source_below(source, 128));
}

static void set_common(struct source *source, uint8_t kind, uint8_t *record)
{
    memset(record, 0, TOLLPEBBLE_RECORD_SIZE);
    tollpebble_set_kind(record, kind);
    tollpebble_set_traffic_class(record, (uint8_t)source_below(source, 8));
    tollpebble_set_attributes(record, (uint8_t)source_below(source, 8));
    tollpebble_set_poisoned(record, (uint8_t)source_below(source, 2));
    tollpebble_set_tag(record, (uint8_t)source_below(source, 256));
    tollpebble_set_source_id(record, (uint16_t)source_below(source, 1u << 16));
    if (source_below(source, 4) == 0) {
        tollpebble_set_digest_present(record, 1);
        tollpebble_set_digest(record, (uint32_t)source_next(source));
    }
}

void random_record(struct source *source, uint8_t kind, uint32_t length, uint8_t *record)
{
    set_common(source, kind, record);
    switch (kind) {
    case TOLLPEBBLE_MRD: case TOLLPEBBLE_MWR:
        set_memory(source, length, record);
        break;
    case TOLLPEBBLE_IORD: case TOLLPEBBLE_IOWR:
        set_io(source, record);
        length = 1;
        break;
    case TOLLPEBBLE_MSG: case TOLLPEBBLE_MSGD:
        set_message(source, record);
        break;
    case TOLLPEBBLE_CPL: case TOLLPEBBLE_CPLD:
        set_completion(source, record);
        break;
    default:
        set_register(source, record);
        length = 1;
        break;
    }
    if (kind != TOLLPEBBLE_MSG && kind != TOLLPEBBLE_CPL)
        tollpebble_set_length(record, length);
}
