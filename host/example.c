/* A C host: reads a packet, prints its fields by name, writes it back, and shows a refusal.
 *
 *     host/build && target/host/example
 */
#include <inttypes.h>
#include <stdio.h>
#include <string.h>

#include "tollpebble.h"

/* The link's settings. */
enum { MPS = 128, MRRS = 512, RCB = 64 };

/* A completion with data: eight bytes of the answer to the read with tag 5. */
static const uint8_t received[] = {
    0x4a, 0x00, 0x00, 0x02, 0x02, 0x00, 0x00, 0x08, 0x01, 0x00,
    0x05, 0x10, 0xde, 0xad, 0xbe, 0xef, 0x00, 0x01, 0x02, 0x03,
};

static void print_bytes(const char *name, const uint8_t *bytes, size_t count)
{
    printf("%-20s", name);
    for (size_t i = 0; i < count; i++)
        printf("%02x", bytes[i]);
    printf("\n");
}

static void print_number(const char *name, uint64_t number)
{
    printf("%-20s%" PRIu64 "\n", name, number);
}

/* A completion's fields. Other kinds have others: tollpebble.h says which. */
static void print_completion(const uint8_t *record, const uint8_t *payload)
{
    printf("%-20s%s\n", "kind", tollpebble_kind_name(tollpebble_get_kind(record)));
    print_number("traffic class", tollpebble_get_traffic_class(record));
    print_number("attributes", tollpebble_get_attributes(record));
    print_number("poisoned", tollpebble_get_poisoned(record));
    printf("%-20s%04" PRIx64 "\n", "requester ID", tollpebble_get_route_value(record));
    printf("%-20s%04x\n", "completer ID", (unsigned)tollpebble_get_source_id(record));
    print_number("tag", tollpebble_get_tag(record));
    print_number("status", tollpebble_get_status(record));
    print_number("byte count", tollpebble_get_byte_count(record));
    print_number("lower address", tollpebble_get_lower_address(record));
    print_number("length in DW", tollpebble_get_length(record));
    print_bytes("payload", payload, tollpebble_payload_size(record));
}

/* Prints what a call answered, and says whether it was accepted. */
static int accepted(const char *call, uint32_t number)
{
    printf("%s: %" PRIu32 ", %s\n", call, number, tollpebble_sentence(number));
    return number == TOLLPEBBLE_ACCEPTED;
}

int main(void)
{
    uint8_t record[TOLLPEBBLE_RECORD_SIZE];
    uint8_t out[sizeof received];
    uint64_t size = 0;

    if (!accepted("read", tollpebble_read(MPS, MRRS, RCB, received, sizeof received, record, sizeof record)))
        return 1;
    const uint8_t *payload = received + tollpebble_header_size(record);
    print_completion(record, payload);

    if (!accepted("write", tollpebble_write(MPS, MRRS, RCB, record, sizeof record, payload,
                                            tollpebble_payload_size(record), out, sizeof out, &size)))
        return 1;
    print_bytes("packet", out, size);
    printf("%-20s%s\n", "as it was read", memcmp(out, received, sizeof received) == 0 ? "yes" : "no");

    /* Refused, and nothing is written: one byte of the packet is missing. */
    memset(record, 0xee, sizeof record);
    if (accepted("read of a part", tollpebble_read(MPS, MRRS, RCB, received, sizeof received - 1, record,
                                                   sizeof record)))
        return 1;
    printf("%-20s%02x .. %02x\n", "record afterwards", record[0], record[TOLLPEBBLE_RECORD_SIZE - 1]);
    return 0;
}
