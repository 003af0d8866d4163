/* Answers calls in the form of the stored vectors (host/second/make_vectors.py says which), from
 * standard input to standard output:
 *
 *     vectors library    by the library
 *     vectors plain      by the plain C reader and writer, host/second/packet_plain.c
 */
#include <inttypes.h>
#include <stdio.h>
#include <stdlib.h>
#include <string.h>

#include "packet_plain.h"
#include "tollpebble.h"

enum { MOST_LINE = 20000, MOST_BYTES = MOST_LINE / 2, FILLER = 0xee };

static char line[MOST_LINE];
static char *place; /* how far the line is read */
static int by_plain;

static void bad_line(void)
{
    fprintf(stderr, "vectors: a line is not of its form\n");
    exit(1);
}

static uint32_t next_number(void)
{
    char *end;
    unsigned long number = strtoul(place, &end, 16);
    if (end == place || *end != ' ' || number > UINT32_MAX)
        bad_line();
    place = end + 1;
    return (uint32_t)number;
}

static unsigned digit_of(char letter)
{
    if (letter >= '0' && letter <= '9')
        return (unsigned)(letter - '0');
    if (letter >= 'a' && letter <= 'f')
        return (unsigned)(letter - 'a') + 10;
    bad_line();
    return 0;
}

/* The bytes up to a space or the end. */
static size_t next_bytes(uint8_t *to)
{
    size_t count = 0;
    while (*place != ' ' && *place != '\0') {
        unsigned high = digit_of(*place++);
        to[count++] = (uint8_t)(high << 4 | digit_of(*place++));
    }
    if (*place == ' ')
        place++;
    return count;
}

static void print_hex(const char *key, const uint8_t *bytes, size_t count)
{
    printf(" %s=", key);
    for (size_t i = 0; i < count; i++)
        printf("%02x", bytes[i]);
}

static void answer_reading(void)
{
    static uint8_t packet[MOST_BYTES];
    uint8_t record[TOLLPEBBLE_RECORD_SIZE];
    uint32_t mps = next_number(), mrrs = next_number(), rcb = next_number();
    size_t size = next_bytes(packet);
    uint32_t number = (by_plain ? plain_read : tollpebble_read)(mps, mrrs, rcb, packet, size, record,
                                                                sizeof record);
    printf("code=%" PRIu32, number);
    if (number == TOLLPEBBLE_ACCEPTED) {
        print_hex("record", record, sizeof record);
        print_hex("payload", packet + tollpebble_header_size(record), tollpebble_payload_size(record));
    }
    printf("\n");
}

static void answer_writing(void)
{
    static uint8_t record[MOST_BYTES], payload[MOST_BYTES], out[1 << 16];
    uint64_t size = 0;
    uint32_t mps = next_number(), mrrs = next_number(), rcb = next_number();
    uint32_t room = next_number(), length = next_number();
    size_t record_length = next_bytes(record), payload_length = next_bytes(payload);
    if (room > sizeof out || record_length != length)
        bad_line();
    memset(out, FILLER, room);
    uint32_t number = (by_plain ? plain_write : tollpebble_write)(
        mps, mrrs, rcb, record, record_length, payload, payload_length, out, room, &size);
    printf("code=%" PRIu32 " size=%" PRIu64, number, size);
    print_hex("out", out, room);
    printf("\n");
}

int main(int count, char **words)
{
    unsigned long lines = 0;
    if (count != 2 || (strcmp(words[1], "library") != 0 && strcmp(words[1], "plain") != 0)) {
        fprintf(stderr, "usage: vectors library, or vectors plain\n");
        return 2;
    }
    by_plain = strcmp(words[1], "plain") == 0;
    while (fgets(line, sizeof line, stdin) != NULL) {
        line[strcspn(line, "\n")] = '\0';
        place = line + 2;
        if (strncmp(line, "r ", 2) == 0)
            answer_reading();
        else if (strncmp(line, "w ", 2) == 0)
            answer_writing();
        else
            bad_line();
        lines++;
    }
    printf("lines=%lu\n", lines);
    return 0;
}
