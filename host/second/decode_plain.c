/* A plain C decoder of captures, to measure the proved one against: a capture on standard input, its
 * decoding on standard output.  It does the same work by the same rules (document 01, "Captures" and
 * the reader's numbers): every line's form, every digit and every check of the packet reader.
 *
 * Memory is bounded: one block of input with the start of a line before it, and one block of output.
 * A failed read or write is one line on standard error and status 1.
 */
#include <errno.h>
#include <stdbool.h>
#include <stddef.h>
#include <stdint.h>
#include <stdio.h>
#include <stdlib.h>
#include <string.h>
#include <unistd.h>

#ifndef BLOCK_SIZE
#define BLOCK_SIZE (64 * 1024) /* tests build with small ones, to cut lines at every place */
#endif
#define LINE_LIMIT 8267 /* bytes of the longest line, with its newline */
#define OUTPUT_SIZE (64 * 1024)
#define LONGEST_OUTPUT 80 /* more than any one line that is printed */

enum { BAD_HEADER = 11, BAD_LINE = 13 };

/* ---------------------------------------------------------------------------------------------
 * Output
 * ------------------------------------------------------------------------------------------- */

static char output[OUTPUT_SIZE];
static size_t output_used;

/* Nothing sensible can follow a failed read or write. */
static void fail(const char *what)
{
    fprintf(stderr, "decode_plain: %s: %s\n", what, strerror(errno));
    exit(1);
}

static void flush_output(void)
{
    size_t done = 0;
    while (done < output_used) {
        ssize_t count = write(STDOUT_FILENO, output + done, output_used - done);
        if (count >= 0)
            done += (size_t)count;
        else if (errno != EINTR)
            fail("write");
    }
    output_used = 0;
}

static void make_room(void)
{
    if (OUTPUT_SIZE - output_used < LONGEST_OUTPUT)
        flush_output();
}

static inline void put(const char *text, size_t size)
{
    memcpy(output + output_used, text, size);
    output_used += size;
}

#define PUT(text) put(text, sizeof(text) - 1)

/* The digits are put straight into their places: the numbers are short, and there are two in a line. */
static void put_number(uint64_t number)
{
    size_t size = 1;
    for (uint64_t rest = number; rest >= 10; rest /= 10)
        size++;
    for (size_t i = size; i-- > 0; number /= 10)
        output[output_used + i] = (char)('0' + number % 10);
    output_used += size;
}

/* ---------------------------------------------------------------------------------------------
 * Packets
 * ------------------------------------------------------------------------------------------- */

enum family { UNKNOWN, MEMORY, SINGLE, MESSAGE, COMPLETION }; /* SINGLE: I/O and configuration */

struct form {
    uint8_t family;
    uint8_t header; /* bytes */
    bool data;
    bool counted; /* Length is not reserved */
    uint8_t word_size;
    char word[8];
};

#define FORM(family, header, data, counted, word) {family, header, data, counted, sizeof(word) - 1, word}
#define MESSAGE_FORM FORM(MESSAGE, 16, false, false, "Msg")
#define MESSAGE_DATA_FORM FORM(MESSAGE, 16, true, true, "MsgD")

static const struct form forms[256] = {
    [0x00] = FORM(MEMORY, 12, false, true, "MRd32"),
    [0x20] = FORM(MEMORY, 16, false, true, "MRd64"),
    [0x40] = FORM(MEMORY, 12, true, true, "MWr32"),
    [0x60] = FORM(MEMORY, 16, true, true, "MWr64"),
    [0x02] = FORM(SINGLE, 12, false, true, "IORd"),
    [0x42] = FORM(SINGLE, 12, true, true, "IOWr"),
    [0x04] = FORM(SINGLE, 12, false, true, "CfgRd0"),
    [0x44] = FORM(SINGLE, 12, true, true, "CfgWr0"),
    [0x05] = FORM(SINGLE, 12, false, true, "CfgRd1"),
    [0x45] = FORM(SINGLE, 12, true, true, "CfgWr1"),
    [0x30] = MESSAGE_FORM, [0x31] = MESSAGE_FORM, [0x32] = MESSAGE_FORM, [0x33] = MESSAGE_FORM,
    [0x34] = MESSAGE_FORM, [0x35] = MESSAGE_FORM, [0x36] = MESSAGE_FORM, [0x37] = MESSAGE_FORM,
    [0x70] = MESSAGE_DATA_FORM, [0x71] = MESSAGE_DATA_FORM, [0x72] = MESSAGE_DATA_FORM,
    [0x73] = MESSAGE_DATA_FORM, [0x74] = MESSAGE_DATA_FORM, [0x75] = MESSAGE_DATA_FORM,
    [0x76] = MESSAGE_DATA_FORM, [0x77] = MESSAGE_DATA_FORM,
    [0x0a] = FORM(COMPLETION, 12, false, false, "Cpl"),
    [0x4a] = FORM(COMPLETION, 12, true, true, "CplD"),
};

static uint32_t word_at(const uint8_t *bytes)
{
    return (uint32_t)bytes[0] << 24 | (uint32_t)bytes[1] << 16 | (uint32_t)bytes[2] << 8 | bytes[3];
}

/* Length in doublewords; the field 0 stands for 1024. */
static unsigned length_of(const uint8_t *header)
{
    unsigned field = (header[2] & 3u) << 8 | header[3];
    return field == 0 ? 1024 : field;
}

static bool enables_good(unsigned first, unsigned last, unsigned length)
{
    const unsigned long_first = 1u << 15 | 1u << 14 | 1u << 12 | 1u << 8;
    const unsigned long_last = 1u << 15 | 1u << 7 | 1u << 3 | 1u << 1;
    if (length == 1)
        return last == 0;
    if (length == 2)
        return first != 0 && last != 0;
    return (long_first >> first & 1) != 0 && (long_last >> last & 1) != 0;
}

/* The rows about one family that come after 5; the bytes hold the whole header. */
static int check_family(const struct form *form, const uint8_t *header, unsigned length)
{
    unsigned first = header[7] & 15u, last = header[7] >> 4;
    switch (form->family) {
    case MEMORY: {
        uint32_t address = word_at(header + form->header - 4) & ~3u;
        if (!enables_good(first, last, length))
            return 7;
        if (address % 4096 + 4 * length > 4096)
            return 8;
        return form->header == 16 && word_at(header + 8) == 0 ? 10 : 0;
    }
    case SINGLE:
        if (length != 1 || (header[1] & 0x70) != 0 || (header[2] & 0x3c) != 0)
            return 6;
        return enables_good(first, last, 1) ? 0 : 7;
    case MESSAGE:
        return (header[0] & 7) > 5 ? 9 : 0;
    default:
        return 0;
    }
}

/* The number of the first row that holds, else 0.  Of a packet of `size` bytes only the first 16, as far
 * as there are any, are looked at. */
static int check_packet(const uint8_t *header, size_t size, unsigned mps)
{
    const struct form *form = &forms[header[0]];
    unsigned length, data;
    if (size < 12)
        return 1;
    if (form->family == UNKNOWN)
        return 2;
    if (size < form->header)
        return 1;
    length = length_of(header);
    data = form->data ? 4 * length : 0;
    if (size != form->header + data + (header[2] & 0x80 ? 4u : 0u))
        return 3;
    if (form->family == MEMORY && ((header[1] & 1) != 0 || (header[2] & 0x0c) != 0))
        return 4;
    if (data > mps)
        return 5;
    return check_family(form, header, length);
}

static void put_packet(const uint8_t *header)
{
    const struct form *form = &forms[header[0]];
    PUT("code=0 kind=");
    memcpy(output + output_used, form->word, sizeof form->word); /* a fixed size is one move */
    output_used += form->word_size;
    PUT(" tag=");
    put_number(header[form->family == COMPLETION ? 10 : 6]);
    PUT(" dw=");
    put_number(form->counted ? length_of(header) : 0);
    PUT("\n");
}

/* ---------------------------------------------------------------------------------------------
 * Lines
 * ------------------------------------------------------------------------------------------- */

/* What a letter means as a hexadecimal digit, with a bit that every good one has and no other letter. */
#define GOOD 16u
#define DIGIT(value) (GOOD | (value))
static const uint8_t digits[256] = {
    ['0'] = DIGIT(0),  ['1'] = DIGIT(1),  ['2'] = DIGIT(2),  ['3'] = DIGIT(3),
    ['4'] = DIGIT(4),  ['5'] = DIGIT(5),  ['6'] = DIGIT(6),  ['7'] = DIGIT(7),
    ['8'] = DIGIT(8),  ['9'] = DIGIT(9),  ['a'] = DIGIT(10), ['b'] = DIGIT(11),
    ['c'] = DIGIT(12), ['d'] = DIGIT(13), ['e'] = DIGIT(14), ['f'] = DIGIT(15),
};

/* Whether all are digits.  Eight at a time: their lookups do not wait for each other. */
static bool all_digits(const uint8_t *text, size_t count)
{
    unsigned good = GOOD;
    size_t i = 0;
    for (; i + 8 <= count; i += 8)
        good &= digits[text[i]] & digits[text[i + 1]] & digits[text[i + 2]] & digits[text[i + 3]] &
                digits[text[i + 4]] & digits[text[i + 5]] & digits[text[i + 6]] & digits[text[i + 7]];
    for (; i < count; i++)
        good &= digits[text[i]];
    return (good & GOOD) != 0;
}

/* The place after a word, or NULL where it does not stand.  `end` is the line's newline. */
static inline const uint8_t *skip_word(const uint8_t *at, const uint8_t *end, const char *word, size_t size)
{
    return (size_t)(end - at) >= size && memcmp(at, word, size) == 0 ? at + size : NULL;
}

#define SKIP(at, end, word) skip_word(at, end, word, sizeof(word) - 1)

/* The place after a decimal without leading zeros, not above the limit, or NULL.  The line's newline, which
 * is no digit, ends the loop at the latest; the limit has 32 bits, so the sum cannot wrap. */
static const uint8_t *take_number(const uint8_t *at, uint32_t limit, uint32_t *number)
{
    const uint8_t *start = at;
    uint64_t sum = 0;
    for (; *at >= '0' && *at <= '9'; at++) {
        sum = 10 * sum + (uint64_t)(*at - '0');
        if (sum > limit)
            return NULL;
    }
    if (at == start || (*start == '0' && at - start > 1))
        return NULL;
    *number = (uint32_t)sum;
    return at;
}

static bool payload_size_listed(uint32_t size)
{
    return size >= 128 && size <= 4096 && (size & (size - 1)) == 0;
}

/* Whether a first line is good; gives its maximum payload size, all that reading packets needs of it. */
static bool parse_header(const uint8_t *at, const uint8_t *end, uint32_t *mps)
{
    uint32_t mrrs, rcb;
    return (at = SKIP(at, end, "mps=")) && (at = take_number(at, 4096, mps)) &&
           (at = SKIP(at, end, " mrrs=")) && (at = take_number(at, 4096, &mrrs)) &&
           (at = SKIP(at, end, " rcb=")) && (at = take_number(at, 128, &rcb)) &&
           (at = SKIP(at, end, " req=")) && end - at == 4 && all_digits(at, 4) &&
           payload_size_listed(*mps) && payload_size_listed(mrrs) && (rcb == 64 || rcb == 128);
}

/* The digits of a good line's packet, or NULL; gives the packet's size in bytes. */
static const uint8_t *parse_line(const uint8_t *at, const uint8_t *end, uint32_t *size)
{
    uint32_t time;
    if (end - at >= LINE_LIMIT || !(at = SKIP(at, end, "at=")) ||
        !(at = take_number(at, UINT32_MAX, &time)) || !(at = SKIP(at, end, " dir=")) || end - at < 2 ||
        (*at != 'r' && *at != 't') || at[1] != 'x')
        return NULL;
    if (!(at = SKIP(at + 2, end, " len=")) || !(at = take_number(at, LINE_LIMIT, size)) ||
        !(at = SKIP(at, end, " tlp=")) || (size_t)(end - at) != 2 * (size_t)*size ||
        !all_digits(at, 2 * (size_t)*size))
        return NULL;
    return at;
}

/* ---------------------------------------------------------------------------------------------
 * The capture
 * ------------------------------------------------------------------------------------------- */

static bool begun; /* a good first line has been seen */
static uint32_t mps;
static uint64_t lines, refused;

static void put_refusal(int number)
{
    PUT("code=");
    put_number((uint64_t)number);
    PUT("\n");
    refused++;
}

static void decode_packet(const uint8_t *text, uint32_t size)
{
    uint8_t header[16] = {0};
    size_t count = size < sizeof header ? size : sizeof header;
    int number;
    for (size_t i = 0; i < count; i++)
        header[i] = (uint8_t)((digits[text[2 * i]] & 15u) << 4 | (digits[text[2 * i + 1]] & 15u));
    number = check_packet(header, size, mps);
    if (number != 0)
        put_refusal(number);
    else
        put_packet(header);
}

/* A capture without a good first line gets this answer alone. */
static void end_without_header(void)
{
    put_refusal(BAD_HEADER);
    flush_output();
    exit(0);
}

static void bad_line(void)
{
    if (!begun)
        end_without_header();
    make_room();
    lines++;
    put_refusal(BAD_LINE);
}

static void decode_line(const uint8_t *line, const uint8_t *newline)
{
    uint32_t size;
    const uint8_t *text;
    if (!begun) {
        if (!parse_header(line, newline, &mps))
            end_without_header();
        begun = true;
        return;
    }
    text = parse_line(line, newline, &size);
    if (text == NULL) {
        bad_line();
        return;
    }
    make_room();
    lines++;
    decode_packet(text, size);
}

static size_t read_block(uint8_t *block)
{
    ssize_t count;
    do
        count = read(STDIN_FILENO, block, BLOCK_SIZE);
    while (count < 0 && errno == EINTR);
    if (count < 0)
        fail("read");
    return (size_t)count;
}

int main(void)
{
    static uint8_t input[LINE_LIMIT + BLOCK_SIZE];
    size_t held = 0;       /* bytes at the front of the input: a line whose newline is still to come */
    bool skipping = false; /* within an over-long line, which has had its answer */
    size_t count;
    while ((count = read_block(input + held)) != 0) {
        const uint8_t *line = input, *place = input + held, *end = place + count, *newline;
        while ((newline = memchr(place, '\n', (size_t)(end - place))) != NULL) {
            if (!skipping)
                decode_line(line, newline);
            skipping = false;
            line = place = newline + 1;
        }
        held = skipping ? 0 : (size_t)(end - line);
        if (held >= LINE_LIMIT) {
            bad_line();
            skipping = true;
            held = 0;
        }
        memmove(input, line, held);
    }
    if (held != 0 || !begun)
        bad_line();
    make_room();
    PUT("lines=");
    put_number(lines);
    PUT(" refused=");
    put_number(refused);
    PUT("\n");
    flush_output();
    return 0;
}
