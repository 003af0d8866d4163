/* Tollpebble for C and C++: reads and writes PCI Express transaction-layer packets (TLPs) of
 * non-flit links.
 *
 *     uint8_t record[TOLLPEBBLE_RECORD_SIZE];
 *     uint32_t number = tollpebble_read(256, 512, 64, packet, length, record, sizeof record);
 *     if (number == TOLLPEBBLE_ACCEPTED)
 *         printf("%s tag %u\n", tollpebble_kind_name(tollpebble_get_kind(record)),
 *                (unsigned)tollpebble_get_tag(record));
 *     else
 *         printf("%s\n", tollpebble_sentence(number));
 *
 * host/build makes the library, target/staticlib/libtlp_c.a, for x86-64 Linux. Link it after your
 * own files; it needs nothing but the C library. host/example.c is a whole program.
 *
 * What is proved of both functions, for every input, each with its theorem (docs/PROMISES.md):
 *  - Any bytes, any lengths and any settings get an answer: the number of the first fault in a
 *    fixed order of checking, or 0, which comes exactly when there is no fault. With a number
 *    nothing that was lent has changed. With 0 the packet's record, or the packet's bytes and their
 *    size, are in what was lent, and what lies past them has not changed (ExportedDemand1).
 *  - With the same settings, bytes that were read into a record, and written from it with the
 *    payload that stands in them, are accepted where `out` has room for as many bytes, and it then
 *    holds the same bytes with reserved bits cleared (RecordReadThenWrite).
 *  - With the same settings, a packet that was written from a record is read back, into any record
 *    of 48 bytes or more, as the same record and the same payload (RecordWriteThenRead).
 *
 * They keep no state and allocate nothing, so any number of threads may call them at once.
 *
 * What no checker can see, and is the caller's part:
 *  - Each pointer has as many bytes behind it as the length after it says. It may be NULL where
 *    that length is 0. `size` points to a number.
 *  - What is lent to be written (record or out, and size) overlaps nothing else that is lent.
 */
#ifndef TOLLPEBBLE_H
#define TOLLPEBBLE_H

#include <stddef.h>
#include <stdint.h>

#ifdef __cplusplus
extern "C" {
#endif

/* ---- The two functions
 *
 * Settings of the link, in bytes, which both functions check before anything else:
 *   mps   maximum payload size: 128, 256, 512, 1024, 2048 or 4096
 *   mrrs  maximum read request size: one of the same
 *   rcb   read completion boundary: 64 or 128
 */

/* Reads a packet: the header, the data and, with TD set, the digest, and nothing else.
 *
 * With 0 the packet's record is laid over the first 48 bytes of `record`; the bytes past them stay.
 * The data is not copied: it is the tollpebble_payload_size(record) bytes of the packet from
 * tollpebble_header_size(record) on.
 *
 * Otherwise answers 1 to 11; 12, looked at last, where `record` is shorter than 48 bytes.
 */
uint32_t tollpebble_read(uint32_t mps, uint32_t mrrs, uint32_t rcb,
                         const uint8_t *packet, size_t packet_length,
                         uint8_t *record, size_t record_length);

/* Writes the packet that `record` describes: header, payload and digest over the front of `out`.
 *
 * With 0 `*size` is the packet's size, which is tollpebble_packet_size(record); the bytes of `out`
 * past it stay. The payload is 4 x length bytes for a kind with data, and empty for the others. A
 * memory request takes the 32-bit form for an address below 4 GiB, else the 64-bit form.
 *
 * Otherwise answers, in this order: 11; 6 where `record` is no record, which is one that is not 48
 * bytes long, has an unknown kind or route, a flag other than 0 and 1, or anything in a field that
 * its kind does not have; 6 where a field, a length or a route is out of its range; 3 where the
 * payload is not of the right size; 5; 6; 7; 8; 12 where `out` is shorter than the packet.
 */
uint32_t tollpebble_write(uint32_t mps, uint32_t mrrs, uint32_t rcb,
                          const uint8_t *record, size_t record_length,
                          const uint8_t *payload, size_t payload_length,
                          uint8_t *out, size_t out_length,
                          uint64_t *size);

/* ---- The numbers
 *
 * The two functions answer 0 to 12. The others come from tables of open reads and from captures:
 * what the library's programs print.
 */
/* made: c_numbers */
enum {
    /* No fault. */
    TOLLPEBBLE_ACCEPTED = 0,
    /* The bytes end before the header does: there are fewer than 12, or fewer than 16 for a
     * header of four doublewords. */
    TOLLPEBBLE_HEADER_INCOMPLETE = 1,
    /* Byte 0 is not in the kind table. */
    TOLLPEBBLE_UNKNOWN_KIND = 2,
    /* The size is not that of header, data and digest; when writing, the payload is not of the
     * size that the length calls for. */
    TOLLPEBBLE_SIZE_MISMATCH = 3,
    /* A memory request has TH set or AT not 0. */
    TOLLPEBBLE_HINT_OR_ADDRESS_TYPE = 4,
    /* The data is larger than the maximum payload size. */
    TOLLPEBBLE_OVER_MAX_PAYLOAD = 5,
    /* An I/O or configuration request has a length other than 1, or a traffic class, Attr[1:0]
     * or AT other than 0; when writing a packet or opening a read, also: a number exceeds its
     * field, a reserved field or a digest without TD is not 0, a length, byte count or address
     * is out of its range, or the route does not fit the kind. */
    TOLLPEBBLE_BAD_FIELD = 6,
    /* The byte enables break their rules. */
    TOLLPEBBLE_BAD_ENABLES = 7,
    /* A memory request crosses a boundary of 4096 bytes. */
    TOLLPEBBLE_CROSSES_4K = 8,
    /* A message has routing 110 or 111. */
    TOLLPEBBLE_BAD_ROUTING = 9,
    /* A memory request has the 64-bit form though its address is below 4 GiB. */
    TOLLPEBBLE_NEEDLESS_64_BIT_FORM = 10,
    /* A setting is not in the list; of a capture, its first line is bad, missing or unended; on
     * a table, also: an open record is one that open would refuse by 6, 7, 8, 22 or 23, or none
     * of its doublewords is left to take. */
    TOLLPEBBLE_BAD_SETTING = 11,
    /* The output is too short for what is to be written into it. */
    TOLLPEBBLE_OUTPUT_TOO_SHORT = 12,
    /* A line of a capture is not of its form, has more than 8,267 bytes with its newline, or is
     * the last one and has no newline. */
    TOLLPEBBLE_BAD_LINE = 13,
    /* The tag is over the limit. */
    TOLLPEBBLE_TAG_OVER_LIMIT = 20,
    /* The tag is open already. */
    TOLLPEBBLE_TAG_OPEN = 21,
    /* The read is longer than the maximum read request size. */
    TOLLPEBBLE_OVER_MAX_READ_REQUEST = 22,
    /* The store is over 65,536 bytes, the window does not start at a multiple of 4, or it runs
     * past the store. */
    TOLLPEBBLE_BAD_WINDOW = 23,
    /* The window shares a byte with an open read's window. */
    TOLLPEBBLE_WINDOW_OVERLAP = 24,
    /* The tag is not open. */
    TOLLPEBBLE_TAG_NOT_OPEN = 25,
    /* The packet is not a completion. */
    TOLLPEBBLE_NOT_A_COMPLETION = 29,
    /* The completion's requester ID is not the table's, or its tag is not open. */
    TOLLPEBBLE_UNEXPECTED_COMPLETION = 30,
    /* The completion's traffic class or one of its attributes differs from the read's. */
    TOLLPEBBLE_CLASS_OR_ATTRIBUTES_DIFFER = 31,
    /* The completion has BCM set, status 010, status 000 without data, or another status with
     * data. */
    TOLLPEBBLE_BAD_COMPLETION_STATUS = 32,
    /* The completion does not legally continue the read: its length, byte count, lower address
     * or end is not one that can come next. */
    TOLLPEBBLE_NOT_A_CONTINUATION = 33,
    /* The store is over 65,536 bytes, or too short for the read's window. */
    TOLLPEBBLE_BAD_STORE = 34
};
/* end */

/* ---- The packet record
 *
 * What a packet holds, as 48 bytes: tollpebble_read writes it, tollpebble_write reads it. Numbers of
 * several bytes have the high byte first, whatever the host's own order is. A field that the kind
 * does not have is 0, and so are bytes 45 to 47: clear a record before you fill it for writing.
 */
/* made: c_offsets */
enum {
    /* Kind: 1 MRd, 2 MWr, 3 IORd, 4 IOWr, 5 CfgRd0, 6 CfgWr0, 7 CfgRd1, 8 CfgWr1, 9 Msg, 10
     * MsgD, 11 Cpl, 12 CplD. Of all; 1 byte. */
    TOLLPEBBLE_AT_KIND = 0,
    /* Traffic class, 0 to 7. Of all; 1 byte. */
    TOLLPEBBLE_AT_TRAFFIC_CLASS = 1,
    /* Attributes, Attr[2:0]; 0 to 7, Attr[2] is 0 for IORd to CfgWr1. Of all; 1 byte. */
    TOLLPEBBLE_AT_ATTRIBUTES = 2,
    /* Poisoned (EP): 0 or 1. Of all; 1 byte. */
    TOLLPEBBLE_AT_POISONED = 3,
    /* Digest present (TD): 0 or 1. Of all; 1 byte. */
    TOLLPEBBLE_AT_DIGEST_PRESENT = 4,
    /* Route: 0 by address, 1 by ID, implicit: 2 to root, 3 broadcast, 4 local, 5 gathered. Of
     * all; 1 byte. */
    TOLLPEBBLE_AT_ROUTE = 5,
    /* Tag. Of all; 1 byte. */
    TOLLPEBBLE_AT_TAG = 6,
    /* Message code. Of Msg, MsgD; 1 byte. */
    TOLLPEBBLE_AT_MESSAGE_CODE = 7,
    /* Route value: the address, or the ID in its low 16 bits; 0 for an implicit route. Of all; 8
     * bytes. */
    TOLLPEBBLE_AT_ROUTE_VALUE = 8,
    /* Bytes 8 to 15 of the message, whole. Of Msg, MsgD; 8 bytes. */
    TOLLPEBBLE_AT_MESSAGE_BYTES = 16,
    /* Digest; 0 where it is not present. Of all; 4 bytes. */
    TOLLPEBBLE_AT_DIGEST = 24,
    /* Length in doublewords, 1 to 1024. Of all but Msg and Cpl; 4 bytes. */
    TOLLPEBBLE_AT_LENGTH = 28,
    /* Byte count, 1 to 4096. Of Cpl, CplD; 4 bytes. */
    TOLLPEBBLE_AT_BYTE_COUNT = 32,
    /* Requester ID; of a completion the completer ID. Of all; 2 bytes. */
    TOLLPEBBLE_AT_SOURCE_ID = 36,
    /* First enables, bit 0 for the lowest byte. Of MRd to CfgWr1; 1 byte. */
    TOLLPEBBLE_AT_FIRST_ENABLES = 38,
    /* Last enables, bit 0 for the lowest byte. Of MRd to CfgWr1; 1 byte. */
    TOLLPEBBLE_AT_LAST_ENABLES = 39,
    /* Extended register, 0 to 15. Of CfgRd0 to CfgWr1; 1 byte. */
    TOLLPEBBLE_AT_EXTENDED_REGISTER = 40,
    /* Register, 0 to 63. Of CfgRd0 to CfgWr1; 1 byte. */
    TOLLPEBBLE_AT_REGISTER = 41,
    /* Status: 0 successful, 1 unsupported request, 2 configuration retry, 4 completer abort; 0
     * to 7. Of Cpl, CplD; 1 byte. */
    TOLLPEBBLE_AT_STATUS = 42,
    /* Byte count modified (BCM): 0 or 1. Of Cpl, CplD; 1 byte. */
    TOLLPEBBLE_AT_BYTE_COUNT_MODIFIED = 43,
    /* Lower address, 0 to 127. Of Cpl, CplD; 1 byte. */
    TOLLPEBBLE_AT_LOWER_ADDRESS = 44,
    TOLLPEBBLE_RECORD_SIZE = 48
};
/* end */

/* Kinds. The record does not say which form a memory request had: the address decides. */
enum {
    TOLLPEBBLE_MRD = 1,    /* memory read */
    TOLLPEBBLE_MWR = 2,    /* memory write; has data */
    TOLLPEBBLE_IORD = 3,   /* I/O read */
    TOLLPEBBLE_IOWR = 4,   /* I/O write; has data */
    TOLLPEBBLE_CFGRD0 = 5, /* configuration read, type 0 */
    TOLLPEBBLE_CFGWR0 = 6, /* configuration write, type 0; has data */
    TOLLPEBBLE_CFGRD1 = 7, /* configuration read, type 1 */
    TOLLPEBBLE_CFGWR1 = 8, /* configuration write, type 1; has data */
    TOLLPEBBLE_MSG = 9,    /* message */
    TOLLPEBBLE_MSGD = 10,  /* message with data */
    TOLLPEBBLE_CPL = 11,   /* completion without data */
    TOLLPEBBLE_CPLD = 12   /* completion with data */
};

/* Routes, with what the route value then holds. Memory and I/O requests go by address,
 * configuration requests by their target's ID, completions by the requester's ID, messages by any
 * of them. A message that goes by address or ID has it in its bytes 8 to 15 too, and the two agree.
 */
enum {
    TOLLPEBBLE_BY_ADDRESS = 0, /* the address; of memory and I/O requests a multiple of 4 */
    TOLLPEBBLE_BY_ID = 1,      /* the ID, 16 bits */
    TOLLPEBBLE_TO_ROOT = 2,    /* 0, as for the others below */
    TOLLPEBBLE_BROADCAST = 3,
    TOLLPEBBLE_LOCAL = 4,
    TOLLPEBBLE_GATHERED = 5
};

/* ---- Getters and setters: one of each for every field, over a record of 48 bytes */

static inline uint8_t tollpebble_load8(const uint8_t *from)
{
    return from[0];
}

static inline uint16_t tollpebble_load16(const uint8_t *from)
{
    return (uint16_t)((unsigned)from[0] << 8 | from[1]);
}

static inline uint32_t tollpebble_load32(const uint8_t *from)
{
    return (uint32_t)tollpebble_load16(from) << 16 | tollpebble_load16(from + 2);
}

static inline uint64_t tollpebble_load64(const uint8_t *from)
{
    return (uint64_t)tollpebble_load32(from) << 32 | tollpebble_load32(from + 4);
}

static inline void tollpebble_store8(uint8_t *to, uint8_t value)
{
    to[0] = value;
}

static inline void tollpebble_store16(uint8_t *to, uint16_t value)
{
    to[0] = (uint8_t)(value >> 8);
    to[1] = (uint8_t)value;
}

static inline void tollpebble_store32(uint8_t *to, uint32_t value)
{
    tollpebble_store16(to, (uint16_t)(value >> 16));
    tollpebble_store16(to + 2, (uint16_t)value);
}

static inline void tollpebble_store64(uint8_t *to, uint64_t value)
{
    tollpebble_store32(to, (uint32_t)(value >> 32));
    tollpebble_store32(to + 4, (uint32_t)value);
}

/* made: c_accessors */
static inline uint8_t tollpebble_get_kind(const uint8_t *record)
{
    return tollpebble_load8(record + TOLLPEBBLE_AT_KIND);
}

static inline void tollpebble_set_kind(uint8_t *record, uint8_t value)
{
    tollpebble_store8(record + TOLLPEBBLE_AT_KIND, value);
}

static inline uint8_t tollpebble_get_traffic_class(const uint8_t *record)
{
    return tollpebble_load8(record + TOLLPEBBLE_AT_TRAFFIC_CLASS);
}

static inline void tollpebble_set_traffic_class(uint8_t *record, uint8_t value)
{
    tollpebble_store8(record + TOLLPEBBLE_AT_TRAFFIC_CLASS, value);
}

static inline uint8_t tollpebble_get_attributes(const uint8_t *record)
{
    return tollpebble_load8(record + TOLLPEBBLE_AT_ATTRIBUTES);
}

static inline void tollpebble_set_attributes(uint8_t *record, uint8_t value)
{
    tollpebble_store8(record + TOLLPEBBLE_AT_ATTRIBUTES, value);
}

static inline uint8_t tollpebble_get_poisoned(const uint8_t *record)
{
    return tollpebble_load8(record + TOLLPEBBLE_AT_POISONED);
}

static inline void tollpebble_set_poisoned(uint8_t *record, uint8_t value)
{
    tollpebble_store8(record + TOLLPEBBLE_AT_POISONED, value);
}

static inline uint8_t tollpebble_get_digest_present(const uint8_t *record)
{
    return tollpebble_load8(record + TOLLPEBBLE_AT_DIGEST_PRESENT);
}

static inline void tollpebble_set_digest_present(uint8_t *record, uint8_t value)
{
    tollpebble_store8(record + TOLLPEBBLE_AT_DIGEST_PRESENT, value);
}

static inline uint8_t tollpebble_get_route(const uint8_t *record)
{
    return tollpebble_load8(record + TOLLPEBBLE_AT_ROUTE);
}

static inline void tollpebble_set_route(uint8_t *record, uint8_t value)
{
    tollpebble_store8(record + TOLLPEBBLE_AT_ROUTE, value);
}

static inline uint8_t tollpebble_get_tag(const uint8_t *record)
{
    return tollpebble_load8(record + TOLLPEBBLE_AT_TAG);
}

static inline void tollpebble_set_tag(uint8_t *record, uint8_t value)
{
    tollpebble_store8(record + TOLLPEBBLE_AT_TAG, value);
}

static inline uint8_t tollpebble_get_message_code(const uint8_t *record)
{
    return tollpebble_load8(record + TOLLPEBBLE_AT_MESSAGE_CODE);
}

static inline void tollpebble_set_message_code(uint8_t *record, uint8_t value)
{
    tollpebble_store8(record + TOLLPEBBLE_AT_MESSAGE_CODE, value);
}

static inline uint64_t tollpebble_get_route_value(const uint8_t *record)
{
    return tollpebble_load64(record + TOLLPEBBLE_AT_ROUTE_VALUE);
}

static inline void tollpebble_set_route_value(uint8_t *record, uint64_t value)
{
    tollpebble_store64(record + TOLLPEBBLE_AT_ROUTE_VALUE, value);
}

static inline uint64_t tollpebble_get_message_bytes(const uint8_t *record)
{
    return tollpebble_load64(record + TOLLPEBBLE_AT_MESSAGE_BYTES);
}

static inline void tollpebble_set_message_bytes(uint8_t *record, uint64_t value)
{
    tollpebble_store64(record + TOLLPEBBLE_AT_MESSAGE_BYTES, value);
}

static inline uint32_t tollpebble_get_digest(const uint8_t *record)
{
    return tollpebble_load32(record + TOLLPEBBLE_AT_DIGEST);
}

static inline void tollpebble_set_digest(uint8_t *record, uint32_t value)
{
    tollpebble_store32(record + TOLLPEBBLE_AT_DIGEST, value);
}

static inline uint32_t tollpebble_get_length(const uint8_t *record)
{
    return tollpebble_load32(record + TOLLPEBBLE_AT_LENGTH);
}

static inline void tollpebble_set_length(uint8_t *record, uint32_t value)
{
    tollpebble_store32(record + TOLLPEBBLE_AT_LENGTH, value);
}

static inline uint32_t tollpebble_get_byte_count(const uint8_t *record)
{
    return tollpebble_load32(record + TOLLPEBBLE_AT_BYTE_COUNT);
}

static inline void tollpebble_set_byte_count(uint8_t *record, uint32_t value)
{
    tollpebble_store32(record + TOLLPEBBLE_AT_BYTE_COUNT, value);
}

static inline uint16_t tollpebble_get_source_id(const uint8_t *record)
{
    return tollpebble_load16(record + TOLLPEBBLE_AT_SOURCE_ID);
}

static inline void tollpebble_set_source_id(uint8_t *record, uint16_t value)
{
    tollpebble_store16(record + TOLLPEBBLE_AT_SOURCE_ID, value);
}

static inline uint8_t tollpebble_get_first_enables(const uint8_t *record)
{
    return tollpebble_load8(record + TOLLPEBBLE_AT_FIRST_ENABLES);
}

static inline void tollpebble_set_first_enables(uint8_t *record, uint8_t value)
{
    tollpebble_store8(record + TOLLPEBBLE_AT_FIRST_ENABLES, value);
}

static inline uint8_t tollpebble_get_last_enables(const uint8_t *record)
{
    return tollpebble_load8(record + TOLLPEBBLE_AT_LAST_ENABLES);
}

static inline void tollpebble_set_last_enables(uint8_t *record, uint8_t value)
{
    tollpebble_store8(record + TOLLPEBBLE_AT_LAST_ENABLES, value);
}

static inline uint8_t tollpebble_get_extended_register(const uint8_t *record)
{
    return tollpebble_load8(record + TOLLPEBBLE_AT_EXTENDED_REGISTER);
}

static inline void tollpebble_set_extended_register(uint8_t *record, uint8_t value)
{
    tollpebble_store8(record + TOLLPEBBLE_AT_EXTENDED_REGISTER, value);
}

static inline uint8_t tollpebble_get_register(const uint8_t *record)
{
    return tollpebble_load8(record + TOLLPEBBLE_AT_REGISTER);
}

static inline void tollpebble_set_register(uint8_t *record, uint8_t value)
{
    tollpebble_store8(record + TOLLPEBBLE_AT_REGISTER, value);
}

static inline uint8_t tollpebble_get_status(const uint8_t *record)
{
    return tollpebble_load8(record + TOLLPEBBLE_AT_STATUS);
}

static inline void tollpebble_set_status(uint8_t *record, uint8_t value)
{
    tollpebble_store8(record + TOLLPEBBLE_AT_STATUS, value);
}

static inline uint8_t tollpebble_get_byte_count_modified(const uint8_t *record)
{
    return tollpebble_load8(record + TOLLPEBBLE_AT_BYTE_COUNT_MODIFIED);
}

static inline void tollpebble_set_byte_count_modified(uint8_t *record, uint8_t value)
{
    tollpebble_store8(record + TOLLPEBBLE_AT_BYTE_COUNT_MODIFIED, value);
}

static inline uint8_t tollpebble_get_lower_address(const uint8_t *record)
{
    return tollpebble_load8(record + TOLLPEBBLE_AT_LOWER_ADDRESS);
}

static inline void tollpebble_set_lower_address(uint8_t *record, uint8_t value)
{
    tollpebble_store8(record + TOLLPEBBLE_AT_LOWER_ADDRESS, value);
}
/* end */

/* ---- Sizes, for a record that was read or that the writer accepts */

/* Bytes of the header: 16 for messages and for memory requests to 4 GiB and above, else 12. */
static inline size_t tollpebble_header_size(const uint8_t *record)
{
    uint8_t kind = tollpebble_get_kind(record);
    if (kind == TOLLPEBBLE_MSG || kind == TOLLPEBBLE_MSGD)
        return 16;
    if (kind == TOLLPEBBLE_MRD || kind == TOLLPEBBLE_MWR)
        return tollpebble_get_route_value(record) > UINT32_MAX ? 16 : 12;
    return 12;
}

/* Bytes of data: 4 for each doubleword of a kind with data, which are those of even number. */
static inline size_t tollpebble_payload_size(const uint8_t *record)
{
    if (tollpebble_get_kind(record) % 2 != 0)
        return 0;
    return 4 * (size_t)tollpebble_get_length(record);
}

/* Bytes of the whole packet: what tollpebble_write needs room for. */
static inline size_t tollpebble_packet_size(const uint8_t *record)
{
    size_t digest_size = 4 * (size_t)tollpebble_get_digest_present(record);
    return tollpebble_header_size(record) + tollpebble_payload_size(record) + digest_size;
}

/* ---- Words for people */

/* A kind by its name, "?" where there is none. */
static inline const char *tollpebble_kind_name(uint8_t kind)
{
    static const char *const names[] = {
        "?", "MRd", "MWr", "IORd", "IOWr", "CfgRd0", "CfgWr0", "CfgRd1", "CfgWr1",
        "Msg", "MsgD", "Cpl", "CplD",
    };
    return names[kind <= TOLLPEBBLE_CPLD ? kind : 0];
}

/* What a number means. */
static inline const char *tollpebble_sentence(uint32_t number)
{
    switch (number) {
    case TOLLPEBBLE_ACCEPTED:
        return "No fault.";
    /* made: c_sentences */
    case TOLLPEBBLE_HEADER_INCOMPLETE:
        return "The bytes end before the header does: there are fewer than 12, or fewer than 16 for "
               "a header of four doublewords.";
    case TOLLPEBBLE_UNKNOWN_KIND:
        return "Byte 0 is not in the kind table.";
    case TOLLPEBBLE_SIZE_MISMATCH:
        return "The size is not that of header, data and digest; when writing, the payload is not of"
               " the size that the length calls for.";
    case TOLLPEBBLE_HINT_OR_ADDRESS_TYPE:
        return "A memory request has TH set or AT not 0.";
    case TOLLPEBBLE_OVER_MAX_PAYLOAD:
        return "The data is larger than the maximum payload size.";
    case TOLLPEBBLE_BAD_FIELD:
        return "An I/O or configuration request has a length other than 1, or a traffic class, "
               "Attr[1:0] or AT other than 0; when writing a packet or opening a read, also: a "
               "number exceeds its field, a reserved field or a digest without TD is not 0, a "
               "length, byte count or address is out of its range, or the route does not fit the "
               "kind.";
    case TOLLPEBBLE_BAD_ENABLES:
        return "The byte enables break their rules.";
    case TOLLPEBBLE_CROSSES_4K:
        return "A memory request crosses a boundary of 4096 bytes.";
    case TOLLPEBBLE_BAD_ROUTING:
        return "A message has routing 110 or 111.";
    case TOLLPEBBLE_NEEDLESS_64_BIT_FORM:
        return "A memory request has the 64-bit form though its address is below 4 GiB.";
    case TOLLPEBBLE_BAD_SETTING:
        return "A setting is not in the list; of a capture, its first line is bad, missing or "
               "unended; on a table, also: an open record is one that open would refuse by 6, 7, 8, "
               "22 or 23, or none of its doublewords is left to take.";
    case TOLLPEBBLE_OUTPUT_TOO_SHORT:
        return "The output is too short for what is to be written into it.";
    case TOLLPEBBLE_BAD_LINE:
        return "A line of a capture is not of its form, has more than 8,267 bytes with its newline, "
               "or is the last one and has no newline.";
    case TOLLPEBBLE_TAG_OVER_LIMIT:
        return "The tag is over the limit.";
    case TOLLPEBBLE_TAG_OPEN:
        return "The tag is open already.";
    case TOLLPEBBLE_OVER_MAX_READ_REQUEST:
        return "The read is longer than the maximum read request size.";
    case TOLLPEBBLE_BAD_WINDOW:
        return "The store is over 65,536 bytes, the window does not start at a multiple of 4, or it "
               "runs past the store.";
    case TOLLPEBBLE_WINDOW_OVERLAP:
        return "The window shares a byte with an open read's window.";
    case TOLLPEBBLE_TAG_NOT_OPEN:
        return "The tag is not open.";
    case TOLLPEBBLE_NOT_A_COMPLETION:
        return "The packet is not a completion.";
    case TOLLPEBBLE_UNEXPECTED_COMPLETION:
        return "The completion's requester ID is not the table's, or its tag is not open.";
    case TOLLPEBBLE_CLASS_OR_ATTRIBUTES_DIFFER:
        return "The completion's traffic class or one of its attributes differs from the read's.";
    case TOLLPEBBLE_BAD_COMPLETION_STATUS:
        return "The completion has BCM set, status 010, status 000 without data, or another status "
               "with data.";
    case TOLLPEBBLE_NOT_A_CONTINUATION:
        return "The completion does not legally continue the read: its length, byte count, lower "
               "address or end is not one that can come next.";
    case TOLLPEBBLE_BAD_STORE:
        return "The store is over 65,536 bytes, or too short for the read's window.";
    /* end */
    default:
        return "No number of this library.";
    }
}

#ifdef __cplusplus
}
#endif

#endif
