/* A plain C reader and writer of PCI Express packets, written from document 01 ("Header layout",
 * "Numbers for the packet desk", "Byte enables") and docs/RECORD.md.  See packet_plain.h.
 */
#include "packet_plain.h"

#include <stdbool.h>
#include <string.h>

#include "plain_rules.h"

/* The numbers of document 01. */
enum {
    TOO_SHORT = 1,
    UNKNOWN_KIND = 2,
    WRONG_SIZE = 3,
    TH_OR_AT_SET = 4,
    OVER_MPS = 5,
    BAD_FIELD = 6,
    BAD_ENABLES = 7,
    CROSSES_4K = 8,
    BAD_ROUTING = 9,
    NEEDLESS_64_BIT = 10,
    BAD_SETTING = 11,
    NO_ROOM = 12
};

/* Kinds as the record numbers them: those with data are the even ones. */
enum { NO_KIND, MRD, MWR, IORD, IOWR, CFGRD0, CFGWR0, CFGRD1, CFGWR1, MSG, MSGD, CPL, CPLD };

enum { BY_ADDRESS, BY_ID, TO_ROOT, BROADCAST, LOCAL, GATHERED };

/* Where the fields of a record are. */
enum {
    R_KIND = 0,
    R_TRAFFIC_CLASS = 1,
    R_ATTRIBUTES = 2,
    R_POISONED = 3,
    R_DIGEST_PRESENT = 4,
    R_ROUTE = 5,
    R_TAG = 6,
    R_MESSAGE_CODE = 7,
    R_ROUTE_VALUE = 8,
    R_MESSAGE_BYTES = 16,
    R_DIGEST = 24,
    R_LENGTH = 28,
    R_BYTE_COUNT = 32,
    R_REQUESTER = 36, /* of a completion: the completer */
    R_FIRST_ENABLES = 38,
    R_LAST_ENABLES = 39,
    R_EXTENDED_REGISTER = 40,
    R_REGISTER = 41,
    R_STATUS = 42,
    R_BCM = 43,
    R_LOWER_ADDRESS = 44,
    R_UNUSED = 45 /* three bytes */
};

/* The two bits of Fmt that the kinds in the table use. */
#define FMT_4DW 0x20u
#define FMT_DATA 0x40u

#define HEADER_3DW 12u
#define HEADER_4DW 16u
#define MAX_LENGTH 1024u
#define MAX_BYTE_COUNT 4096u

/* ---------------------------------------------------------------------------------------------
 * Fields
 * ------------------------------------------------------------------------------------------- */

static inline uint32_t load16(const uint8_t *from)
{
    return (uint32_t)from[0] << 8 | (uint32_t)from[1];
}

static inline uint32_t load32(const uint8_t *from)
{
    return (uint32_t)from[0] << 24 | (uint32_t)from[1] << 16 | (uint32_t)from[2] << 8 |
           (uint32_t)from[3];
}

static inline uint64_t load64(const uint8_t *from)
{
    return (uint64_t)load32(from) << 32 | load32(from + 4);
}

static inline void store64(uint8_t *to, uint64_t number)
{
    store32(to, (uint32_t)(number >> 32));
    store32(to + 4, (uint32_t)number);
}

/* ---------------------------------------------------------------------------------------------
 * Rules of both directions
 * ------------------------------------------------------------------------------------------- */

/* Msg and Cpl have no length: the field is reserved there. */
static inline bool has_length(uint32_t kind)
{
    return kind != MSG && kind != CPL;
}

static inline bool has_data(uint32_t kind)
{
    return kind % 2 == 0;
}

/* ---------------------------------------------------------------------------------------------
 * Reading
 * ------------------------------------------------------------------------------------------- */

/* The measures of a packet that rows 1 to 3 let through.  All but the length are in bytes. */
struct frame {
    uint32_t kind;
    uint32_t header;
    uint32_t length; /* in DW; 0 where the kind has none */
    uint32_t data;
    uint32_t digest;
};

static inline uint32_t kind_of(uint8_t byte_0)
{
    switch (byte_0) {
    case 0x00: case 0x20: return MRD;
    case 0x40: case 0x60: return MWR;
    case 0x02: return IORD;
    case 0x42: return IOWR;
    case 0x04: return CFGRD0;
    case 0x44: return CFGWR0;
    case 0x05: return CFGRD1;
    case 0x45: return CFGWR1;
    case 0x30: case 0x31: case 0x32: case 0x33:
    case 0x34: case 0x35: case 0x36: case 0x37: return MSG;
    case 0x70: case 0x71: case 0x72: case 0x73:
    case 0x74: case 0x75: case 0x76: case 0x77: return MSGD;
    case 0x0a: return CPL;
    case 0x4a: return CPLD;
    default: return NO_KIND;
    }
}

/* Length in DW, where 0 means 1024. */
static inline uint32_t length_of(const uint8_t *packet)
{
    uint32_t length = bits(packet[2], 1, 0) << 8 | packet[3];
    return length == 0 ? MAX_LENGTH : length;
}

/* Rows 1 to 3. */
static inline uint32_t measure(const uint8_t *packet, size_t packet_length, struct frame *frame)
{
    if (packet_length < HEADER_3DW)
        return TOO_SHORT;
    frame->kind = kind_of(packet[0]);
    if (frame->kind == NO_KIND)
        return UNKNOWN_KIND;
    frame->header = packet[0] & FMT_4DW ? HEADER_4DW : HEADER_3DW;
    if (packet_length < frame->header)
        return TOO_SHORT;
    frame->length = has_length(frame->kind) ? length_of(packet) : 0;
    frame->data = has_data(frame->kind) ? 4 * frame->length : 0;
    frame->digest = 4 * bits(packet[2], 7, 7);
    if (packet_length != frame->header + frame->data + frame->digest)
        return WRONG_SIZE;
    return 0;
}

static inline bool packet_enables_allowed(const uint8_t *packet, uint32_t length)
{
    return enables_allowed(length, bits(packet[7], 3, 0), bits(packet[7], 7, 4));
}

/* Rows 4, 5, 7, 8 and 10. */
static inline uint32_t memory_fault(const uint8_t *packet, const struct frame *frame, uint32_t mps)
{
    if (bits(packet[1], 0, 0) != 0 || bits(packet[2], 3, 2) != 0)
        return TH_OR_AT_SET;
    if (frame->data > mps)
        return OVER_MPS;
    if (!packet_enables_allowed(packet, frame->length))
        return BAD_ENABLES;
    /* The low two bits are reserved and no part of the address. */
    if (crosses_page(load32(packet + frame->header - 4) & ~3u, frame->length))
        return CROSSES_4K;
    if (frame->header == HEADER_4DW && load32(packet + 8) == 0)
        return NEEDLESS_64_BIT;
    return 0;
}

/* I/O and configuration, rows 5 to 7.  TH and Attr[2] are reserved there, AT is not. */
static inline uint32_t register_fault(const uint8_t *packet, const struct frame *frame, uint32_t mps)
{
    if (frame->data > mps)
        return OVER_MPS;
    if (frame->length != 1 || bits(packet[1], 6, 4) != 0 || bits(packet[2], 5, 2) != 0)
        return BAD_FIELD;
    if (!packet_enables_allowed(packet, frame->length))
        return BAD_ENABLES;
    return 0;
}

/* Rows 5 and 9. */
static inline uint32_t message_fault(const uint8_t *packet, const struct frame *frame, uint32_t mps)
{
    if (frame->data > mps)
        return OVER_MPS;
    if (bits(packet[0], 2, 0) > 5)
        return BAD_ROUTING;
    return 0;
}

/* Rows 4 to 10. */
static inline uint32_t content_fault(const uint8_t *packet, const struct frame *frame, uint32_t mps)
{
    switch (frame->kind) {
    case MRD: case MWR:
        return memory_fault(packet, frame, mps);
    case IORD: case IOWR: case CFGRD0: case CFGWR0: case CFGRD1: case CFGWR1:
        return register_fault(packet, frame, mps);
    case MSG: case MSGD:
        return message_fault(packet, frame, mps);
    default:
        return frame->data > mps ? OVER_MPS : 0;
    }
}

static inline void keep_request(const uint8_t *packet, uint8_t *record)
{
    memcpy(record + R_REQUESTER, packet + 4, 2);
    record[R_TAG] = packet[6];
    record[R_FIRST_ENABLES] = (uint8_t)bits(packet[7], 3, 0);
    record[R_LAST_ENABLES] = (uint8_t)bits(packet[7], 7, 4);
}

static inline void keep_memory(const uint8_t *packet, uint32_t header, uint8_t *record)
{
    uint64_t address = header == HEADER_4DW ? load64(packet + 8) : load32(packet + 8);
    keep_request(packet, record);
    record[R_ROUTE] = BY_ADDRESS;
    store64(record + R_ROUTE_VALUE, address & ~(uint64_t)3);
}

static inline void keep_io(const uint8_t *packet, uint8_t *record)
{
    keep_request(packet, record);
    record[R_ATTRIBUTES] = 0; /* Attr[2] is reserved, the others are 0 by row 6 */
    record[R_ROUTE] = BY_ADDRESS;
    store64(record + R_ROUTE_VALUE, load32(packet + 8) & ~3u);
}

static inline void keep_configuration(const uint8_t *packet, uint8_t *record)
{
    keep_request(packet, record);
    record[R_ATTRIBUTES] = 0; /* as for I/O */
    record[R_ROUTE] = BY_ID;
    store64(record + R_ROUTE_VALUE, load16(packet + 8));
    record[R_EXTENDED_REGISTER] = (uint8_t)bits(packet[10], 3, 0);
    record[R_REGISTER] = (uint8_t)bits(packet[11], 7, 2);
}

static inline void keep_message(const uint8_t *packet, uint8_t *record)
{
    memcpy(record + R_REQUESTER, packet + 4, 2);
    record[R_TAG] = packet[6];
    record[R_MESSAGE_CODE] = packet[7];
    memcpy(record + R_MESSAGE_BYTES, packet + 8, 8);
    switch (bits(packet[0], 2, 0)) {
    case 0:
        record[R_ROUTE] = TO_ROOT;
        break;
    case 1:
        record[R_ROUTE] = BY_ADDRESS;
        memcpy(record + R_ROUTE_VALUE, packet + 8, 8);
        break;
    case 2:
        record[R_ROUTE] = BY_ID;
        store64(record + R_ROUTE_VALUE, load16(packet + 8));
        break;
    case 3:
        record[R_ROUTE] = BROADCAST;
        break;
    case 4:
        record[R_ROUTE] = LOCAL;
        break;
    default: /* 5: row 9 refused the others */
        record[R_ROUTE] = GATHERED;
        break;
    }
}

static inline void keep_completion(const uint8_t *packet, uint8_t *record)
{
    uint32_t count = bits(packet[6], 3, 0) << 8 | packet[7];
    memcpy(record + R_REQUESTER, packet + 4, 2);
    record[R_STATUS] = (uint8_t)bits(packet[6], 7, 5);
    record[R_BCM] = (uint8_t)bits(packet[6], 4, 4);
    store32(record + R_BYTE_COUNT, count == 0 ? MAX_BYTE_COUNT : count);
    record[R_ROUTE] = BY_ID;
    store64(record + R_ROUTE_VALUE, load16(packet + 8));
    record[R_TAG] = packet[10];
    record[R_LOWER_ADDRESS] = (uint8_t)bits(packet[11], 6, 0);
}

static inline void keep_packet(const uint8_t *packet, const struct frame *frame, uint8_t *record)
{
    memset(record, 0, PLAIN_RECORD_SIZE);
    record[R_KIND] = (uint8_t)frame->kind;
    record[R_TRAFFIC_CLASS] = (uint8_t)bits(packet[1], 6, 4);
    record[R_ATTRIBUTES] = (uint8_t)(bits(packet[1], 2, 2) << 2 | bits(packet[2], 5, 4));
    record[R_POISONED] = (uint8_t)bits(packet[2], 6, 6);
    record[R_DIGEST_PRESENT] = (uint8_t)bits(packet[2], 7, 7);
    store32(record + R_LENGTH, frame->length);
    if (frame->digest != 0)
        memcpy(record + R_DIGEST, packet + frame->header + frame->data, 4);
    switch (frame->kind) {
    case MRD: case MWR:
        keep_memory(packet, frame->header, record);
        break;
    case IORD: case IOWR:
        keep_io(packet, record);
        break;
    case CFGRD0: case CFGWR0: case CFGRD1: case CFGWR1:
        keep_configuration(packet, record);
        break;
    case MSG: case MSGD:
        keep_message(packet, record);
        break;
    default:
        keep_completion(packet, record);
        break;
    }
}

uint32_t plain_read(uint32_t mps, uint32_t mrrs, uint32_t rcb,
                    const uint8_t *packet, size_t packet_length,
                    uint8_t *record, size_t record_length)
{
    struct frame frame;
    if (!settings_allowed(mps, mrrs, rcb))
        return BAD_SETTING;
    uint32_t fault = measure(packet, packet_length, &frame);
    if (fault != 0)
        return fault;
    fault = content_fault(packet, &frame, mps);
    if (fault != 0)
        return fault;
    if (record_length < PLAIN_RECORD_SIZE)
        return NO_ROOM;
    keep_packet(packet, &frame, record);
    return 0;
}

/* ---------------------------------------------------------------------------------------------
 * Writing: is this a record of a packet that can be written (the first 6)
 * ------------------------------------------------------------------------------------------- */

static inline bool no_message_fields(const uint8_t *record)
{
    return record[R_MESSAGE_CODE] == 0 && load64(record + R_MESSAGE_BYTES) == 0;
}

static inline bool no_enables(const uint8_t *record)
{
    return (record[R_FIRST_ENABLES] | record[R_LAST_ENABLES]) == 0;
}

static inline bool no_registers(const uint8_t *record)
{
    return (record[R_EXTENDED_REGISTER] | record[R_REGISTER]) == 0;
}

static inline bool no_completion_fields(const uint8_t *record)
{
    return load32(record + R_BYTE_COUNT) == 0 &&
           (record[R_STATUS] | record[R_BCM] | record[R_LOWER_ADDRESS]) == 0;
}

/* What every kind has, and the bytes that none has. */
static inline bool common_allowed(const uint8_t *record)
{
    uint32_t kind = record[R_KIND];
    uint32_t length = load32(record + R_LENGTH);
    if (kind < MRD || kind > CPLD)
        return false;
    if (has_length(kind) ? length < 1 || length > MAX_LENGTH : length != 0)
        return false;
    if (record[R_DIGEST_PRESENT] == 0 && load32(record + R_DIGEST) != 0)
        return false;
    return record[R_TRAFFIC_CLASS] <= 7 && record[R_ATTRIBUTES] <= 7 && record[R_POISONED] <= 1 &&
           record[R_DIGEST_PRESENT] <= 1 &&
           (record[R_UNUSED] | record[R_UNUSED + 1] | record[R_UNUSED + 2]) == 0;
}

/* What memory, I/O and configuration requests have in common. */
static inline bool request_allowed(const uint8_t *record)
{
    return record[R_FIRST_ENABLES] <= 0xf && record[R_LAST_ENABLES] <= 0xf &&
           no_message_fields(record) && no_completion_fields(record);
}

static inline bool memory_allowed(const uint8_t *record)
{
    return record[R_ROUTE] == BY_ADDRESS && load64(record + R_ROUTE_VALUE) % 4 == 0 &&
           request_allowed(record) && no_registers(record);
}

/* Attr[2] is reserved for I/O and configuration, so attributes end at 3. */
static inline bool io_allowed(const uint8_t *record)
{
    uint64_t address = load64(record + R_ROUTE_VALUE);
    return record[R_ROUTE] == BY_ADDRESS && address <= UINT32_MAX && address % 4 == 0 &&
           record[R_ATTRIBUTES] <= 3 && request_allowed(record) && no_registers(record);
}

static inline bool configuration_allowed(const uint8_t *record)
{
    return record[R_ROUTE] == BY_ID && load64(record + R_ROUTE_VALUE) <= UINT16_MAX &&
           record[R_ATTRIBUTES] <= 3 && request_allowed(record) &&
           record[R_EXTENDED_REGISTER] <= 0xf && record[R_REGISTER] <= 0x3f;
}

/* An address or ID of a message stands in its bytes 8 to 15 too, and must be the same there. */
static inline bool message_route_allowed(const uint8_t *record)
{
    uint64_t value = load64(record + R_ROUTE_VALUE);
    switch (record[R_ROUTE]) {
    case BY_ADDRESS:
        return value == load64(record + R_MESSAGE_BYTES);
    case BY_ID:
        return value == load16(record + R_MESSAGE_BYTES);
    case TO_ROOT: case BROADCAST: case LOCAL: case GATHERED:
        return value == 0;
    default:
        return false;
    }
}

static inline bool message_allowed(const uint8_t *record)
{
    return message_route_allowed(record) && no_enables(record) && no_registers(record) &&
           no_completion_fields(record);
}

static inline bool completion_allowed(const uint8_t *record)
{
    uint32_t count = load32(record + R_BYTE_COUNT);
    return record[R_ROUTE] == BY_ID && load64(record + R_ROUTE_VALUE) <= UINT16_MAX &&
           count >= 1 && count <= MAX_BYTE_COUNT && record[R_STATUS] <= 7 && record[R_BCM] <= 1 &&
           record[R_LOWER_ADDRESS] <= 0x7f && no_message_fields(record) && no_enables(record) &&
           no_registers(record);
}

static inline bool record_allowed(const uint8_t *record)
{
    if (!common_allowed(record))
        return false;
    switch (record[R_KIND]) {
    case MRD: case MWR:
        return memory_allowed(record);
    case IORD: case IOWR:
        return io_allowed(record);
    case CFGRD0: case CFGWR0: case CFGRD1: case CFGWR1:
        return configuration_allowed(record);
    case MSG: case MSGD:
        return message_allowed(record);
    default:
        return completion_allowed(record);
    }
}

/* ---------------------------------------------------------------------------------------------
 * Writing: the other rows, and the packet
 * ------------------------------------------------------------------------------------------- */

/* Rows 5 to 8, with the second 6.  4, 9 and 10 cannot come up: a record holds no TH, no AT, no
 * routing 110 or 111 and no choice of memory form. */
static inline uint32_t record_fault(const uint8_t *record, uint32_t length, uint32_t data,
                                    uint32_t mps)
{
    uint32_t kind = record[R_KIND];
    if (data > mps)
        return OVER_MPS;
    if (kind > CFGWR1)
        return 0;
    if (kind > MWR &&
        (length != 1 || record[R_TRAFFIC_CLASS] != 0 || record[R_ATTRIBUTES] != 0))
        return BAD_FIELD;
    if (!enables_allowed(length, record[R_FIRST_ENABLES], record[R_LAST_ENABLES]))
        return BAD_ENABLES;
    if (kind <= MWR && crosses_page(load32(record + R_ROUTE_VALUE + 4), length))
        return CROSSES_4K;
    return 0;
}

/* Messages, and memory requests to 4 GiB and above. */
static inline bool takes_4dw(const uint8_t *record)
{
    uint32_t kind = record[R_KIND];
    return kind == MSG || kind == MSGD || (kind <= MWR && load32(record + R_ROUTE_VALUE) != 0);
}

static inline uint32_t routing_of(uint8_t route)
{
    switch (route) {
    case TO_ROOT: return 0;
    case BY_ADDRESS: return 1;
    case BY_ID: return 2;
    case BROADCAST: return 3;
    case LOCAL: return 4;
    default: return 5;
    }
}

/* The Type field, bits 4:0 of byte 0. */
static inline uint32_t type_of(const uint8_t *record)
{
    switch (record[R_KIND]) {
    case MRD: case MWR: return 0x00;
    case IORD: case IOWR: return 0x02;
    case CFGRD0: case CFGWR0: return 0x04;
    case CFGRD1: case CFGWR1: return 0x05;
    case MSG: case MSGD: return 0x10 | routing_of(record[R_ROUTE]);
    default: return 0x0a;
    }
}

/* Bytes 0 to 3.  A length of 1024 has the field 0, as Msg and Cpl have. */
static inline void put_first_dw(const uint8_t *record, uint32_t header, uint32_t length, uint8_t *out)
{
    uint32_t format = (header == HEADER_4DW ? FMT_4DW : 0) | (has_data(record[R_KIND]) ? FMT_DATA : 0);
    uint32_t attributes = record[R_ATTRIBUTES];
    out[0] = (uint8_t)(format | type_of(record));
    out[1] = (uint8_t)((uint32_t)record[R_TRAFFIC_CLASS] << 4 | (attributes & 4));
    out[2] = (uint8_t)((uint32_t)record[R_DIGEST_PRESENT] << 7 | (uint32_t)record[R_POISONED] << 6 |
                       (attributes & 3) << 4 | (length >> 8 & 3));
    out[3] = (uint8_t)length;
}

static inline void put_request(const uint8_t *record, uint8_t *out)
{
    memcpy(out + 4, record + R_REQUESTER, 2);
    out[6] = record[R_TAG];
    out[7] = (uint8_t)((uint32_t)record[R_LAST_ENABLES] << 4 | record[R_FIRST_ENABLES]);
}

static inline void put_memory(const uint8_t *record, uint32_t header, uint8_t *out)
{
    put_request(record, out);
    if (header == HEADER_4DW)
        memcpy(out + 8, record + R_ROUTE_VALUE, 8);
    else
        memcpy(out + 8, record + R_ROUTE_VALUE + 4, 4);
}

static inline void put_io(const uint8_t *record, uint8_t *out)
{
    put_request(record, out);
    memcpy(out + 8, record + R_ROUTE_VALUE + 4, 4);
}

static inline void put_configuration(const uint8_t *record, uint8_t *out)
{
    put_request(record, out);
    memcpy(out + 8, record + R_ROUTE_VALUE + 6, 2);
    out[10] = record[R_EXTENDED_REGISTER];
    out[11] = (uint8_t)((uint32_t)record[R_REGISTER] << 2);
}

static inline void put_message(const uint8_t *record, uint8_t *out)
{
    memcpy(out + 4, record + R_REQUESTER, 2);
    out[6] = record[R_TAG];
    out[7] = record[R_MESSAGE_CODE];
    memcpy(out + 8, record + R_MESSAGE_BYTES, 8);
}

/* A Byte Count of 4096 has the field 0. */
static inline void put_completion(const uint8_t *record, uint8_t *out)
{
    uint32_t count = load32(record + R_BYTE_COUNT);
    memcpy(out + 4, record + R_REQUESTER, 2);
    out[6] = (uint8_t)((uint32_t)record[R_STATUS] << 5 | (uint32_t)record[R_BCM] << 4 |
                       (count >> 8 & 0xf));
    out[7] = (uint8_t)count;
    memcpy(out + 8, record + R_ROUTE_VALUE + 6, 2);
    out[10] = record[R_TAG];
    out[11] = record[R_LOWER_ADDRESS];
}

static inline void put_header(const uint8_t *record, uint32_t header, uint32_t length, uint8_t *out)
{
    put_first_dw(record, header, length, out);
    switch (record[R_KIND]) {
    case MRD: case MWR:
        put_memory(record, header, out);
        break;
    case IORD: case IOWR:
        put_io(record, out);
        break;
    case CFGRD0: case CFGWR0: case CFGRD1: case CFGWR1:
        put_configuration(record, out);
        break;
    case MSG: case MSGD:
        put_message(record, out);
        break;
    default:
        put_completion(record, out);
        break;
    }
}

uint32_t plain_write(uint32_t mps, uint32_t mrrs, uint32_t rcb,
                     const uint8_t *record, size_t record_length,
                     const uint8_t *payload, size_t payload_length,
                     uint8_t *out, size_t out_length, uint64_t *size)
{
    if (!settings_allowed(mps, mrrs, rcb))
        return BAD_SETTING;
    if (record_length != PLAIN_RECORD_SIZE || !record_allowed(record))
        return BAD_FIELD;
    uint32_t length = load32(record + R_LENGTH);
    uint32_t data = has_data(record[R_KIND]) ? 4 * length : 0;
    if (payload_length != data)
        return WRONG_SIZE;
    uint32_t fault = record_fault(record, length, data, mps);
    if (fault != 0)
        return fault;
    uint32_t header = takes_4dw(record) ? HEADER_4DW : HEADER_3DW;
    uint32_t digest = 4 * (uint32_t)record[R_DIGEST_PRESENT];
    uint32_t total = header + data + digest;
    if (out_length < total)
        return NO_ROOM;
    put_header(record, header, length, out);
    if (data != 0)
        memcpy(out + header, payload, data);
    if (digest != 0)
        memcpy(out + header + data, record + R_DIGEST, 4);
    *size = total;
    return 0;
}
