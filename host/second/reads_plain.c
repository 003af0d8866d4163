/* Plain C tables of open memory reads, written from document 01 ("Reads: opening and continuing",
 * "Byte enables").  One source for slots and for a set of tags; see reads_plain.h.
 */
#include "reads_plain.h"

#include <string.h>

#include "packet_plain.h"
#include "plain_rules.h"

/* ---- settings and byte enables */

static bool settings_listed(const struct plain_table *table)
{
    return settings_allowed(table->mps, table->mrrs, table->rcb);
}

static uint32_t off_of(const struct plain_request *request)
{
    return request->first == 0 ? 0 : (uint32_t)__builtin_ctz(request->first);
}

/* Those of the last doubleword. */
static uint32_t last_enables(const struct plain_request *request)
{
    return request->length == 1 ? request->first : request->last;
}

static uint32_t trail_of(const struct plain_request *request)
{
    uint32_t enables = last_enables(request);
    return enables == 0 ? 3 : (uint32_t)__builtin_clz(enables) - 28;
}

/* ---- rules of a read */

/* 6, 7 and 8. */
static inline uint32_t request_fault(const struct plain_request *request)
{
    if ((request->traffic_class | request->attributes) > 7 || (request->first | request->last) > 15 ||
        request->length < 1 || request->length > 1024 || request->address % 4 != 0)
        return 6;
    if (!enables_allowed(request->length, request->first, request->last))
        return 7;
    if (crosses_page((uint32_t)request->address, request->length))
        return 8;
    return 0;
}

/* Whether a store of `room` bytes is within its limit and holds the window. */
static inline bool window_fits(const struct plain_request *request, uint64_t room)
{
    uint64_t size = 4 * (uint64_t)request->length;
    return room <= PLAIN_STORE_MOST && size <= room && request->start <= room - size;
}

/* 22 and 23. */
static inline uint32_t place_fault(const struct plain_request *request, uint32_t mrrs, uint64_t room)
{
    if (4 * (uint64_t)request->length > mrrs)
        return 22;
    if (request->start % 4 != 0 || !window_fits(request, room))
        return 23;
    return 0;
}

/* Windows that touch share no byte; a difference below 0 wraps past every size. */
static bool shares_byte(const struct plain_request *a, const struct plain_request *b)
{
    return a->start - b->start < 4 * (uint64_t)b->length || b->start - a->start < 4 * (uint64_t)a->length;
}

/* ---- scans */

/* Open would not refuse the record, and it is not taken whole. */
static inline bool slot_valid(const struct plain_slot *slot, uint32_t mrrs)
{
    return request_fault(&slot->request) == 0 &&
           place_fault(&slot->request, mrrs, PLAIN_STORE_MOST) == 0 &&
           slot->taken < slot->request.length;
}

/* What 11 denies. */
static bool table_valid(const struct plain_table *table)
{
    if (!settings_listed(table))
        return false;
    const struct plain_slot *slot;
    for (struct plain_walk walk = walk_over(&table->reads); (slot = next_open(&walk)) != NULL;)
        if (!slot_valid(slot, table->mrrs))
            return false;
    return true;
}

/* 24. */
static bool window_taken(const struct plain_table *table, const struct plain_request *request)
{
    const struct plain_slot *slot;
    for (struct plain_walk walk = walk_over(&table->reads); (slot = next_open(&walk)) != NULL;)
        if (shares_byte(request, &slot->request))
            return true;
    return false;
}

static uint64_t doublewords_owed(const struct plain_table *table)
{
    uint64_t owed = 0;
    const struct plain_slot *slot;
    for (struct plain_walk walk = walk_over(&table->reads); (slot = next_open(&walk)) != NULL;)
        owed += slot->request.length - slot->taken;
    return owed;
}

/* ---- a request's header */

static void put_header(const struct plain_table *table, const struct plain_request *request,
                       uint32_t tag, bool wide, uint8_t *out)
{
    uint32_t attributes = request->attributes;
    store32(out, (wide ? 0x20000000u : 0) | (uint32_t)request->traffic_class << 20 |
                     (attributes & 4) << 16 | (attributes & 3) << 12 | (request->length & 1023));
    store32(out + 4, (uint32_t)table->requester << 16 | tag << 8 | (uint32_t)request->last << 4 |
                         request->first);
    if (wide) {
        store32(out + 8, (uint32_t)(request->address >> 32));
        out += 4;
    }
    store32(out + 8, (uint32_t)request->address);
}

/* ---- a completion */

struct piece {
    uint32_t requester, tag, traffic_class, attributes, status, byte_count, lower_address, length;
    bool with_data, poisoned, modified, digest;
};

static struct piece piece_of(const uint8_t *packet)
{
    struct piece piece;
    uint32_t length = bits(packet[2], 1, 0) << 8 | packet[3];
    uint32_t count = bits(packet[6], 3, 0) << 8 | packet[7];
    piece.with_data = packet[0] == 0x4a;
    piece.length = !piece.with_data ? 0 : length == 0 ? 1024 : length;
    piece.traffic_class = bits(packet[1], 6, 4);
    piece.attributes = bits(packet[1], 2, 2) << 2 | bits(packet[2], 5, 4);
    piece.digest = bits(packet[2], 7, 7);
    piece.poisoned = bits(packet[2], 6, 6);
    piece.status = bits(packet[6], 7, 5);
    piece.modified = bits(packet[6], 4, 4);
    piece.byte_count = count == 0 ? 4096 : count;
    piece.requester = (uint32_t)packet[8] << 8 | packet[9];
    piece.tag = packet[10];
    piece.lower_address = bits(packet[11], 6, 0);
    return piece;
}

/* The reader's number for a completion whose first 12 bytes are there. */
static uint32_t completion_fault(const struct piece *piece, size_t packet_length, uint32_t mps)
{
    if (packet_length != 12 + 4 * (size_t)piece->length + (piece->digest ? 4 : 0))
        return 3;
    return 4 * piece->length > mps ? 5 : 0;
}

/* RCB is a power of two in a valid table. */
static bool continues(const struct plain_slot *slot, const struct piece *piece, uint32_t rcb)
{
    const struct plain_request *request = &slot->request;
    uint32_t left = request->length - slot->taken;
    uint64_t place = request->address + 4 * (uint64_t)slot->taken;
    uint32_t off = slot->taken == 0 ? off_of(request) : 0;
    return piece->length >= 1 && piece->length <= left &&
           piece->byte_count == 4 * left - trail_of(request) - off &&
           piece->lower_address == (place + off) % 128 &&
           (piece->length == left || ((place + 4 * (uint64_t)piece->length) & (rcb - 1)) == 0);
}

static void put_doubleword(uint32_t enables, const uint8_t *from, uint8_t *to)
{
    for (int i = 0; i < 4; i++)
        if (enables >> i & 1)
            to[i] = from[i];
}

/* A first or last doubleword of the read that has bytes disabled goes by its enables; the rest is copied. */
static void put_piece(const struct plain_slot *slot, const uint8_t *payload, uint32_t length,
                      uint8_t *store)
{
    const struct plain_request *request = &slot->request;
    uint8_t *to = store + request->start + 4 * (uint64_t)slot->taken;
    uint32_t from = 0, until = length;
    if (slot->taken == 0 && request->first != 15) {
        put_doubleword(request->first, payload, to);
        from = 1;
    }
    if (slot->taken + length == request->length && last_enables(request) != 15 && until > from) {
        until--;
        put_doubleword(request->last, payload + 4 * until, to + 4 * until);
    }
    memcpy(to + 4 * from, payload + 4 * from, 4 * (until - from));
}

/* ---- calls */

uint32_t plain_make(struct plain_table *table, uint32_t mps, uint32_t mrrs, uint32_t rcb,
                    uint16_t requester)
{
    memset(table, 0, sizeof *table);
    plain_put_settings(table, mps, mrrs, rcb);
    table->requester = requester;
    return settings_listed(table) ? 0 : 11;
}

uint32_t plain_open(struct plain_table *table, const struct plain_request *request, uint32_t tag,
                    size_t store_length, uint8_t *out, size_t out_length)
{
    if (!table_valid(table))
        return 11;
    uint32_t fault = request_fault(request);
    if (fault != 0)
        return fault;
    if (tag >= PLAIN_TAGS)
        return 20;
    if (is_open(&table->reads, tag))
        return 21;
    fault = place_fault(request, table->mrrs, store_length);
    if (fault != 0)
        return fault;
    if (window_taken(table, request))
        return 24;
    bool wide = request->address >> 32 != 0;
    if (out_length < (wide ? 16 : 12))
        return 12;
    put_header(table, request, tag, wide, out);
    plain_force(table, tag, request, 0);
    return 0;
}

static struct plain_answer refused(uint32_t number)
{
    return (struct plain_answer){PLAIN_REFUSED, number};
}

struct plain_answer plain_take(struct plain_table *table, const uint8_t *packet, size_t packet_length,
                               uint8_t *store, size_t store_length)
{
    uint8_t record[PLAIN_RECORD_SIZE];
    if (!table_valid(table))
        return refused(11);
    if (packet_length < 12 || (packet[0] != 0x0a && packet[0] != 0x4a)) {
        uint32_t fault = plain_read(table->mps, table->mrrs, table->rcb, packet, packet_length,
                                    record, sizeof record);
        return refused(fault != 0 ? fault : 29);
    }
    struct piece piece = piece_of(packet);
    uint32_t fault = completion_fault(&piece, packet_length, table->mps);
    if (fault != 0)
        return refused(fault);
    if (piece.requester != table->requester || piece.tag >= PLAIN_TAGS ||
        !is_open(&table->reads, piece.tag))
        return refused(30);
    struct plain_slot *slot = &table->reads.slots[piece.tag];
    if (piece.traffic_class != slot->request.traffic_class ||
        piece.attributes != slot->request.attributes)
        return refused(31);
    if (piece.modified || piece.status == 2 || (piece.status == 0) != piece.with_data)
        return refused(32);
    if (piece.status != 0) {
        set_closed(&table->reads, piece.tag);
        return (struct plain_answer){PLAIN_FAILED, piece.status == 4 ? 4 : 1};
    }
    if (!continues(slot, &piece, table->rcb))
        return refused(33);
    if (!window_fits(&slot->request, store_length))
        return refused(34);
    if (piece.poisoned) {
        set_closed(&table->reads, piece.tag);
        return (struct plain_answer){PLAIN_POISONED, 0};
    }
    put_piece(slot, packet + 12, piece.length, store);
    slot->taken += piece.length;
    if (slot->taken < slot->request.length)
        return (struct plain_answer){PLAIN_MORE, 0};
    set_closed(&table->reads, piece.tag);
    return (struct plain_answer){PLAIN_DONE, 0};
}

uint32_t plain_withdraw(struct plain_table *table, uint32_t tag)
{
    if (!table_valid(table))
        return 11;
    if (tag >= PLAIN_TAGS)
        return 20;
    if (!is_open(&table->reads, tag))
        return 25;
    set_closed(&table->reads, tag);
    return 0;
}

uint32_t plain_owed(const struct plain_table *table, uint64_t *owed)
{
    if (!table_valid(table))
        return 11;
    *owed = doublewords_owed(table);
    return 0;
}

/* ---- tables by hand */

size_t plain_size(void)
{
    return sizeof(struct plain_table);
}

void plain_put_settings(struct plain_table *table, uint32_t mps, uint32_t mrrs, uint32_t rcb)
{
    table->mps = mps;
    table->mrrs = mrrs;
    table->rcb = rcb;
}

bool plain_record(const struct plain_table *table, uint32_t tag, struct plain_request *request,
                  uint32_t *taken)
{
    const struct plain_slot *slot = &table->reads.slots[tag];
    *request = slot->request;
    *taken = slot->taken;
    return is_open(&table->reads, tag);
}

void plain_force(struct plain_table *table, uint32_t tag, const struct plain_request *request,
                 uint32_t taken)
{
    struct plain_slot *slot = &table->reads.slots[tag];
    slot->request = *request;
    slot->taken = taken;
    set_open(&table->reads, tag);
}
