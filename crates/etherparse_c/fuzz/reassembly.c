/* fuzz COUNT SECONDS [SEED]: calls every function of the library on COUNT inputs, for SECONDS at most, and compares each answer
 * with that of the reference.
 *
 * An input is a fragment for one datagram, and a packet for a pool of a few slots: a piece of one of a few datagrams that are cut
 * anew again and again, or one that is altered, repeated, cut off or damaged. Packets, states and all memory that the library is
 * lent end at pages that cannot be read. */

#define _DEFAULT_SOURCE
#include "fuzz.h"
#include "reference_reassembly.h"

#include <stdio.h>
#include <stdlib.h>
#include <string.h>
#include <time.h>
#include <unistd.h>

enum { PAGE = 4096, ROOM = 24 * PAGE, FLOWS = 6, MOST_SLOTS = 4, MOST_CUTS = 10 };

static uint8_t *packet_end;
static uint8_t *out_end;
static unsigned long long completed = 0;
static unsigned long long discarded = 0;
static unsigned long long refused = 0;

static uint8_t *room_end(void)
{
    return guarded_page(ROOM) + ROOM;
}

static bool same(struct etherparse_defrag_error a, struct etherparse_defrag_error b)
{
    return a.kind == b.kind && a.offset == b.offset && a.len == b.len;
}

/* A datagram, and where it is cut into pieces. */
struct cut {
    uint8_t bytes[MOST_BYTES + 16];
    size_t len;
    size_t count;
    size_t places[MOST_CUTS + 2]; /* from 0 to the length, in multiples of 8 bytes but for the last */
};

static void make_cut(struct cut *cut)
{
    size_t units = below(64) == 0 ? 1 + below(8191) : 1 + below(12), at = 0;
    cut->len = 8 * units - (below(2) == 0 ? 0 : below(8));
    if (below(256) == 0)
        cut->len = MOST_BYTES - below(60);
    units = (cut->len + 7) / 8;
    for (size_t i = 0; i < cut->len; i += 8)
        put(cut->bytes + i, 8, next_random());
    cut->places[0] = 0;
    cut->count = 0;
    for (size_t wanted = 1 + below(MOST_CUTS < units ? MOST_CUTS : units); at < units && cut->count < MOST_CUTS;) {
        at += cut->count + 1 == wanted ? units - at : 1 + below(1 + 2 * units / wanted);
        cut->places[++cut->count] = at < units ? 8 * at : cut->len;
    }
    cut->places[cut->count] = cut->len;
}

/* A piece of it, or something like it. */
struct part_of {
    size_t offset;
    bool more;
    size_t len;
    uint8_t *bytes;
};

static void alter(struct part_of *part, const struct cut *cut)
{
    switch (below(8)) {
    case 0:
        part->more = !part->more;
        break;
    case 1:
        part->offset = below(4) == 0 ? below(65536) : (size_t)some_number(8191);
        break;
    case 2:
        part->len = below(part->len + 1);
        break;
    case 3:
        part->offset += 1;
        break;
    case 4:
        part->len += part->len < MOST_BYTES ? 1 + below(8) : 0;
        break;
    case 5:
        part->offset = cut->len / 8 + below(4);
        break;
    case 6:
        part->len = 0;
        break;
    default:
        break;
    }
}

/* The bytes of a fragment are those at its place in the datagram, as far as they are there, or one of them is another. */
static struct part_of make_part(const struct cut *cut, uint8_t *end)
{
    size_t which = below(cut->count), start = cut->places[which];
    struct part_of part = {start / 8, which + 1 < cut->count, cut->places[which + 1] - start, NULL};
    bool is_altered = below(24) == 0;
    if (is_altered)
        alter(&part, cut);
    start = 8 * part.offset;
    part.bytes = end - part.len;
    for (size_t i = 0; i < part.len; i++)
        part.bytes[i] = start + i < cut->len ? cut->bytes[start + i] : (uint8_t)i;
    if (is_altered && part.len > 0 && below(2) == 0)
        part.bytes[below(part.len)] ^= 1;
    return part;
}

/* ---- one datagram */

static struct map map;
static struct etherparse_defrag_buf buf;
static uint8_t *buf_memory;
static uint8_t *payload_end;

static void check_datagram(void)
{
    static uint8_t before[MOST_BYTES + 64];
    uint32_t state = map_state(&map);
    size_t len = state == ETHERPARSE_DEFRAG_COMPLETE ? map.end : 0, room = len + below(40);
    expect(etherparse_defrag_buf_datagram_state(&buf) == state, "buf_datagram_state");
    if (below(4) == 0)
        room = below(room + 1);
    uint8_t *out = out_end - room;
    memset(out, (int)below(256), room);
    memcpy(before, out, room);
    if (len <= room)
        memcpy(before, map.bytes, len);
    expect(etherparse_defrag_buf_datagram(&buf, room == 0 ? NULL : out, room) == len, "buf_datagram: its length");
    expect(memcmp(out, before, room) == 0, "buf_datagram: its bytes");
    completed += state == ETHERPARSE_DEFRAG_COMPLETE;
    discarded += state == ETHERPARSE_DEFRAG_DISCARDED;
}

static void check_buf(void)
{
    static struct cut cut;
    static bool is_made = false;
    if (!is_made || below(20) == 0) {
        make_cut(&cut);
        if (!is_made || below(64) == 0) {
            fill(buf_memory, below(2) == 0 ? 0 : ETHERPARSE_DEFRAG_BUF_MEMORY);
            etherparse_defrag_buf_new(buf.state, buf_memory, ETHERPARSE_DEFRAG_BUF_MEMORY);
        } else {
            etherparse_defrag_buf_clear(&buf);
        }
        is_made = true;
        map_clear(&map);
        check_datagram();
    }
    struct part_of part = make_part(&cut, payload_end);
    packet = part.bytes;
    packet_len = part.len;
    struct etherparse_defrag_error want = map_add(&map, part.offset, part.more, part.bytes, part.len);
    struct etherparse_defrag_error got =
        etherparse_defrag_buf_add(&buf, (uint16_t)part.offset, part.more, part.len == 0 ? NULL : part.bytes, part.len);
    expect(same(got, want), "buf_add: error");
    refused += want.kind != ETHERPARSE_DEFRAG_OK;
    check_datagram();
}

/* ---- a pool */

/* Packets of one id, and the datagram that they are cut from. */
struct flow {
    struct cut cut;
    uint8_t version;
    uint8_t number; /* of what is fragmented */
    uint8_t addresses[32];
    uint32_t identification;
    uint32_t vlan_ids[2];
    uint8_t codepoint; /* the ECN of most of them */
};

/* What a slot of the pool should hold. */
struct held {
    bool is_taken;
    bool is_released; /* and not taken since: it has no datagram whose packet could be asked for */
    struct etherparse_frag_id id;
    uint64_t since;
    bool has_headers;
    uint8_t headers[MOST_HEADERS];
    struct fragment first;
    struct map map;
};

static struct flow flows[FLOWS];
static struct held held[MOST_SLOTS];
static struct etherparse_defrag_slot *slots;
static uint8_t *slot_memory[MOST_SLOTS];
static struct etherparse_defrag_pool pool;
static size_t slot_count;
static uint64_t timeout;
static uint64_t now;

static void make_flow(struct flow *flow)
{
    static const uint8_t numbers[] = {17, 6, 58, 1, 59, 60, 0, 44, 50, 4, 41};
    make_cut(&flow->cut);
    flow->version = below(2) == 0 ? 4 : 6;
    flow->number = numbers[below(11)];
    flow->codepoint = (uint8_t)below(4);
    /* Ids differ in one thing or another. */
    memset(flow->addresses, 0, 32);
    flow->addresses[below(32)] = (uint8_t)below(2);
    flow->identification = (uint32_t)below(2) << below(32);
    flow->vlan_ids[0] = below(3) == 0 ? (uint32_t)below(3) : 65536;
    flow->vlan_ids[1] = below(3) == 0 ? (uint32_t)below(3) : below(2) == 0 ? 65536 : (uint32_t)some_number(UINT32_MAX);
    if (flow->number == 60 && flow->cut.len >= 8) {
        flow->cut.bytes[0] = 17;
        flow->cut.bytes[1] = (uint8_t)below(3);
    }
    if (flow->number == 44 && flow->cut.len >= 8)
        put(flow->cut.bytes + 2, 2, below(3));
    if (flow->number == 6 && flow->cut.len >= 20)
        flow->cut.bytes[12] = (uint8_t)(16 * below(16));
}

/* The extension headers before a fragment header, which names what follows. */
static size_t make_unfragmentable(uint8_t *at, uint8_t *naming)
{
    static const uint8_t numbers[] = {0, 43, 60, 51, 135, 44};
    size_t len = 0, count = below(3) == 0 ? below(4) : 0;
    if (below(256) == 0)
        count = 60 + below(120);
    for (; count > 0; count--) {
        uint8_t number = numbers[below(6)], words = (uint8_t)(number == 44 ? 0 : below(2));
        size_t header = number == 51 ? 4 * ((size_t)words + 2) : 8 * ((size_t)words + 1);
        fill(at + len, header);
        *naming = number;
        naming = at + len;
        at[len + 1] = words;
        if (number == 44)
            put(at + len + 2, 2, 2 * below(4)); /* atomic */
        len += header;
    }
    *naming = 44;
    return len;
}

/* The ECN codepoint of a packet of a flow: now and then another one, as a router sets CE. */
static uint8_t codepoint_of(const struct flow *flow)
{
    return below(16) == 0 ? 3 : below(64) == 0 ? (uint8_t)below(4) : flow->codepoint;
}

static size_t make_ipv4_fragment(uint8_t *at, const struct flow *flow, const struct part_of *part)
{
    size_t header = make_ipv4(at);
    put(at + 2, 2, header + part->len);
    put(at + 4, 2, flow->identification);
    put(at + 6, 2, (next_random() & 0xc000) | (part->more ? 0x2000 : 0) | (part->offset & 0x1fff));
    at[1] = (uint8_t)((at[1] & 0xfc) | codepoint_of(flow));
    at[9] = flow->number;
    memcpy(at + 12, flow->addresses, 8);
    return header;
}

static size_t make_ipv6_fragment(uint8_t *at, const struct flow *flow, const struct part_of *part)
{
    size_t len = make_ipv6(at, 44);
    len += make_unfragmentable(at + len, at + 6);
    memcpy(at + 8, flow->addresses, 32);
    at[1] = (uint8_t)((at[1] & 0xcf) | codepoint_of(flow) << 4);
    at[len] = flow->number;
    at[len + 1] = (uint8_t)next_random();
    put(at + len + 2, 2, part->offset << 3 | below(4) << 1 | part->more);
    put(at + len + 4, 4, flow->identification);
    put(at + 4, 2, len - 32 + part->len);
    return len + 8;
}

/* A packet with a piece of a flow's datagram, and its length. */
static size_t make_fragment(uint8_t *at, const struct flow *flow)
{
    static uint8_t bytes[2 * MOST_BYTES];
    struct part_of part = make_part(&flow->cut, bytes + sizeof bytes);
    size_t len = flow->version == 4 ? make_ipv4_fragment(at, flow, &part) : make_ipv6_fragment(at, flow, &part);
    memcpy(at + len, part.bytes, part.len);
    return len + part.len;
}

static void damage(uint8_t *at, size_t *len)
{
    switch (below(6)) {
    case 0:
        *len = below(*len + 1);
        break;
    case 1:
        for (size_t count = below(4); *len > 0 && count > 0; count--)
            at[below(*len < 80 ? *len : 80)] = (uint8_t)next_random();
        break;
    case 2:
        *len = make_ip(at, below(2) == 0 ? 4 : 6);
        break;
    default: {
        size_t padding = below(20);
        fill(at + *len, padding);
        *len += padding;
    }
    }
}

static void make_pool(void)
{
    slot_count = 1 + below(MOST_SLOTS);
    timeout = below(4) == 0 ? some_number(UINT64_MAX) : below(60);
    now = below(4) == 0 ? UINT64_MAX - below(100) : below(100);
    for (size_t i = 0; i < slot_count; i++) {
        if (below(16) == 0)
            fill(slot_memory[i], ETHERPARSE_DEFRAG_SLOT_MEMORY);
        etherparse_defrag_slot_new(&slots[i], slot_memory[i], ETHERPARSE_DEFRAG_SLOT_MEMORY);
        held[i].is_taken = held[i].is_released = held[i].has_headers = false;
        map_clear(&held[i].map);
    }
    etherparse_defrag_pool_new(pool.state, slots, slot_count, timeout);
    for (size_t i = 0; i < FLOWS; i++)
        make_flow(&flows[i]);
}

static bool same_id(const struct etherparse_frag_id *a, const struct etherparse_frag_id *b)
{
    return a->outer_vlan_id == b->outer_vlan_id && a->inner_vlan_id == b->inner_vlan_id && a->identification == b->identification
        && a->version == b->version && a->protocol == b->protocol && memcmp(a->source, b->source, 16) == 0
        && memcmp(a->destination, b->destination, 16) == 0;
}

/* The slot that a datagram is in, or else should begin in; many can do for a new one, of which the library took the given one. */
static struct held *slot_for(const struct etherparse_frag_id *id, size_t taken)
{
    expect(taken < slot_count, "pool_add_packet: slot");
    for (size_t i = 0; i < slot_count; i++) {
        if (!held[i].is_taken || !same_id(&held[i].id, id))
            continue;
        expect(taken == i, "pool_add_packet: the slot of its datagram");
        return &held[i];
    }
    for (size_t i = 0; held[taken].is_taken && i < slot_count; i++)
        expect(held[i].is_taken && held[taken].since <= held[i].since, "pool_add_packet: a free slot, or the oldest");
    return &held[taken];
}

/* Takes a fragment into the slot; the id is that of what is given up, if something is. */
static void hold(struct held *slot, const struct fragment *fragment, const uint8_t *bytes, struct etherparse_frag_id *given_up)
{
    bool is_its = slot->is_taken && same_id(&slot->id, &fragment->id);
    bool is_expired = now >= timeout && slot->since <= now - timeout;
    memset(given_up, 0, sizeof *given_up);
    if (!is_its || is_expired) {
        if (slot->is_taken)
            *given_up = slot->id;
        slot->is_taken = true;
        slot->is_released = false;
        slot->id = fragment->id;
        slot->since = now;
        slot->has_headers = false;
        map_clear(&slot->map);
    }
    if (fragment->offset == 0 && !slot->has_headers) {
        slot->has_headers = true;
        slot->first = *fragment;
        memcpy(slot->headers, bytes, fragment->headers_len);
    }
    map_add(&slot->map, fragment->offset, fragment->more, bytes + fragment->headers_len, fragment->len);
    map_mark(&slot->map, fragment->codepoint);
}

static void check_written(size_t slot)
{
    static uint8_t wanted[ETHERPARSE_DEFRAG_PACKET_SIZE];
    struct etherparse_defrag_written want;
    uint8_t *out = out_end - ETHERPARSE_DEFRAG_PACKET_SIZE;
    memset(&want, 0, sizeof want);
    if (map_state(&held[slot].map) == ETHERPARSE_DEFRAG_COMPLETE)
        want = write_datagram(&held[slot].map, held[slot].headers, &held[slot].first, wanted);
    if (want.len == 0)
        memset(out, 0xa5, 100);
    struct etherparse_defrag_written got =
        etherparse_defrag_pool_write_packet(&pool, slot, out, ETHERPARSE_DEFRAG_PACKET_SIZE);
    expect(got.len == want.len && same(got.error, want.error), "pool_write_packet");
    expect(memcmp(out, wanted, want.len) == 0, "pool_write_packet: the packet");
    for (size_t i = 0; want.len == 0 && i < 100; i++)
        expect(out[i] == 0xa5, "pool_write_packet: nothing written");
}

static void check_pool(void)
{
    static uint8_t made[2 * MOST_BYTES + 8192];
    struct fragment fragment;
    struct etherparse_defrag_error error;
    struct etherparse_frag_id given_up;
    struct flow *flow = &flows[below(FLOWS)];
    if (below(32) == 0)
        make_flow(flow);
    if (slot_count == 0 || below(2000) == 0)
        make_pool();
    size_t len = make_fragment(made, flow);
    if (below(16) == 0)
        damage(made, &len);
    if (len > ROOM)
        return;
    now += below(8) == 0 ? below(40) : below(2);
    if (below(4096) == 0)
        now = some_number(UINT64_MAX);
    packet = len == 0 ? NULL : memcpy(packet_end - len, made, len);
    packet_len = len;
    uint32_t state = ETHERPARSE_DEFRAG_NO_FRAGMENT;
    bool is_fragment = read_fragment(packet, len, &fragment, &error);
    struct etherparse_defrag_added got =
        etherparse_defrag_pool_add_packet(&pool, packet, len, flow->vlan_ids[0], flow->vlan_ids[1], now);
    memset(&given_up, 0, sizeof given_up);
    expect(same(got.error, error), "pool_add_packet: error");
    refused += error.kind != ETHERPARSE_DEFRAG_OK;
    if (is_fragment) {
        fragment.id.outer_vlan_id = flow->vlan_ids[0] < 65536 ? flow->vlan_ids[0] : 65536;
        fragment.id.inner_vlan_id = flow->vlan_ids[1] < 65536 ? flow->vlan_ids[1] : 65536;
        struct held *slot = slot_for(&fragment.id, got.slot);
        hold(slot, &fragment, packet, &given_up);
        state = map_state(&slot->map);
        completed += state == ETHERPARSE_DEFRAG_COMPLETE;
        discarded += state == ETHERPARSE_DEFRAG_DISCARDED;
    }
    expect(got.state == state && (is_fragment || got.slot == 0), "pool_add_packet: state");
    expect(same_id(&got.given_up, &given_up), "pool_add_packet: given_up");
    size_t slot = below(8) == 0 ? below(slot_count) : got.slot;
    if (!held[slot].is_released && (state == ETHERPARSE_DEFRAG_COMPLETE || below(8) == 0))
        check_written(slot);
    if (below(state == ETHERPARSE_DEFRAG_COMPLETE ? 2 : 64) == 0) {
        etherparse_defrag_pool_release(&pool, slot);
        held[slot].is_taken = held[slot].has_headers = false;
        held[slot].is_released = true;
        map_clear(&held[slot].map);
    }
}

/* ---- texts */

/* The text of an error of any numbers, which is empty if its kind is none; and in a buffer of any size. */
static void check_text(void)
{
    char whole[ETHERPARSE_DEFRAG_ERROR_TEXT_SIZE], numbers[2][24];
    struct etherparse_defrag_error error;
    memset(&error, 0, sizeof error);
    error.kind = below(16) == 0 ? (uint32_t)next_random() : (uint32_t)below(11);
    error.offset = (uint16_t)some_number(65535);
    error.len = (size_t)some_number(UINT64_MAX);
    size_t len = etherparse_defrag_error_text(&error, whole, sizeof whole), room = below(sizeof whole + 20);
    expect(len < sizeof whole && strlen(whole) == len && (len != 0) == (error.kind >= 1 && error.kind <= 8), "error_text");
    bool is_offset = error.kind == ETHERPARSE_DEFRAG_OFFSET;
    snprintf(numbers[0], sizeof numbers[0], " %u ", is_offset ? error.offset : 8u * error.offset);
    snprintf(numbers[1], sizeof numbers[1], " %zu bytes", error.len);
    bool has_offset = error.kind >= 1 && error.kind <= 7 && error.kind != ETHERPARSE_DEFRAG_PACKET
        && error.kind != ETHERPARSE_DEFRAG_HEADER_CHAIN && error.kind != ETHERPARSE_DEFRAG_HEADERS_TOO_LONG;
    bool has_len = error.kind == ETHERPARSE_DEFRAG_UNALIGNED_LEN || error.kind == ETHERPARSE_DEFRAG_TOO_BIG
        || error.kind == ETHERPARSE_DEFRAG_HEADERS_TOO_LONG;
    expect(!has_len || strstr(whole, numbers[1]) != NULL, "error_text: its length in it");
    for (char *at = whole; *at != 0; at++)
        *at = *at == ',' ? ' ' : *at;
    expect(!has_offset || strstr(whole, numbers[0]) != NULL, "error_text: its offset in it");
    etherparse_defrag_error_text(&error, whole, sizeof whole);
    uint8_t *at = out_end - room, before[sizeof whole + 20];
    fill(at, room);
    memcpy(before, at, room);
    expect(etherparse_defrag_error_text(&error, room == 0 ? NULL : (char *)at, room) == len, "error_text: its length");
    if (room == 0)
        return;
    size_t shown = len < room ? len : room - 1;
    expect(memcmp(at, whole, shown) == 0 && at[shown] == 0, "error_text: what is shown");
    expect(memcmp(at + shown + 1, before + shown + 1, room - shown - 1) == 0, "error_text: what stands behind");
}

int main(int argc, char **argv)
{
    if (argc != 3 && argc != 4) {
        fprintf(stderr, "usage: fuzz COUNT SECONDS [SEED]\n");
        return 2;
    }
    unsigned long long count = strtoull(argv[1], NULL, 10), done = 0;
    time_t end = time(NULL) + atoi(argv[2]);
    if (argc == 4)
        seed_random(strtoull(argv[3], NULL, 10));
    packet_end = room_end();
    out_end = room_end();
    payload_end = room_end();
    buf_memory = room_end() - ETHERPARSE_DEFRAG_BUF_MEMORY;
    buf.state = (struct etherparse_defrag_buf_state *)room_end() - 1;
    pool.state = (struct etherparse_defrag_pool_state *)room_end() - 1;
    slots = (struct etherparse_defrag_slot *)room_end() - MOST_SLOTS;
    for (size_t i = 0; i < MOST_SLOTS; i++)
        slot_memory[i] = room_end() - ETHERPARSE_DEFRAG_SLOT_MEMORY;
    for (; done < count && (done % 4096 != 0 || time(NULL) < end); done++) {
        check_buf();
        check_pool();
        if (done % 4 == 0)
            check_text();
    }
    printf("%llu inputs, and nothing differs: after %llu a datagram was complete, after %llu discarded; %llu were refused.\n",
        done, completed, discarded, refused);
    return 0;
}
