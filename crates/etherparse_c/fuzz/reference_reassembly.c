/* The reference: see reference_reassembly.h. */

#include "reference_reassembly.h"

#include <string.h>

static struct etherparse_defrag_error error_of(uint32_t kind, size_t offset, size_t len)
{
    struct etherparse_defrag_error error;
    memset(&error, 0, sizeof error);
    error.kind = kind;
    error.offset = (uint16_t)offset;
    error.len = len;
    return error;
}

void map_clear(struct map *map)
{
    memset(map->piece_of, 0, map->reach * sizeof map->piece_of[0]);
    map->is_discarded = map->is_ended = false;
    memset(map->has_codepoint, 0, sizeof map->has_codepoint);
    map->end = map->reach = map->covered = map->piece_count = 0;
}

/* Why no datagram can have a fragment: lengths and places are those of RFC 791 section 3.2 and RFC 8200 section 4.5. */
static struct etherparse_defrag_error refusal_of(size_t offset, bool more, size_t len)
{
    if (offset > 8191)
        return error_of(ETHERPARSE_DEFRAG_OFFSET, offset, 0);
    if (len == 0)
        return error_of(ETHERPARSE_DEFRAG_EMPTY, offset, 0);
    if (more && len % 8 != 0)
        return error_of(ETHERPARSE_DEFRAG_UNALIGNED_LEN, offset, len);
    if (8 * offset + len > MOST_BYTES)
        return error_of(ETHERPARSE_DEFRAG_TOO_BIG, offset, len);
    return error_of(ETHERPARSE_DEFRAG_OK, 0, 0);
}

/* An exact duplicate is ignored, and one that overlaps otherwise has the datagram discarded (RFC 8200 section 4.5, RFC 5722 section
 * 4). So has one past the end that a last fragment tells, and an end before what has come. */
struct etherparse_defrag_error map_add(struct map *map, size_t offset, bool more, const uint8_t *payload, size_t len)
{
    struct etherparse_defrag_error refusal = refusal_of(offset, more, len);
    size_t start = 8 * offset, end = start + len;
    if (refusal.kind != ETHERPARSE_DEFRAG_OK || map->is_discarded)
        return refusal;
    for (size_t i = start; i < end; i++) {
        if (map->piece_of[i] == 0)
            continue;
        const struct piece *piece = &map->pieces[map->piece_of[i] - 1];
        if (piece->start != start || piece->end != end || piece->more != more || memcmp(map->bytes + start, payload, len) != 0)
            map->is_discarded = true;
        return refusal;
    }
    if ((map->is_ended && end > map->end) || (!more && map->reach > end)) {
        map->is_discarded = true;
        return refusal;
    }
    map->pieces[map->piece_count++] = (struct piece){start, end, more};
    for (size_t i = start; i < end; i++)
        map->piece_of[i] = (uint16_t)map->piece_count;
    memcpy(map->bytes + start, payload, len);
    map->covered += len;
    map->reach = end > map->reach ? end : map->reach;
    if (!more) {
        map->is_ended = true;
        map->end = end;
    }
    return refusal;
}

/* RFC 3168 section 5: the codepoints are 0, Not-ECT; 1, ECT(1); 2, ECT(0); and 3, CE. Section 5.3: CE of a fragment must not be
 * lost, and must not be set if another one has Not-ECT; then the packet is dropped. */
enum { NOT_ECT = 0, CE = 3 };

void map_mark(struct map *map, uint32_t codepoint)
{
    map->has_codepoint[codepoint] = true;
    if (map->has_codepoint[CE] && map->has_codepoint[NOT_ECT])
        map->is_discarded = true;
}

uint32_t map_state(const struct map *map)
{
    if (map->is_discarded)
        return ETHERPARSE_DEFRAG_DISCARDED;
    return map->is_ended && map->covered == map->end ? ETHERPARSE_DEFRAG_COMPLETE : ETHERPARSE_DEFRAG_INCOMPLETE;
}

/* Whether the header chain that goes on in a payload is whole in it (RFC 7112 section 5): extension headers, and the header of TCP
 * (RFC 9293 section 3.1), UDP (RFC 768), ICMPv6 (RFC 4443 section 2.1), IPv4 (RFC 791 section 3.1), IPv6 (RFC 8200 section 3) or ESP
 * (RFC 4303 section 2), which RFC 8200 section 4.5 names. */
static bool has_whole_chain(const uint8_t *payload, size_t len, uint8_t number)
{
    size_t at = 0, needed = 0;
    for (;;) {
        struct etherparse_ipv6_walk_answer skip = reference_ipv6_skip(payload + at, len - at, number);
        if (skip.error.kind != ETHERPARSE_OK)
            return false;
        if (skip.rest.offset == 0)
            break;
        if (number == 44 && bits_at(payload + at, 16, 13) != 0)
            return false; /* What follows is the middle of another payload. */
        number = skip.next_header;
        at += skip.rest.offset;
    }
    if (number == 6)
        needed = len - at < 20 ? 20 : 4 * bits_at(payload + at, 96, 4);
    else if (number == 4)
        needed = len - at < 20 ? 20 : 4 * bits_at(payload + at, 4, 4);
    else if (number == 41)
        needed = 40;
    else if (number == 17 || number == 50)
        needed = 8;
    else if (number == 58)
        needed = 4;
    return len - at >= needed;
}

/* RFC 791 section 3.2: the fragments of a packet have the same addresses, protocol and identification. */
static bool read_ipv4(const uint8_t *packet, const struct etherparse_packet_ip *ip, struct fragment *fragment)
{
    fragment->id.version = 4;
    fragment->id.protocol = ip->upper;
    fragment->id.identification = bits_at(packet, 32, 16);
    memcpy(fragment->id.source, packet + 12, 4);
    memcpy(fragment->id.destination, packet + 16, 4);
    fragment->offset = (uint16_t)bits_at(packet, 51, 13);
    fragment->more = bits_at(packet, 50, 1) == 1;
    fragment->next_header = ip->upper;
    fragment->codepoint = bits_at(packet, 14, 2);
    fragment->headers_len = fragment->unfragmentable_len = ip->header.len;
    fragment->len = ip->payload.len;
    return ip->is_fragment;
}

/* RFC 8200 section 4.5: the fragments of a packet have the same addresses and identification. An atomic fragment header makes none
 * (RFC 6946). */
static bool read_ipv6(const uint8_t *packet, struct fragment *fragment)
{
    size_t end = 40 + bits_at(packet, 32, 16), at = 40;
    uint8_t number = packet[6];
    fragment->naming = 6;
    for (;;) {
        struct etherparse_ipv6_walk_answer skip = reference_ipv6_skip(packet + at, end - at, number);
        if (skip.rest.offset == 0)
            return false;
        if (number == 44 && (bits_at(packet + at, 16, 13) != 0 || bits_at(packet + at, 31, 1) == 1))
            break;
        fragment->naming = at;
        number = skip.next_header;
        at += skip.rest.offset;
    }
    fragment->id.version = 6;
    fragment->id.identification = bits_at(packet + at, 32, 32);
    memcpy(fragment->id.source, packet + 8, 16);
    memcpy(fragment->id.destination, packet + 24, 16);
    fragment->offset = (uint16_t)bits_at(packet + at, 16, 13);
    fragment->more = bits_at(packet + at, 31, 1) == 1;
    fragment->next_header = packet[at];
    fragment->codepoint = bits_at(packet, 10, 2); /* the last two bits of the traffic class */
    fragment->unfragmentable_len = at;
    fragment->headers_len = at + 8;
    fragment->len = end - at - 8;
    return true;
}

bool read_fragment(const uint8_t *packet, size_t len, struct fragment *fragment, struct etherparse_defrag_error *error)
{
    enum { RAW = 101 };
    struct etherparse_packet parts;
    memset(fragment, 0, sizeof *fragment);
    *error = error_of(ETHERPARSE_DEFRAG_OK, 0, 0);
    reference_lax_from_link_type(RAW, packet, len, false, &parts);
    /* Headers of upper layers are not asked for here. One that ends within an extension header is a fragment if a fragment header
     * stands before that, and lacks a part of its chain if it is the first (RFC 8200 section 4.5). */
    bool ends_in_extension = parts.stop.kind == ETHERPARSE_LEN && parts.stop.layer == ETHERPARSE_IPV6_EXT_HEADER;
    if (parts.stop.kind == ETHERPARSE_UNEXPECTED_VERSION
        || (parts.stop.kind != ETHERPARSE_OK && parts.stop.layer < ETHERPARSE_UDP_HEADER && !ends_in_extension)) {
        *error = error_of(ETHERPARSE_DEFRAG_PACKET, 0, 0);
        return false;
    }
    if (parts.ip.version == 4 ? !read_ipv4(packet, &parts.ip, fragment) : !read_ipv6(packet, fragment)) {
        if (ends_in_extension)
            *error = error_of(ETHERPARSE_DEFRAG_PACKET, 0, 0);
        return false;
    }
    if (parts.ip.version == 6 && fragment->offset == 0
        && !has_whole_chain(packet + fragment->headers_len, fragment->len, fragment->next_header))
        *error = error_of(ETHERPARSE_DEFRAG_HEADER_CHAIN, 0, 0);
    else if (fragment->offset == 0 && fragment->headers_len > MOST_HEADERS)
        *error = error_of(ETHERPARSE_DEFRAG_HEADERS_TOO_LONG, 0, fragment->headers_len);
    else
        *error = refusal_of(fragment->offset, fragment->more, fragment->len);
    return error->kind == ETHERPARSE_DEFRAG_OK;
}

/* RFC 791 section 3.2, RFC 8200 section 4.5 and RFC 3168 section 5.3. */
struct etherparse_defrag_written write_datagram(const struct map *map, const uint8_t *headers, const struct fragment *first,
    uint8_t *out)
{
    struct etherparse_defrag_written written;
    size_t front = first->unfragmentable_len, said = front + map->end - (first->id.version == 4 ? 0 : 40);
    memset(&written, 0, sizeof written);
    if (said > 65535) {
        written.error = error_of(ETHERPARSE_DEFRAG_PACKET_TOO_LONG, 0, 0);
        return written;
    }
    written.len = front + map->end;
    memcpy(out, headers, front);
    memcpy(out + front, map->bytes, map->end);
    uint8_t *length_field = out + (first->id.version == 4 ? 2 : 4);
    length_field[0] = (uint8_t)(said / 256);
    length_field[1] = (uint8_t)(said % 256);
    if (map->has_codepoint[CE])
        out[1] |= first->id.version == 4 ? 0x03 : 0x30;
    if (first->id.version == 6) {
        out[first->naming] = first->next_header;
        return written;
    }
    out[6] &= 0x40; /* don't fragment stays */
    out[7] = out[10] = out[11] = 0;
    uint16_t checksum = (uint16_t)~reference_sum(out, front);
    out[10] = (uint8_t)(checksum % 256);
    out[11] = (uint8_t)(checksum / 256);
    return written;
}
