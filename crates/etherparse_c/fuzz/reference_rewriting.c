/* The reference: see reference_rewriting.h. */

#include "reference_rewriting.h"

#include <string.h>

unsigned long long computed_anew = 0;
unsigned long long updated = 0;

enum { UDP = 17, TCP = 6, ICMP = 1, ICMPV6 = 58 };

/* The ones-complement sum of an earlier one and the words of so many bytes (RFC 1071 section 1). */
static uint16_t sum_words(uint16_t sum, const uint8_t *at, size_t len)
{
    uint64_t total = sum;
    for (size_t i = 0; i < len; i++)
        total += i % 2 == 0 ? 256u * at[i] : at[i];
    return reference_fold(total);
}

static uint16_t number_at(const uint8_t *at)
{
    return (uint16_t)bits_at(at, 0, 16);
}

static void put_number(uint8_t *at, uint16_t number)
{
    at[0] = (uint8_t)(number / 256);
    at[1] = (uint8_t)(number % 256);
}

/* UDP: RFC 768. TCP: RFC 9293 section 3.1. ICMP: RFC 792. ICMPv6: RFC 4443 section 2.1. */
static size_t least_len(uint8_t number)
{
    return number == UDP ? 8 : number == TCP ? 20 : 4;
}

static size_t checksum_place(uint8_t number)
{
    return number == UDP ? 6 : number == TCP ? 16 : 2;
}

struct etherparse_checksum_answer reference_checksum(uint8_t version, const uint8_t *source, const uint8_t *destination,
    uint8_t number, const uint8_t *segment, size_t len)
{
    struct etherparse_checksum_answer answer = {0, 0};
    size_t covered = len, place = checksum_place(number), address_len = version == 4 ? 4 : 16;
    if (number != UDP && number != TCP && number != (version == 4 ? ICMP : ICMPV6)) {
        answer.error = ETHERPARSE_REWRITING_OTHER_PROTOCOL;
        return answer;
    }
    if (number == UDP && len >= 8)
        covered = number_at(segment + 4);
    if (covered > len || covered < least_len(number)) {
        answer.error = ETHERPARSE_REWRITING_INCOMPLETE;
        return answer;
    }
    if (version == 4 && number != ICMP && covered > 65535) {
        answer.error = ETHERPARSE_REWRITING_TOO_LONG;
        return answer;
    }
    uint16_t sum = 0;
    if (number != ICMP) {
        /* The words of the pseudo-header: addresses, number and length, whose zeros count for nothing. */
        sum = sum_words(sum, source, address_len);
        sum = sum_words(sum, destination, address_len);
        sum = reference_add(sum, number);
        sum = reference_add(sum, reference_fold(covered));
    }
    sum = sum_words(sum, segment, place);
    sum = sum_words(sum, segment + place + 2, covered - place - 2);
    answer.checksum = (uint16_t)~sum;
    if (number == UDP && answer.checksum == 0)
        answer.checksum = 0xffff;
    return answer;
}

uint32_t reference_set_checksum(uint8_t version, const uint8_t *source, const uint8_t *destination, uint8_t number,
    uint8_t *segment, size_t len)
{
    struct etherparse_checksum_answer answer = reference_checksum(version, source, destination, number, segment, len);
    if (answer.error == ETHERPARSE_REWRITING_OK)
        put_number(segment + checksum_place(number), answer.checksum);
    return answer.error;
}

/* The parts of a packet, and why there are none. */
static uint32_t read_packet(const uint8_t *packet, size_t len, struct etherparse_packet_ip *ip)
{
    struct etherparse_packet parts;
    enum { RAW = 101 };
    reference_lax_from_link_type(RAW, packet, len, false, &parts);
    *ip = parts.ip;
    if (parts.stop.kind == ETHERPARSE_UNEXPECTED_VERSION)
        return ETHERPARSE_REWRITING_UNEXPECTED_VERSION;
    switch (parts.stop.layer) {
    case ETHERPARSE_IP_HEADER:
        return ETHERPARSE_REWRITING_EMPTY;
    case ETHERPARSE_IPV4_HEADER:
        return ETHERPARSE_REWRITING_IPV4_HEADER;
    case ETHERPARSE_IPV6_HEADER:
        return ETHERPARSE_REWRITING_IPV6_HEADER;
    case ETHERPARSE_IPV4_PACKET:
    case ETHERPARSE_IPV4_PACKET_BYTES:
    case ETHERPARSE_IPV6_PACKET:
        return ETHERPARSE_REWRITING_PACKET;
    case ETHERPARSE_IPV6_EXT_HEADER:
        return ETHERPARSE_REWRITING_EXTENSIONS;
    default:
        return ETHERPARSE_REWRITING_OK; /* What is wrong with an upper layer is not asked. */
    }
}

/* The checksum after words that it covers became others. It is computed from all that it covers, if it was the computed one before;
 * otherwise it is the one of RFC 1624, equation 3. */
static uint16_t next_checksum(uint16_t before, bool was_computed, uint16_t computed, const uint8_t *old_bytes,
    const uint8_t *new_bytes, size_t len)
{
    if (was_computed)
        computed_anew++;
    else
        updated++;
    return was_computed ? computed : reference_update(before, old_bytes, new_bytes, len);
}

static uint16_t header_checksum(const uint8_t *header, size_t len)
{
    return (uint16_t)~sum_words(sum_words(0, header, 10), header + 12, len - 12);
}

/* The source and the destination that a checksum covers, one after the other, and whether each is known. */
static void covered_addresses(const uint8_t *packet, const struct etherparse_packet_ip *ip, uint8_t *addresses, bool known[2])
{
    memcpy(addresses, packet + (ip->version == 4 ? 12 : 8), ip->version == 4 ? 8 : 32);
    known[0] = known[1] = true;
    if (ip->version == 4) {
        reference_source_route(packet + 20, ip->header.len - 20, addresses + 4);
        return;
    }
    known[0] = reference_original_source(packet[6], packet + 40, ip->extensions.len, addresses);
    known[1] = reference_final_destination(packet[6], packet + 40, ip->extensions.len, addresses + 16);
}

/* The checksum of the upper layer of a packet, from all that it covers; 0x10000 if not all of it is there. */
static uint32_t upper_checksum(const uint8_t *packet, const struct etherparse_packet_ip *ip)
{
    uint8_t addresses[32];
    bool known[2];
    covered_addresses(packet, ip, addresses, known);
    struct etherparse_checksum_answer answer = reference_checksum(ip->version, addresses, addresses + (ip->version == 4 ? 4 : 16),
        ip->upper, packet + ip->payload.offset, ip->payload.len);
    return ip->is_fragment || !known[0] || !known[1] || answer.error != ETHERPARSE_REWRITING_OK ? 0x10000 : answer.checksum;
}

/* Writes other bytes at a place in a packet, and the checksums that cover them. */
static void change(uint8_t *packet, const struct etherparse_packet_ip *ip, size_t place, const uint8_t *bytes, size_t len,
    bool in_header, bool in_upper)
{
    uint8_t old_bytes[16], old_addresses[32], new_addresses[32];
    size_t header_len = ip->header.len, upper_place = ip->payload.offset + checksum_place(ip->upper);
    uint16_t header = 0, upper = 0;
    bool header_was_computed = false, upper_was_computed = false, known[2];
    size_t address_len = ip->version == 4 ? 4 : 16;
    bool is_source = ip->version == 6 && place == 8, is_destination = place == (ip->version == 4 ? 16 : 24);
    bool is_address = is_source || is_destination;
    uint8_t *old_covered = old_addresses + (is_source ? 0 : address_len);
    uint8_t *new_covered = new_addresses + (is_source ? 0 : address_len);
    covered_addresses(packet, ip, old_addresses, known);
    if (in_header) {
        header = number_at(packet + 10);
        header_was_computed = header == header_checksum(packet, header_len);
    }
    if (in_upper) {
        upper = number_at(packet + upper_place);
        upper_was_computed = upper == upper_checksum(packet, ip);
    }
    memcpy(old_bytes, packet + place, len);
    memcpy(packet + place, bytes, len);
    if (in_header)
        put_number(packet + 10,
            next_checksum(header, header_was_computed, header_checksum(packet, header_len), old_bytes, bytes, len));
    covered_addresses(packet, ip, new_addresses, known);
    /* A UDP checksum of 0 says that there is none, and one that would be 0 is sent as all ones (RFC 768). */
    if (in_upper && !(ip->upper == UDP && upper == 0)
        && !(is_address && (!known[is_destination] || memcmp(old_covered, new_covered, address_len) == 0))) {
        uint16_t next = next_checksum(upper, upper_was_computed, (uint16_t)upper_checksum(packet, ip),
            is_address ? old_covered : old_bytes, is_address ? new_covered : bytes, len);
        put_number(packet + upper_place, ip->upper == UDP && next == 0 ? 0xffff : next);
    }
}

struct etherparse_reach_answer reference_set_address(uint8_t version, bool is_source, uint8_t *packet, size_t len,
    const uint8_t *address)
{
    struct etherparse_packet_ip ip;
    struct etherparse_reach_answer answer = {read_packet(packet, len, &ip), 0};
    size_t address_len = version == 4 ? 4 : 16, place = (version == 4 ? 12 : 8) + (is_source ? 0 : address_len);
    if (answer.error == ETHERPARSE_REWRITING_OK && ip.version != version)
        answer.error = ETHERPARSE_REWRITING_OTHER_VERSION;
    if (answer.error != ETHERPARSE_REWRITING_OK)
        return answer;
    answer.reach = ETHERPARSE_REACH_UPPER;
    if (ip.upper != UDP && ip.upper != TCP && !(version == 6 && ip.upper == ICMPV6))
        answer.reach = ETHERPARSE_REACH_OTHER_PROTOCOL;
    if (ip.is_later_fragment)
        answer.reach = ETHERPARSE_REACH_LATER_FRAGMENT;
    if (answer.reach == ETHERPARSE_REACH_UPPER && ip.payload.len < least_len(ip.upper)) {
        answer.error = ETHERPARSE_REWRITING_INCOMPLETE;
        answer.reach = 0;
        return answer;
    }
    change(packet, &ip, place, address, address_len, version == 4, answer.reach == ETHERPARSE_REACH_UPPER);
    return answer;
}

uint32_t reference_set_port(bool is_source, uint8_t *packet, size_t len, uint16_t port)
{
    struct etherparse_packet_ip ip;
    uint32_t error = read_packet(packet, len, &ip);
    uint8_t bytes[2];
    if (error != ETHERPARSE_REWRITING_OK)
        return error;
    if (ip.is_later_fragment)
        return ETHERPARSE_REWRITING_LATER_FRAGMENT;
    if (ip.upper != UDP && ip.upper != TCP)
        return ETHERPARSE_REWRITING_OTHER_PROTOCOL;
    if (ip.payload.len < least_len(ip.upper))
        return ETHERPARSE_REWRITING_INCOMPLETE;
    put_number(bytes, port);
    change(packet, &ip, ip.payload.offset + (is_source ? 0 : 2), bytes, 2, false, true);
    return ETHERPARSE_REWRITING_OK;
}

uint32_t reference_set_mark(bool is_dscp, uint8_t *packet, size_t len, uint8_t value)
{
    struct etherparse_packet_ip ip;
    uint8_t bytes[2];
    if (value > (is_dscp ? 63 : 3))
        return ETHERPARSE_REWRITING_VALUE_TOO_BIG;
    if (len == 0)
        return ETHERPARSE_REWRITING_EMPTY;
    memset(&ip, 0, sizeof ip);
    ip.version = (uint8_t)bits_at(packet, 0, 4);
    if (ip.version != 4 && ip.version != 6)
        return ETHERPARSE_REWRITING_UNEXPECTED_VERSION;
    if (ip.version == 4 && reference_ipv4_view(packet, len).error.kind != ETHERPARSE_OK)
        return ETHERPARSE_REWRITING_IPV4_HEADER;
    if (ip.version == 6 && len < 40)
        return ETHERPARSE_REWRITING_IPV6_HEADER;
    /* The DSCP is 6 bits, and the ECN the 2 after them (RFC 2474 section 3, RFC 3168 section 5): byte 1 of IPv4, bits 4 to 11 of
     * IPv6. */
    uint16_t word = number_at(packet), shift = ip.version == 4 ? 0 : 4;
    uint16_t mask = (uint16_t)((is_dscp ? 0xfcu : 3u) << shift);
    put_number(bytes, (uint16_t)((word & ~mask) | ((unsigned)value << (is_dscp ? 2 : 0) << shift)));
    ip.header.len = 4 * bits_at(packet, 4, 4);
    change(packet, &ip, 0, bytes, 2, ip.version == 4, false);
    return ETHERPARSE_REWRITING_OK;
}
