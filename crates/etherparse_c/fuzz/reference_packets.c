/* The reference for the calls on packets: see reference.h. Link headers are those of IEEE 802.3 section 3.1.1 and of the registry
 * of tcpdump.org, tags those of IEEE 802.1Q sections 9.3 and 9.6. */

#include "reference.h"

#include <string.h>

/* Why the reading stops: a layer with too few bytes, which end where this source says, or a field that is wrong. */
static void stop_short(struct etherparse_packet *packet, uint16_t layer, uint16_t source, size_t required_len, size_t len,
    size_t place)
{
    packet->stop.kind = ETHERPARSE_LEN;
    packet->stop.number = source;
    packet->stop.layer = layer;
    packet->stop.required_len = required_len;
    packet->stop.len = len;
    packet->stop.layer_start_offset = place;
}

static void stop_wrong(struct etherparse_packet *packet, uint32_t kind, uint16_t layer, uint32_t number)
{
    packet->stop.kind = kind;
    packet->stop.layer = layer;
    packet->stop.number = (uint16_t)number;
}

static struct etherparse_part part(size_t offset, size_t len)
{
    struct etherparse_part part = {offset, len};
    return part;
}

/* Moves a destination to the stop of a routing header that is visited last, the segments left being above 0 (RFC 8200 section
 * 4.4); whether the header tells it. Its length in bytes is 8 * units + 8. */
static bool last_stop(const uint8_t *header, uint8_t *destination)
{
    size_t units = header[1], left = header[3], stops = 0, place = 0, kept = 0;
    size_t each = 16 - header[4] / 16, last = 16 - header[4] % 16, padding = header[5] / 16;
    switch (header[2]) {
    case 0: /* RFC 2460 section 4.4 */
        stops = units % 2 == 0 ? units / 2 : 0;
        place = 8 * units - 8;
        break;
    case 2: /* RFC 6275 section 6.4 */
        stops = units == 2 ? 1 : 0;
        place = 8;
        break;
    case 3: /* RFC 6554 section 3 */
        if (8 * units >= padding + last && (8 * units - padding - last) % each == 0)
            stops = (8 * units - padding - last) / each + 1;
        place = 8 * units + 8 - padding - last;
        kept = 16 - last;
        break;
    case 4: /* RFC 8754 section 2 */
        stops = 2 * (header[4] + 1u) <= units ? header[4] + 1u : 0;
        place = 8;
        break;
    default:
        break;
    }
    if (left > stops)
        return false;
    memcpy(destination + kept, header + place, 16 - kept);
    return true;
}

void reference_source_route(const uint8_t *options, size_t len, uint8_t *destination)
{
    for (size_t at = 0, left = len; left > 0 && options[at] != 0; left = len - at) {
        size_t option_len = options[at] == 1 ? 1 : left > 1 ? options[at + 1] : 0;
        if (option_len > left || (options[at] != 1 && option_len < 2))
            return;
        if (options[at] == 131 || options[at] == 137) {
            size_t pointer = option_len > 2 ? options[at + 2] : 0;
            if (pointer > 3 && pointer % 4 == 0 && pointer <= option_len && (option_len - 3) % 4 == 0)
                memcpy(destination, options + at + option_len - 4, 4);
            return;
        }
        at += option_len;
    }
}

bool reference_final_destination(uint8_t number, const uint8_t *headers, size_t len, uint8_t *destination)
{
    for (size_t at = 0; at < len;) {
        struct etherparse_ipv6_walk_answer walk = reference_ipv6_skip(headers + at, len - at, number);
        if (number == 43 && headers[at + 3] > 0 && !last_stop(headers + at, destination))
            return false;
        /* RFC 5533 section 5.1: only its hosts know the addresses of a payload header of Shim6 */
        if (number == 140 && headers[at + 2] > 127)
            return false;
        number = walk.next_header;
        at += walk.rest.offset;
    }
    return true;
}

bool reference_original_source(uint8_t number, const uint8_t *headers, size_t len, uint8_t *source)
{
    for (size_t at = 0; at < len;) {
        struct etherparse_ipv6_walk_answer walk = reference_ipv6_skip(headers + at, len - at, number);
        size_t next = at + walk.rest.offset;
        if (number == 140 && headers[at + 2] > 127)
            return false;
        /* RFC 8200 section 4.2: Pad1 has no length; RFC 6275 section 6.3: the option has 16 bytes of data */
        for (size_t option = at + 2; number == 60 && option < next;) {
            if (headers[option] == 0) {
                option++;
                continue;
            }
            if (next - option < 2 || next - option - 2 < headers[option + 1])
                break;
            if (headers[option] == 0xc9 && headers[option + 1] == 16)
                memcpy(source, headers + option + 2, 16);
            option += 2 + (size_t)headers[option + 1];
        }
        number = walk.next_header;
        at = next;
    }
    return true;
}

/* What a receiver finds of the checksum of a payload that is whole and no fragment (RFC 768, RFC 9293 section 3.1, RFC 792, RFC
 * 4443 section 2.3, RFC 8200 section 8.1). The header is that of the IP packet, and options or extension headers follow it. */
static uint8_t verdict_on(uint8_t version, const uint8_t *header, size_t extensions_len, uint8_t upper, const uint8_t *payload,
    size_t len)
{
    uint8_t pseudo[40] = {0};
    uint8_t icmp = version == 4 ? 1 : 58;
    size_t least = upper == 17 ? 8 : upper == 6 ? 20 : 4, covered = len;
    if (upper != 17 && upper != 6 && upper != icmp)
        return ETHERPARSE_OTHER_PROTOCOL;
    if (len < least)
        return ETHERPARSE_INCOMPLETE;
    if (upper == 17) {
        covered = bits_at(payload, 32, 16);
        if (covered < 8 || covered > len)
            return ETHERPARSE_INCOMPLETE;
        if (bits_at(payload, 48, 16) == 0 && version == 4)
            return ETHERPARSE_NOT_COMPUTED;
    }
    if (version == 4 && upper != 1) {
        memcpy(pseudo, header + 12, 8);
        reference_source_route(header + 20, 4 * (header[0] % 16u) - 20, pseudo + 4);
        pseudo[9] = upper;
        pseudo[10] = (uint8_t)(covered / 256);
        pseudo[11] = (uint8_t)(covered % 256);
    }
    if (version == 6) {
        memcpy(pseudo, header + 8, 32);
        if (!reference_original_source(header[6], header + 40, extensions_len, pseudo)
            || !reference_final_destination(header[6], header + 40, extensions_len, pseudo + 16))
            return ETHERPARSE_UNKNOWN_DESTINATION;
        if (upper == 17 && bits_at(payload, 48, 16) == 0)
            return ETHERPARSE_WRONG;
        for (size_t i = 0; i < 4; i++)
            pseudo[32 + i] = (uint8_t)(covered >> (24 - 8 * i));
        pseudo[39] = upper;
    }
    uint16_t sum = reference_add(reference_sum(pseudo, 40), reference_sum(payload, covered));
    return sum == 0xffff ? ETHERPARSE_RIGHT : ETHERPARSE_WRONG;
}

static void read_transport(const uint8_t *frame, struct etherparse_packet *packet)
{
    struct etherparse_packet_transport *transport = &packet->transport;
    const struct etherparse_packet_ip *ip = &packet->ip;
    const uint8_t *at = frame + ip->payload.offset;
    size_t len = ip->payload.len, place = ip->payload.offset, header_len = 0;
    struct etherparse_packet stopped = *packet;
    /* A packet with all its bytes ends, as its payload does, where its length field says. */
    uint16_t source = ip->version == 4 ? ETHERPARSE_FROM_IPV4_TOTAL_LEN : ETHERPARSE_FROM_IPV6_PAYLOAD_LENGTH;
    uint8_t upper = ip->upper;
    if (ip->is_later_fragment || (upper != 17 && upper != 6 && upper != (ip->version == 4 ? 1 : 58)))
        return;
    if ((upper == 17 || upper == 6) && len >= 4) {
        transport->has_ports = true;
        transport->source_port = (uint16_t)bits_at(at, 0, 16);
        transport->destination_port = (uint16_t)bits_at(at, 16, 16);
    }
    if (upper == 17) {
        header_len = 8;
        if (len < 8)
            stop_short(&stopped, ETHERPARSE_UDP_HEADER, source, 8, len, place);
    } else if (upper == 6) {
        header_len = len < 20 ? 20 : 4 * bits_at(at, 96, 4);
        if (header_len < 20)
            stop_wrong(&stopped, ETHERPARSE_DATA_OFFSET, ETHERPARSE_TCP_HEADER, bits_at(at, 96, 4));
        else if (len < header_len)
            stop_short(&stopped, ETHERPARSE_TCP_HEADER, source, header_len, len, place);
    } else {
        header_len = 4;
        if (len < 4)
            stop_short(&stopped, upper == 1 ? ETHERPARSE_ICMPV4 : ETHERPARSE_ICMPV6, source, 4, len, place);
    }
    if (len < header_len || header_len < 4 || (upper == 6 && header_len < 20)) {
        /* That of a fragment can be in the next one, and the reading can have stopped before. */
        if (!ip->is_fragment && packet->stop.kind == ETHERPARSE_OK)
            packet->stop = stopped.stop;
        return;
    }
    transport->kind = upper;
    transport->header = part(place, header_len);
    transport->payload = part(place + header_len, len - header_len);
    if (upper == 6)
        transport->tcp_flags = at[13];
    if (upper == 1 || upper == 58) {
        transport->icmp_type = at[0];
        transport->icmp_code = at[1];
    }
}

/* The parts of an IPv4 packet at a place (RFC 791 section 3.1); whether there is one. */
static bool read_ipv4(const uint8_t *frame, size_t len, size_t place, struct etherparse_packet *packet)
{
    const struct etherparse_ipv4_view_answer seen = reference_ipv4_view(frame + place, len - place);
    struct etherparse_packet_ip *ip = &packet->ip;
    size_t header_len = seen.rest.offset, total_len = seen.view.total_len, there = len - place;
    if (seen.error.kind != ETHERPARSE_OK) {
        packet->stop = seen.error;
        if (seen.error.kind == ETHERPARSE_LEN)
            packet->stop.layer_start_offset += place;
        return false;
    }
    if (total_len < header_len)
        stop_short(packet, ETHERPARSE_IPV4_PACKET, ETHERPARSE_FROM_IPV4_TOTAL_LEN, header_len, total_len, place);
    else if (there < total_len)
        stop_short(packet, ETHERPARSE_IPV4_PACKET_BYTES, ETHERPARSE_FROM_SLICE, total_len, there, place);
    if (total_len < header_len && total_len != 0)
        return false;
    ip->header = part(place, header_len);
    ip->extensions = part(place + header_len, 0);
    ip->payload = part(place + header_len, (total_len == 0 || there < total_len ? there : total_len) - header_len);
    ip->packet_len = total_len;
    ip->upper = seen.view.protocol;
    if (seen.view.more_fragments || seen.view.fragment_offset != 0) {
        ip->is_fragment = true;
        ip->identification = seen.view.identification;
        ip->fragment_offset = 8u * seen.view.fragment_offset;
        ip->more_fragments = seen.view.more_fragments;
        ip->is_later_fragment = ip->fragment_offset != 0;
    }
    return true;
}

/* The parts of an IPv6 packet at a place (RFC 8200 sections 3, 4 and 4.5; atomic fragments: RFC 6946; jumbograms, whose length is in
 * an option: RFC 2675 section 3); whether there is one. */
static bool read_ipv6(const uint8_t *frame, size_t len, size_t place, struct etherparse_packet *packet)
{
    const struct etherparse_ipv6_view_answer seen = reference_ipv6_view(frame + place, len - place);
    struct etherparse_packet_ip *ip = &packet->ip;
    if (seen.error.kind != ETHERPARSE_OK) {
        packet->stop = seen.error;
        if (seen.error.kind == ETHERPARSE_LEN)
            packet->stop.layer_start_offset += place;
        return false;
    }
    ip->packet_len = 40 + (size_t)seen.view.payload_length;
    size_t end = place + ip->packet_len, at = place + 40;
    uint8_t number = seen.view.next_header;
    if (seen.view.payload_length == 0 && number == 0) {
        stop_short(packet, ETHERPARSE_IPV6_EXT_HEADER, ETHERPARSE_FROM_IPV6_PAYLOAD_LENGTH, 2, 0, at);
        ip->packet_len = 0;
        end = len;
    }
    if (len < end) {
        stop_short(packet, ETHERPARSE_IPV6_PACKET, ETHERPARSE_FROM_SLICE, ip->packet_len, len - place, place);
        end = len;
    }
    while (!ip->is_later_fragment) {
        struct etherparse_ipv6_walk_answer walk = reference_ipv6_skip(frame + at, end - at, number);
        if (walk.error.kind != ETHERPARSE_OK) {
            if (packet->stop.kind == ETHERPARSE_OK) {
                packet->stop = walk.error;
                packet->stop.number = ETHERPARSE_FROM_IPV6_PAYLOAD_LENGTH; /* the packet has all its bytes */
                packet->stop.layer_start_offset += at;
            }
            break;
        }
        if (walk.rest.offset == 0)
            break;
        if (number == 44) {
            uint32_t offset = 8 * bits_at(frame + at, 16, 13), more = bits_at(frame + at, 31, 1);
            if (!ip->is_fragment && (offset != 0 || more == 1)) {
                ip->is_fragment = true;
                ip->identification = bits_at(frame + at, 32, 32);
                ip->fragment_offset = offset;
                ip->more_fragments = more == 1;
            }
            ip->is_later_fragment = offset != 0;
        }
        number = walk.next_header;
        at += walk.rest.offset;
    }
    ip->header = part(place, 40);
    ip->extensions = part(place + 40, at - place - 40);
    ip->payload = part(at, end - at);
    ip->upper = number;
    return true;
}

static void read_ip(const uint8_t *frame, size_t len, size_t place, bool checksums, struct etherparse_packet *packet)
{
    uint8_t version = place == len ? 0 : (uint8_t)bits_at(frame + place, 0, 4);
    if (place == len) {
        stop_short(packet, ETHERPARSE_IP_HEADER, ETHERPARSE_FROM_SLICE, 1, 0, place);
        return;
    }
    if (version != 4 && version != 6) {
        stop_wrong(packet, ETHERPARSE_UNEXPECTED_VERSION, ETHERPARSE_IP_HEADER, version);
        return;
    }
    if (version == 4 ? !read_ipv4(frame, len, place, packet) : !read_ipv6(frame, len, place, packet))
        return;
    struct etherparse_packet_ip *ip = &packet->ip;
    bool is_whole = packet->stop.kind == ETHERPARSE_OK;
    ip->version = version;
    ip->is_truncated = len - place < ip->packet_len;
    if (checksums && version == 4)
        packet->header_checksum = reference_sum(frame + place, ip->header.len) == 0xffff ? ETHERPARSE_RIGHT : ETHERPARSE_WRONG;
    if (checksums)
        packet->payload_checksum = !is_whole ? ETHERPARSE_INCOMPLETE
            : ip->is_fragment                ? ETHERPARSE_FRAGMENT
                              : verdict_on(version, frame + place, ip->extensions.len, ip->upper,
                                    frame + ip->payload.offset, ip->payload.len);
    read_transport(frame, packet);
}

/* Up to two tags at a place, and what they tag. */
static void read_after_link(const uint8_t *frame, size_t len, size_t place, bool carries_ip, bool checksums,
    struct etherparse_packet *packet)
{
    struct etherparse_packet_link *link = &packet->link;
    bool is_cut = false;
    while (link->has_ether_type && link->vlan_count < 2
        && (link->ether_type == 0x8100 || link->ether_type == 0x88a8 || link->ether_type == 0x9100)) {
        if (len - place < 4) {
            stop_short(packet, ETHERPARSE_VLAN_HEADER, ETHERPARSE_FROM_SLICE, 4, len - place, place);
            is_cut = true;
            break;
        }
        struct etherparse_vlan_tag *tag = link->vlan_count == 0 ? &link->outer_vlan : &link->inner_vlan;
        tag->priority = (uint8_t)bits_at(frame + place, 0, 3);
        tag->drop_eligible = bits_at(frame + place, 3, 1) == 1;
        tag->identifier = (uint16_t)bits_at(frame + place, 4, 12);
        link->ether_type = (uint16_t)bits_at(frame + place, 16, 16);
        link->vlan_count++;
        place += 4;
    }
    link->payload = part(place, len - place);
    if (!is_cut && (link->has_ether_type ? link->ether_type == 0x0800 || link->ether_type == 0x86dd : carries_ip))
        read_ip(frame, len, place, checksums, packet);
}

void reference_lax_from_ether_type(uint16_t ether_type, const uint8_t *at, size_t len, bool checksums,
    struct etherparse_packet *packet)
{
    memset(packet, 0, sizeof *packet);
    packet->link.has_ether_type = true;
    packet->link.ether_type = ether_type;
    read_after_link(at, len, 0, false, checksums, packet);
}

/* Whether the protocol type of a Linux cooked capture is an EtherType, by LINKTYPE_LINUX_SLL and LINKTYPE_LINUX_SLL2 of tcpdump.org: for
   ARPHRD_NETLINK (824) it is a netlink protocol, for ARPHRD_FRAD (770) and ARPHRD_IEEE80211_RADIOTAP (803) it is ignored. */
static bool is_ether_type(uint32_t arp_hrd_type)
{
    return arp_hrd_type != 824 && arp_hrd_type != 770 && arp_hrd_type != 803;
}

void reference_lax_from_link_type(uint32_t link_type, const uint8_t *at, size_t len, bool checksums,
    struct etherparse_packet *packet)
{
    static const struct {
        uint32_t link_type;
        uint8_t kind;
        size_t len;
        size_t ether_type; /* the bit at which it stands; 0 if there is none */
    } links[] = {
        {0, ETHERPARSE_LOOPBACK, 4, 0}, {1, ETHERPARSE_ETHERNET, 14, 96}, {108, ETHERPARSE_LOOPBACK, 4, 0},
        {113, ETHERPARSE_LINUX_SLL, 16, 112}, {276, ETHERPARSE_LINUX_SLL2, 20, 0}, {12, ETHERPARSE_NO_LINK, 0, 0},
        {14, ETHERPARSE_NO_LINK, 0, 0}, {101, ETHERPARSE_NO_LINK, 0, 0}, {228, ETHERPARSE_NO_LINK, 0, 0},
        {229, ETHERPARSE_NO_LINK, 0, 0},
    };
    struct etherparse_packet_link *link = &packet->link;
    size_t count = sizeof links / sizeof links[0], found = 0;
    bool carries_ip = true;
    memset(packet, 0, sizeof *packet);
    while (found < count && links[found].link_type != link_type)
        found++;
    if (found == count) {
        packet->stop.kind = ETHERPARSE_LINK_TYPE;
        packet->stop.len = link_type;
        return;
    }
    if (len < links[found].len) {
        stop_short(packet, ETHERPARSE_LINK_HEADER, ETHERPARSE_FROM_SLICE, links[found].len, len, 0);
        return;
    }
    link->kind = links[found].kind;
    link->header = part(0, links[found].len);
    if (link->kind == ETHERPARSE_LOOPBACK) {
        /* LINKTYPE_NULL has the byte order of the host that captured, and families are small numbers. */
        uint32_t high = bits_at(at, 0, 32);
        uint32_t low = bits_at(at, 24, 8) << 24 | bits_at(at, 16, 8) << 16 | bits_at(at, 8, 8) << 8 | bits_at(at, 0, 8);
        link->family = link_type == 0 && low < high ? low : high;
        carries_ip = link->family == 2 || link->family == 24 || link->family == 28 || link->family == 30;
    } else if ((link->kind == ETHERPARSE_LINUX_SLL && !is_ether_type(bits_at(at, 16, 16)))
        || (link->kind == ETHERPARSE_LINUX_SLL2 && !is_ether_type(bits_at(at, 64, 16)))) {
        carries_ip = false;
    } else if (link->kind != ETHERPARSE_NO_LINK) {
        link->has_ether_type = true;
        link->ether_type = (uint16_t)bits_at(at, links[found].ether_type, 16);
    }
    read_after_link(at, len, links[found].len, carries_ip, checksums, packet);
}

void reference_strict(struct etherparse_packet *packet)
{
    struct etherparse_error stop = packet->stop;
    if (stop.kind == ETHERPARSE_OK)
        return;
    memset(packet, 0, sizeof *packet);
    packet->stop = stop;
}
