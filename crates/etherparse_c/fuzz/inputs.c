/* Random inputs of the programs in the folders fuzz/ of the libraries for C: see fuzz.h. */

#define _DEFAULT_SOURCE
#include "fuzz.h"

#include <stdio.h>
#include <stdlib.h>
#include <string.h>
#include <sys/mman.h>

static const uint8_t SKIPPABLE[8] = {0, 43, 44, 51, 60, 135, 139, 140};

/* Numbers that look random, and are the same in each run. */
static uint64_t state = 0x9e3779b97f4a7c15;

void seed_random(uint64_t seed)
{
    state += seed;
}

uint64_t next_random(void)
{
    state ^= state >> 12;
    state ^= state << 25;
    state ^= state >> 27;
    return state * 0x2545f4914f6cdd1d;
}

size_t below(size_t bound)
{
    return (size_t)(next_random() >> 16) % bound;
}

void fill(uint8_t *at, size_t len)
{
    for (size_t i = 0; i < len; i++)
        at[i] = (uint8_t)(next_random() >> 56);
}

const uint8_t *packet;
size_t packet_len;

void expect(bool holds, const char *what)
{
    if (holds)
        return;
    fprintf(stderr, "fuzz: %s, of ", what);
    for (size_t i = 0; i < packet_len; i++)
        fprintf(stderr, "%02x", packet[i]);
    fprintf(stderr, "\n");
    abort();
}

size_t make_ipv4(uint8_t *at)
{
    size_t len = 20 + 4 * below(11);
    fill(at, len);
    at[0] = (uint8_t)(0x40 + len / 4);
    /* A source route, whose numbers often fit, at times after an option of one byte. */
    if (len > 27 && below(2) == 0) {
        size_t place = 20 + below(2), route = 7 + 4 * below((len - place - 3) / 4);
        at[20] = 1;
        at[place] = below(2) == 0 ? 131 : 137;
        at[place + 1] = (uint8_t)(below(8) == 0 ? below(256) : route);
        at[place + 2] = (uint8_t)(below(4) == 0 ? below(256) : 4 + 4 * below(route / 4 + 1));
    }
    return len;
}

size_t make_ipv6(uint8_t *at, uint8_t next_header)
{
    fill(at, 40);
    at[0] = 0x60 | (at[0] & 15);
    at[6] = next_header;
    return 40;
}

/* Extension headers; the first has this number, and what follows them the other. */
size_t make_chain(uint8_t *at, uint8_t number, uint8_t upper)
{
    size_t len = 0;
    for (size_t count = below(6); count > 0; count--) {
        bool is_routing = number == 43 && below(4) != 0;
        uint8_t words = (uint8_t)below(is_routing ? 6 : 3);
        size_t header = number == 44 ? 8 : number == 51 ? 4 * ((size_t)words + 2) : 8 * ((size_t)words + 1);
        fill(at + len, header);
        /* A type that is known, and numbers that often fit. */
        if (is_routing) {
            at[len + 2] = (uint8_t)below(6);
            at[len + 3] = (uint8_t)below(4);
            if (at[len + 2] == 4)
                at[len + 4] = (uint8_t)below(3);
            else if (below(2) == 0)
                at[len + 4] = (uint8_t)(17 * below(16));
        }
        /* Padding of 0 to 4 bytes, and a Home Address option, whose length is most often 16. */
        if (number == 60 && words == 2 && below(4) != 0) {
            size_t padding = below(5);
            at[len + 2] = 1;
            at[len + 3] = 0;
            memset(at + len + 2, 0, padding < 2 ? padding : 0);
            if (padding >= 2)
                at[len + 3] = (uint8_t)(padding - 2);
            at[len + 2 + padding] = 0xc9;
            at[len + 3 + padding] = (uint8_t)(below(8) == 0 ? below(24) : 16);
        }
        number = SKIPPABLE[below(8)];
        at[len] = count == 1 ? upper : number;
        at[len + 1] = words;
        len += header;
    }
    return len;
}

uint64_t some_number(uint64_t most)
{
    switch (below(6)) {
    case 0:
        return most;
    case 1:
        return 0;
    case 2:
        return most - below(4);
    default:
        return next_random() & most;
    }
}

uint8_t *guarded_page(size_t page_len)
{
    uint8_t *at = mmap(NULL, 3 * page_len, PROT_NONE, MAP_PRIVATE | MAP_ANONYMOUS, -1, 0);
    if (at == MAP_FAILED || mprotect(at + page_len, page_len, PROT_READ | PROT_WRITE) != 0) {
        perror("fuzz: pages");
        exit(2);
    }
    return at + page_len;
}

void put(uint8_t *at, size_t len, uint64_t number)
{
    for (size_t i = 0; i < len; i++)
        at[i] = (uint8_t)(number >> (8 * (len - 1 - i)));
}

/* The checksum of a payload with its pseudo-header, if the sender has computed it. */
static void complete(uint8_t version, const uint8_t *header, size_t header_len, uint8_t upper, uint8_t *payload, size_t len)
{
    uint8_t pseudo[40] = {0};
    size_t place = upper == 17 ? 6 : upper == 6 ? 16 : 2;
    if (len < place + 2 || below(4) == 0)
        return;
    put(payload + place, 2, 0);
    if (version == 4 && upper != 1) {
        memcpy(pseudo, header + 12, 8);
        reference_source_route(header + 20, header_len - 20, pseudo + 4);
        put(pseudo + 8, 4, (uint64_t)upper << 16 | len);
    }
    if (version == 6) {
        memcpy(pseudo, header + 8, 32);
        reference_original_source(header[6], header + 40, header_len - 40, pseudo);
        reference_final_destination(header[6], header + 40, header_len - 40, pseudo + 16);
        put(pseudo + 32, 8, (uint64_t)len << 32 | upper);
    }
    uint16_t sum = reference_add(reference_sum(pseudo, 40), reference_sum(payload, len));
    uint16_t checksum = (uint16_t)~sum;
    payload[place] = (uint8_t)(checksum % 256);
    payload[place + 1] = (uint8_t)(checksum / 256);
}

/* A header of UDP, TCP, ICMP or ICMPv6, and data. */
static size_t make_payload(uint8_t *at, uint8_t upper)
{
    size_t len = below(4) == 0 ? below(24) : (upper == 6 ? 20 : 8) + below(below(16) == 0 ? 300 : 40);
    fill(at, len);
    if (upper == 17 && len >= 8) {
        put(at + 4, 2, below(4) == 0 ? below(2 * len) : len);
        if (below(8) == 0)
            put(at + 6, 2, 0);
    }
    if (upper == 6 && len >= 20)
        at[12] = (uint8_t)((below(4) == 0 ? below(16) : 5 + below((len - 20) / 4 + 1)) << 4);
    return len;
}

size_t make_ip(uint8_t *at, uint8_t version)
{
    static const uint8_t uppers[] = {17, 17, 6, 6, 1, 58, 59, 50, 51, 0};
    uint8_t upper = uppers[below(10)];
    size_t len, header_len;
    if (version == 4) {
        len = header_len = make_ipv4(at);
        at[9] = upper;
        if (below(3) != 0)
            put(at + 6, 2, below(4) == 0 ? next_random() & 0x2007 : 0x4000);
    } else {
        static const uint8_t firsts[] = {44, 60, 60, 0};
        uint8_t first = firsts[below(4)];
        header_len = make_ipv6(at, first);
        len = header_len + make_chain(at + header_len, first, upper);
        if (len == header_len)
            at[6] = upper;
    }
    size_t payload_len = make_payload(at + len, upper);
    complete(version, at, len, upper, at + len, payload_len);
    len += payload_len;
    size_t said = version == 4 ? len : len - 40;
    /* Another length. One of 0 says nothing in IPv4, and in IPv6 before hop-by-hop options. */
    if (below(8) == 0)
        said = below(4) == 0 ? 0 : below(2 * said + 1);
    put(at + (version == 4 ? 2 : 4), 2, said);
    if (version == 4 && below(4) != 0) {
        put(at + 10, 2, 0);
        uint16_t checksum = (uint16_t)~reference_sum(at, header_len);
        at[10] = (uint8_t)(checksum % 256);
        at[11] = (uint8_t)(checksum / 256);
    }
    return len;
}

static const uint32_t LINK_TYPES[] = {0, 1, 1, 1, 12, 14, 101, 101, 108, 113, 228, 229, 276, 276, 2, 999, 0xffffffff};

enum { LINK_TYPE_COUNT = sizeof LINK_TYPES / sizeof LINK_TYPES[0] };

uint32_t link_type;
uint16_t first_ether_type;

static uint16_t some_ether_type(void)
{
    static const uint16_t known[] = {0x0800, 0x0800, 0x86dd, 0x86dd, 0x8100, 0x88a8, 0x9100, 0x0806};
    return below(8) == 0 ? (uint16_t)next_random() : known[below(8)];
}

/* Tags and the EtherType after them, which is written before each tag. */
static size_t make_tags(uint8_t *ether_type, uint8_t *at, uint16_t carried)
{
    static const uint16_t tags[] = {0x8100, 0x88a8, 0x9100};
    size_t len = 0;
    for (size_t count = below(2) == 0 ? 0 : below(4); count > 0; count--) {
        put(ether_type, 2, tags[below(3)]);
        fill(at + len, 2);
        ether_type = at + len + 2;
        len += 4;
    }
    put(ether_type, 2, below(16) == 0 ? some_ether_type() : carried);
    return len;
}

/* An ARPHRD type: any, or one that says what the protocol type is: netlink, frame relay, radiotap, GRE. */
static void make_device(uint8_t *arp_hrd_type)
{
    static const uint16_t devices[] = {824, 770, 803, 778};
    if (below(2) == 0)
        put(arp_hrd_type, 2, devices[below(4)]);
}

size_t make_frame(uint8_t *frame)
{
    static const uint32_t families[] = {2, 24, 28, 30, 7};
    uint8_t version = below(2) == 0 ? 4 : 6, ether_type[2];
    uint16_t carried = version == 4 ? 0x0800 : 0x86dd;
    uint32_t family = families[below(5)];
    size_t len = 0;
    link_type = LINK_TYPES[below(LINK_TYPE_COUNT)];
    fill(frame, 20);
    switch (link_type) {
    case 0:
    case 108:
        put(frame, 4, below(2) == 0 ? family : family << 24);
        len = 4;
        break;
    case 1:
        len = 14 + make_tags(frame + 12, frame + 14, carried);
        break;
    case 113:
        make_device(frame + 2);
        len = 16 + make_tags(frame + 14, frame + 16, carried);
        break;
    case 276:
        make_device(frame + 8);
        len = 20 + make_tags(frame, frame + 20, carried);
        break;
    default:
        if (below(2) == 0) {
            len = make_tags(ether_type, frame, carried);
            first_ether_type = (uint16_t)bits_at(ether_type, 0, 16);
        } else {
            first_ether_type = below(2) == 0 ? carried : some_ether_type();
        }
    }
    len += make_ip(frame + len, version);
    if (below(4) == 0) {
        size_t padding = below(20);
        fill(frame + len, padding);
        len += padding;
    }
    if (below(3) == 0)
        len = below(len + 1);
    for (size_t count = below(3); len > 0 && count > 0; count--)
        frame[below(len < 80 ? len : 80)] = (uint8_t)next_random();
    return len;
}
