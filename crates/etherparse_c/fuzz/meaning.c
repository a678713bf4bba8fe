/* meaning COUNT SECONDS [SEED]: COUNT random expressions, for SECONDS at most, each asked for random frames one by one and in one
 * call, beside what its words say of the frame by pcap-filter(7), as the page of packet_filter has them.
 *
 * The reference in C of etherparse_c takes a frame apart, and here each primitive is asked of the parts. Frames have tags,
 * extension headers, fragments and padding, and may be cut or damaged. Most values in an expression are those of a frame. */

#define _DEFAULT_SOURCE
#include "etherparse_filter.h"
#include "fuzz.h"

#include <stdarg.h>
#include <stdio.h>
#include <stdlib.h>
#include <string.h>
#include <time.h>
#include <unistd.h>

enum { FRAMES = 16, TEXT = 4096, DEPTH = 2, NODES = 16 };

/* A frame, and what the reference finds in it. */
struct seen {
    const uint8_t *at;
    size_t len;
    size_t original_len;
    uint32_t link_type;
    struct etherparse_packet parts;
};

static struct seen frames[FRAMES];
static char text[TEXT];
static size_t text_len;

static void fail(const char *what, const struct seen *frame)
{
    fprintf(stderr, "meaning: %s, of '%s', link type %u, %zu bytes on the wire: ", what, text, frame->link_type,
        frame->original_len);
    for (size_t i = 0; i < frame->len; i++)
        fprintf(stderr, "%02x", frame->at[i]);
    fprintf(stderr, "\n");
    abort();
}

static void say(const char *format, ...)
{
    va_list list;
    va_start(list, format);
    text_len += (size_t)vsnprintf(text + text_len, TEXT - text_len, format, list);
    va_end(list);
}

/* ---- what the words mean */

enum direction { ANY, SOURCE, DESTINATION, EITHER, BOTH };
static const char *const DIRECTIONS[] = {"", "src ", "dst ", "src or dst ", "src and dst "};

static bool of_ends(enum direction direction, bool source, bool destination)
{
    switch (direction) {
    case SOURCE:
        return source;
    case DESTINATION:
        return destination;
    case BOTH:
        return source && destination;
    default:
        return source || destination;
    }
}

enum relation { EQUAL, NOT_EQUAL, LESS, LESS_OR_EQUAL, GREATER, GREATER_OR_EQUAL };
static const char *const RELATIONS[] = {"=", "!=", "<", "<=", ">", ">="};

static bool compares(enum relation relation, uint64_t a, uint64_t b)
{
    const bool answers[] = {a == b, a != b, a < b, a <= b, a > b, a >= b};
    return answers[relation];
}

/* The protocols of frames and of IP that a primitive can name. */
static const struct protocol {
    const char *name;
    uint8_t version; /* the one it is named for; 0 for both */
    uint8_t number; /* of the payload of IP */
} PROTOCOLS[] = {{"tcp", 0, 6}, {"udp", 0, 17}, {"sctp", 0, 132}, {"esp", 0, 50}, {"ah", 0, 51}, {"pim", 0, 103}, {"icmp", 4, 1},
    {"igmp", 4, 2}, {"icmp6", 6, 58}};
static const struct type {
    const char *name;
    uint16_t number;
} TYPES[] = {{"arp", 0x0806}, {"rarp", 0x8035}, {"decnet", 0x6003}, {"lat", 0x6004}, {"moprc", 0x6002}, {"mopdl", 0x6001},
    {"sca", 0x6007}};

static bool has_type(const struct seen *frame, uint16_t number)
{
    return frame->parts.link.has_ether_type && frame->parts.link.ether_type == number;
}

/* It is IP of a version: by its header, or if there is none by its EtherType. */
static bool is_ip(const struct seen *frame, uint8_t version)
{
    uint8_t found = frame->parts.ip.version;
    return found == 0 ? has_type(frame, version == 4 ? 0x0800 : 0x86dd) : found == version;
}

static bool has_number(const struct seen *frame, uint8_t version, uint8_t number)
{
    const struct etherparse_packet_ip *ip = &frame->parts.ip;
    return ip->version != 0 && (version == 0 || ip->version == version) && ip->upper == number;
}

/* The addresses of IP, or of ARP and RARP for Ethernet and IPv4 (RFC 826, RFC 903): their version, 0 if there are none. */
static uint8_t addresses(const struct seen *frame, const uint8_t **source, const uint8_t **destination)
{
    static const uint8_t ETHERNET_AND_IPV4[] = {0, 1, 8, 0, 6, 4};
    const struct etherparse_part *body = &frame->parts.link.payload;
    *source = *destination = NULL;
    if (frame->parts.ip.version != 0) {
        const uint8_t *header = frame->at + frame->parts.ip.header.offset;
        bool is_ipv4 = frame->parts.ip.version == 4;
        *source = header + (is_ipv4 ? 12 : 8);
        *destination = header + (is_ipv4 ? 16 : 24);
        return frame->parts.ip.version;
    }
    if ((!has_type(frame, 0x0806) && !has_type(frame, 0x8035)) || body->len < 6
        || memcmp(frame->at + body->offset, ETHERNET_AND_IPV4, 6) != 0)
        return 0;
    if (body->len >= 18)
        *source = frame->at + body->offset + 14;
    if (body->len >= 28)
        *destination = frame->at + body->offset + 24;
    return 4;
}

static const uint8_t *hardware(const struct seen *frame)
{
    return frame->parts.link.kind == ETHERPARSE_ETHERNET ? frame->at : NULL;
}

/* ---- primitives: what each is, its words, and what it says of a frame */

enum kind {
    TYPE, IP, PROTOCOL, PROTO, HOST, NET, MASKED, PORT, HARDWARE, ETHER_PROTO, GROUP, VLAN, LENGTH, LOAD, FRAGMENT, WRONG, KINDS
};

enum layer { ETHER, IP4, IP6, OF_TYPE, OF_PROTOCOL, LAYERS };

struct primitive {
    enum kind kind;
    enum direction direction;
    enum relation relation;
    enum layer layer;
    uint8_t version; /* of an address, or of IP */
    size_t which; /* of the tables, or what else there is to choose */
    uint8_t bytes[16]; /* an address */
    uint8_t mask[4];
    size_t bits; /* how many of them count */
    uint64_t low, high; /* a number, or a range */
    size_t place, size;
    bool has_mask;
    uint32_t number_mask;
};

static bool is_within(const struct primitive *p, uint8_t version, const uint8_t *address)
{
    if (address == NULL || version != p->version)
        return false;
    for (size_t bit = 0; bit < p->bits; bit++)
        if (bits_at(address, bit, 1) != bits_at(p->bytes, bit, 1))
            return false;
    for (size_t i = 0; p->kind == MASKED && i < 4; i++)
        if ((address[i] & p->mask[i]) != p->bytes[i])
            return false;
    return true;
}

/* The qualifier before an address: none, ip, ip6, arp or rarp. */
static const char *const QUALIFIERS[] = {"", "ip ", "ip6 ", "arp ", "rarp "};

static bool has_address(const struct primitive *p, const struct seen *frame)
{
    const uint8_t *source, *destination;
    uint8_t version = addresses(frame, &source, &destination);
    const bool are_of[] = {true, is_ip(frame, 4), is_ip(frame, 6), has_type(frame, 0x0806), has_type(frame, 0x8035)};
    return are_of[p->which] && of_ends(p->direction, is_within(p, version, source), is_within(p, version, destination));
}

/* The qualifier before a port: none, tcp, udp or sctp. */
static const char *const TRANSPORTS[] = {"", "tcp ", "udp ", "sctp "};

static bool has_port(const struct primitive *p, const struct seen *frame)
{
    static const uint8_t numbers[] = {0, 6, 17, 132};
    const struct etherparse_packet_ip *ip = &frame->parts.ip;
    bool has_ports = ip->version != 0 && (ip->upper == 6 || ip->upper == 17 || ip->upper == 132);
    if (!has_ports || (p->which != 0 && ip->upper != numbers[p->which]) || ip->is_later_fragment || ip->payload.len < 4)
        return false;
    const uint8_t *payload = frame->at + ip->payload.offset;
    uint32_t source = bits_at(payload, 0, 16), destination = bits_at(payload, 16, 16);
    return of_ends(p->direction, p->low <= source && source <= p->high, p->low <= destination && destination <= p->high);
}

static const char *const GROUPS[] = {
    "broadcast", "ether broadcast", "multicast", "ether multicast", "ip multicast", "ip6 multicast"};

static bool is_group(size_t which, const struct seen *frame)
{
    static const uint8_t ALL[] = {255, 255, 255, 255, 255, 255};
    const uint8_t *source, *destination, *header = hardware(frame);
    if (which < 2)
        return header != NULL && memcmp(header, ALL, 6) == 0;
    if (which < 4)
        return header != NULL && header[0] % 2 == 1;
    if (frame->parts.ip.version != (which == 4 ? 4 : 6))
        return false;
    addresses(frame, &source, &destination);
    return which == 4 ? bits_at(destination, 0, 4) == 14 : destination[0] == 255;
}

/* The bytes that a load counts from the first on; whether there are such. */
static bool loads(const struct primitive *p, const struct seen *frame, struct etherparse_part *found)
{
    const struct etherparse_packet_ip *ip = &frame->parts.ip;
    switch (p->layer) {
    case ETHER:
        *found = (struct etherparse_part){0, frame->len};
        return hardware(frame) != NULL;
    case IP4:
    case IP6:
        *found = (struct etherparse_part){ip->header.offset, ip->header.len + ip->extensions.len + ip->payload.len};
        return ip->version == (p->layer == IP4 ? 4 : 6);
    case OF_TYPE:
        *found = frame->parts.link.payload;
        return has_type(frame, TYPES[p->which].number);
    default:
        *found = ip->payload;
        return has_number(frame, PROTOCOLS[p->which].version, PROTOCOLS[p->which].number) && !ip->is_later_fragment;
    }
}

static bool is_loaded(const struct primitive *p, const struct seen *frame)
{
    struct etherparse_part part;
    if (!loads(p, frame, &part) || part.len < p->place + p->size)
        return false;
    uint32_t number = bits_at(frame->at + part.offset + p->place, 0, 8 * p->size);
    return compares(p->relation, p->has_mask ? number & p->number_mask : number, p->low);
}

static bool holds(const struct primitive *p, const struct seen *frame)
{
    const struct etherparse_packet *parts = &frame->parts;
    const uint8_t *header = hardware(frame);
    switch (p->kind) {
    case TYPE:
        return has_type(frame, TYPES[p->which].number);
    case IP:
        return is_ip(frame, p->version);
    case PROTOCOL:
        return has_number(frame, PROTOCOLS[p->which].version, PROTOCOLS[p->which].number);
    case PROTO:
        return has_number(frame, p->version, (uint8_t)p->low);
    case HOST:
    case NET:
    case MASKED:
        return has_address(p, frame);
    case PORT:
        return has_port(p, frame);
    case HARDWARE:
        return header != NULL && of_ends(p->direction, memcmp(header + 6, p->bytes, 6) == 0, memcmp(header, p->bytes, 6) == 0);
    case ETHER_PROTO:
        return has_type(frame, (uint16_t)p->low);
    case GROUP:
        return is_group(p->which, frame);
    case VLAN:
        return (parts->link.vlan_count > 0 && (p->which == 0 || parts->link.outer_vlan.identifier == p->low))
            || (parts->link.vlan_count > 1 && (p->which == 0 || parts->link.inner_vlan.identifier == p->low));
    case LENGTH:
        return compares(p->relation, frame->original_len, p->low);
    case LOAD:
        return is_loaded(p, frame);
    case FRAGMENT:
        return parts->ip.is_fragment && (p->which == 0 || parts->ip.fragment_offset == 0);
    default:
        return parts->header_checksum == ETHERPARSE_WRONG || parts->payload_checksum == ETHERPARSE_WRONG;
    }
}

/* ---- random primitives */

static void say_address(const struct primitive *p)
{
    if (p->version == 4)
        say("%u.%u.%u.%u", p->bytes[0], p->bytes[1], p->bytes[2], p->bytes[3]);
    for (size_t i = 0; p->version == 6 && i < 8; i++)
        say(i == 0 ? "%x" : ":%x", bits_at(p->bytes, 16 * i, 16));
}

/* An address of a frame, or any. */
static void choose_address(struct primitive *p, const struct seen *frame)
{
    const uint8_t *source, *destination;
    p->version = addresses(frame, &source, &destination);
    const uint8_t *address = below(2) == 0 ? source : destination;
    if (p->version == 0)
        p->version = below(2) == 0 ? 4 : 6;
    fill(p->bytes, 16);
    if (address != NULL)
        memcpy(p->bytes, address, p->version == 4 ? 4 : 16);
    p->bits = p->version == 4 ? 32 : 128;
    if (p->kind == NET)
        p->bits = below(p->bits + 1);
    else if (below(8) == 0)
        p->bytes[below(p->bits / 8)] ^= 1;
    /* A qualifier has to fit the version: a mask is for IPv4 alone. */
    p->which = p->version == 4 ? (size_t[]){0, 0, 1, 3, 4}[below(5)] : 2 * below(2);
}

static void choose_mask(struct primitive *p, const struct seen *frame)
{
    p->kind = HOST;
    choose_address(p, frame);
    p->kind = p->version == 4 ? MASKED : HOST;
    for (size_t i = 0; p->kind == MASKED && i < 4; i++) {
        p->mask[i] = (uint8_t[]){0, 255, 255, 240, 15, (uint8_t)next_random()}[below(6)];
        p->bytes[i] &= p->mask[i];
        p->bits = 0;
    }
}

static void choose_port(struct primitive *p, const struct seen *frame)
{
    const struct etherparse_packet_ip *ip = &frame->parts.ip;
    p->which = below(4);
    p->low = ip->version != 0 && ip->payload.len >= 4 ? bits_at(frame->at + ip->payload.offset, 16 * below(2), 16) : below(65536);
    p->low -= p->low > 0 ? below(2) : 0;
    p->high = below(2) == 0 ? p->low : p->low + below(65536 - p->low);
}

static void choose_load(struct primitive *p, const struct seen *frame)
{
    struct etherparse_part part;
    p->layer = (enum layer)below(LAYERS);
    p->which = below(p->layer == OF_TYPE ? 2 : 9);
    p->size = (size_t)1 << below(3);
    p->place = below(p->layer == OF_PROTOCOL ? 24 : 64);
    p->low = next_random() & (p->size == 1 ? 0xff : p->size == 2 ? 0xffff : 0xffffffff);
    if (loads(p, frame, &part) && p->place + p->size <= part.len && below(4) != 0)
        p->low = bits_at(frame->at + part.offset + p->place, 0, 8 * p->size);
    p->has_mask = below(2) == 0;
    p->number_mask = (uint32_t)(below(2) == 0 ? 1u << below(8 * p->size) : next_random());
    if (p->has_mask)
        p->low &= p->number_mask;
}

static void choose(struct primitive *p)
{
    const struct seen *frame = &frames[below(FRAMES)];
    memset(p, 0, sizeof *p);
    p->kind = (enum kind)below(KINDS);
    p->direction = (enum direction)below(5);
    p->relation = (enum relation)below(6);
    p->version = below(2) == 0 ? 4 : 6;
    p->low = below(256);
    switch (p->kind) {
    case TYPE:
        p->which = below(7);
        break;
    case PROTOCOL:
        p->which = below(9);
        break;
    case PROTO:
        p->version = (uint8_t[]){0, 4, 6}[below(3)];
        p->low = frame->parts.ip.version != 0 ? frame->parts.ip.upper : below(256);
        break;
    case HOST:
    case NET:
        choose_address(p, frame);
        break;
    case MASKED:
        choose_mask(p, frame);
        break;
    case PORT:
        choose_port(p, frame);
        break;
    case HARDWARE:
        p->direction = (enum direction)below(3);
        fill(p->bytes, 6);
        if (hardware(frame) != NULL)
            memcpy(p->bytes, hardware(frame) + 6 * below(2), 6);
        break;
    case ETHER_PROTO:
        p->low = frame->parts.link.has_ether_type && frame->parts.link.ether_type > 1500 ? frame->parts.link.ether_type : 0x88cc;
        break;
    case GROUP:
        p->which = below(6);
        break;
    case VLAN:
        p->which = below(2);
        p->low = below(2) == 0 ? frame->parts.link.outer_vlan.identifier : frame->parts.link.inner_vlan.identifier;
        break;
    case LENGTH:
        p->low = frame->original_len + below(3);
        break;
    case LOAD:
        choose_load(p, frame);
        break;
    case FRAGMENT:
        p->which = below(2);
        break;
    default:
        break;
    }
}

static const char *number(uint64_t number)
{
    static char digits[2][24];
    static size_t turn = 0;
    turn = 1 - turn;
    snprintf(digits[turn], sizeof digits[turn], below(2) == 0 ? "%llu" : "0x%llx", (unsigned long long)number);
    return digits[turn];
}

static void say_load(const struct primitive *p)
{
    const char *const layers[] = {"ether", "ip", "ip6", TYPES[p->which % 7].name, PROTOCOLS[p->which % 9].name};
    say("%s[%zu", layers[p->layer], p->place);
    say(p->size > 1 || below(2) == 0 ? ":%zu]" : "]", p->size);
    if (p->has_mask)
        say(" & %s", number(p->number_mask));
    say(" %s %s", RELATIONS[p->relation], number(p->low));
}

static void say_primitive(const struct primitive *p)
{
    const char *direction = DIRECTIONS[p->direction];
    switch (p->kind) {
    case TYPE:
        say("%s", TYPES[p->which].name);
        break;
    case IP:
        say(p->version == 4 ? "ip" : "ip6");
        break;
    case PROTOCOL:
        say("%s", PROTOCOLS[p->which].name);
        break;
    case PROTO:
        say("%sproto %s", p->version == 0 ? "" : QUALIFIERS[p->version == 4 ? 1 : 2], number(p->low));
        break;
    case HOST:
        say("%s%shost ", QUALIFIERS[p->which], direction);
        say_address(p);
        break;
    case NET:
        say("%s%snet ", QUALIFIERS[p->which], direction);
        say_address(p);
        say("/%zu", p->bits);
        break;
    case MASKED:
        say("%s%snet ", QUALIFIERS[p->which], direction);
        say_address(p);
        say(" mask %u.%u.%u.%u", p->mask[0], p->mask[1], p->mask[2], p->mask[3]);
        break;
    case PORT:
        say(p->low == p->high && below(2) == 0 ? "%s%sport %llu" : "%s%sportrange %llu-%llu", TRANSPORTS[p->which], direction,
            (unsigned long long)p->low, (unsigned long long)p->high);
        break;
    case HARDWARE:
        say("ether %shost %02x:%02x:%02x:%02x:%02x:%02x", direction, p->bytes[0], p->bytes[1], p->bytes[2], p->bytes[3],
            p->bytes[4], p->bytes[5]);
        break;
    case ETHER_PROTO:
        say("ether proto %s", number(p->low));
        break;
    case GROUP:
        say("%s", GROUPS[p->which]);
        break;
    case VLAN:
        say(p->which == 0 ? "vlan" : "vlan %s", number(p->low));
        break;
    case LENGTH:
        if (p->relation == LESS_OR_EQUAL || p->relation == GREATER_OR_EQUAL)
            say("%s %s", p->relation == LESS_OR_EQUAL ? "less" : "greater", number(p->low));
        else
            say("len %s %s", RELATIONS[p->relation], number(p->low));
        break;
    case LOAD:
        say_load(p);
        break;
    case FRAGMENT:
        say(p->which == 0 ? "fragment" : "first fragment");
        break;
    default:
        say("checksum wrong");
        break;
    }
}

/* ---- expressions: a tree of nodes, of which the first is the whole */

static struct node {
    enum { ONE, NOT, AND, OR } kind;
    struct primitive primitive;
    size_t a, b;
} nodes[NODES];
static size_t node_count;

static size_t make_expression(int depth)
{
    size_t at = node_count++;
    struct node *node = &nodes[at];
    node->kind = ONE;
    if (depth > 0 && below(3) != 0)
        node->kind = below(4) == 0 ? NOT : below(2) == 0 ? AND : OR;
    if (node->kind == ONE) {
        choose(&node->primitive);
        say_primitive(&node->primitive);
        return at;
    }
    say(node->kind == NOT ? (below(2) == 0 ? "not (" : "!(") : "(");
    node->a = make_expression(depth - 1);
    say(")");
    if (node->kind == NOT)
        return at;
    say(node->kind == AND ? (below(2) == 0 ? " and (" : "&&(") : (below(2) == 0 ? " or (" : "||("));
    node->b = make_expression(depth - 1);
    say(")");
    return at;
}

static bool is_true(const struct node *node, const struct seen *frame)
{
    switch (node->kind) {
    case ONE:
        return holds(&node->primitive, frame);
    case NOT:
        return !is_true(&nodes[node->a], frame);
    case AND:
        return is_true(&nodes[node->a], frame) && is_true(&nodes[node->b], frame);
    default:
        return is_true(&nodes[node->a], frame) || is_true(&nodes[node->b], frame);
    }
}

/* Whether the expression is to choose a frame: none of a link type that is not read. */
static bool is_wanted(const struct seen *frame)
{
    return frame->parts.stop.kind != ETHERPARSE_LINK_TYPE && is_true(&nodes[0], frame);
}

/* ---- frames */

/* A packet of ARP or RARP, or of another type that has a word. */
static size_t make_arp(uint8_t *frame)
{
    static const uint8_t front[] = {0, 1, 8, 0, 6, 4, 0, 1};
    link_type = 1;
    fill(frame, 50);
    put(frame + 12, 2, TYPES[below(below(4) == 0 ? 7 : 2)].number);
    memcpy(frame + 14, front, sizeof front);
    if (below(8) == 0)
        frame[14 + below(6)] ^= 1;
    return below(4) == 0 ? 14 + below(36) : 42 + below(8);
}

static void take(struct seen *seen, uint32_t type)
{
    seen->link_type = type;
    reference_lax_from_link_type(type, seen->at, seen->len, true, &seen->parts);
}

static void make_frames(uint8_t *const *ends)
{
    for (size_t i = 0; i < FRAMES; i++) {
        uint8_t made[MAX_LEN];
        size_t len = below(8) == 0 ? make_arp(made) : make_frame(made);
        if (link_type == 1 && len >= 12 && below(4) == 0)
            memset(made, 255, 6 * (1 + below(2)));
        memcpy(ends[i] - len, made, len);
        frames[i].at = len == 0 ? NULL : ends[i] - len;
        frames[i].len = len;
        frames[i].original_len = len + below(2) * below(40);
        take(&frames[i], link_type);
    }
}

/* All frames in one call, of one link type. */
static void check_batch(struct etherparse_filter *filter, uint32_t type)
{
    struct etherparse_frame list[FRAMES];
    bool answers[FRAMES + 1];
    size_t room = below(FRAMES + 2), count = room < FRAMES ? room : FRAMES;
    for (size_t i = 0; i < FRAMES; i++) {
        take(&frames[i], type);
        list[i] = (struct etherparse_frame){frames[i].at, frames[i].len, frames[i].original_len};
    }
    memset(answers, 1, sizeof answers);
    if (etherparse_filter_matches_batch(filter, type, list, FRAMES, answers, room) != count)
        fail("how many answers", &frames[0]);
    for (size_t i = 0; i < FRAMES; i++)
        if (answers[i] != (i < count ? is_wanted(&frames[i]) : true))
            fail("a frame of a list", &frames[i]);
    if (!answers[FRAMES])
        fail("an answer that stays", &frames[0]);
}

int main(int argc, char **argv)
{
    static struct etherparse_filter filter;
    struct etherparse_filter_refusal refusal;
    uint8_t *ends[FRAMES];
    if (argc != 3 && argc != 4) {
        fprintf(stderr, "usage: meaning COUNT SECONDS [SEED]\n");
        return 2;
    }
    unsigned long long count = strtoull(argv[1], NULL, 10), done = 0, chosen = 0;
    time_t end = time(NULL) + atoi(argv[2]);
    size_t page_len = (size_t)sysconf(_SC_PAGESIZE);
    if (argc == 4)
        seed_random(strtoull(argv[3], NULL, 10));
    for (size_t i = 0; i < FRAMES; i++)
        ends[i] = guarded_page(page_len) + page_len;
    for (; done < count && (done % 4096 != 0 || time(NULL) < end); done++) {
        make_frames(ends);
        text_len = node_count = 0;
        make_expression(DEPTH);
        if (!etherparse_filter_from_text(text, text_len, &filter, &refusal))
            fail("a refusal", &frames[0]);
        for (size_t i = 0; i < FRAMES; i++) {
            const struct seen *frame = &frames[i];
            bool wanted = is_wanted(frame);
            if (etherparse_filter_matches(&filter, frame->link_type, frame->at, frame->len, frame->original_len) != wanted)
                fail("a frame", frame);
            chosen += wanted;
        }
        check_batch(&filter, frames[below(FRAMES)].link_type);
    }
    printf("%llu expressions, each for %d frames twice: all answers are what the words say; of the first %llu are yes.\n", done,
        FRAMES, chosen);
    return 0;
}
