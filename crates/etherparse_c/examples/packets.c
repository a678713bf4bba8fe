/* Takes frames apart, each in one call and all of a link type in one, and prints what it finds. */

#include "etherparse.h"

#include <stdio.h>
#include <string.h>

/* Frames of a link type, as hex digits. */
static const struct {
    const char *name;
    uint32_t link_type;
    const char *digits;
} FRAMES[] = {
    {"two tags, options, UDP, padding", 1,
        "02000000000202000000000188a8b12381004abc08004600002400000000401163c60a0000010a0000020101010012345678"
        "000c7f2101020304000000"},
    {"first fragment over IPv6, truncated", 276,
        "86dd000000000003000104060200000000010000600000000030004020010db800000000000000000000000120010db80000"
        "000000000000000000022c0001040000000006000001111213142345678900000001000000026012100000000000020405b4"
        "070707"},
    {"later fragment, loopback", 0,
        "02000000450000249abc20424011abc80a0000010a000002000102030405060708090a0b0c0d0e0f"},
    {"ICMPv6, wrong checksum", 101,
        "6000000000093a4020010db800000000000000000000000120010db8000000000000000000000002810700000102030405"},
    {"ICMP, one tag, Linux cooked capture", 113,
        "00040001000602000000000100008100d00708004500001e00000000400166dd0a0000010a0000020301b7fd000000004501"},
    {"TCP of six bytes", 1,
        "02000000000202000000000108004500001a00000000400666dd0a0000010a000002112233440000"},
    {"total length 19", 1,
        "02000000000202000000000108004500001300000000401166d70a0000010a00000201"},
    {"ESP of 79 bytes, two of which are there", 1,
        "02000000000202000000000108004500006300000000403266670a0000010a0000020102"},
    {"cut within a tag", 1,
        "02000000000202000000000181000005"},
    {"cut within the link header", 1,
        "020000000002020000"},
    {"version 5", 101,
        "5500"},
    {"TCP with a data offset of 4", 1,
        "02000000000202000000000108004500002800000000400666ce0a0000010a00000200010002000000010000000240000000"
        "00000000"},
    {"link type 999", 999,
        "010203"},
    {"UDP without a checksum", 1,
        "02000000000202000000000108004500001d00000000401166ce0a0000010a000002003504000009000078"},
    {"no next header", 1,
        "02000000000202000000000186dd6000000000003b4020010db800000000000000000000000120010db80000000000000000"
        "00000002"},
    {"jumbogram", 101,
        "600000000000004020010db800000000000000000000000120010db80000000000000000000000021100c204000100080400"
        "00350000000001020304"},
};

enum { COUNT = sizeof FRAMES / sizeof FRAMES[0], ROOM = 128, LINE = 1024 };

/* The bytes that hex digits spell; returns how many. */
static size_t bytes_of(const char *digits, uint8_t *at)
{
    unsigned byte;
    size_t len = 0;
    while (sscanf(digits + 2 * len, "%2x", &byte) == 1)
        at[len++] = (uint8_t)byte;
    return len;
}

/* Writes what was found into a text. */
static void describe(const struct etherparse_packet *packet, char text[LINE])
{
    const struct etherparse_packet_link *link = &packet->link;
    const struct etherparse_packet_ip *ip = &packet->ip;
    const struct etherparse_packet_transport *transport = &packet->transport;
    const struct etherparse_error *stop = &packet->stop;
    char why[ETHERPARSE_ERROR_TEXT_SIZE];
    int len;
    etherparse_error_text(stop, why, sizeof why);
    len = snprintf(text, LINE,
        "  link %u at %zu+%zu, tags %u: %u/%u/%d %u/%u/%d, family %u, type %d %04x, payload at %zu+%zu\n",
        link->kind, link->header.offset, link->header.len, link->vlan_count, link->outer_vlan.identifier,
        link->outer_vlan.priority, link->outer_vlan.drop_eligible, link->inner_vlan.identifier,
        link->inner_vlan.priority, link->inner_vlan.drop_eligible, link->family, link->has_ether_type,
        link->ether_type, link->payload.offset, link->payload.len);
    len += snprintf(text + len, (size_t)(LINE - len),
        "  ip %u at %zu+%zu, extensions at %zu+%zu, payload %u at %zu+%zu, packet_len %zu\n",
        ip->version, ip->header.offset, ip->header.len, ip->extensions.offset, ip->extensions.len, ip->upper,
        ip->payload.offset, ip->payload.len, ip->packet_len);
    len += snprintf(text + len, (size_t)(LINE - len),
        "  fragment %d, later %d, more %d, identification %x, offset %u, truncated %d\n",
        ip->is_fragment, ip->is_later_fragment, ip->more_fragments, ip->identification, ip->fragment_offset,
        ip->is_truncated);
    len += snprintf(text + len, (size_t)(LINE - len),
        "  transport %u at %zu+%zu, payload at %zu+%zu, ports %d %u %u, flags %02x, icmp %u %u\n",
        transport->kind, transport->header.offset, transport->header.len, transport->payload.offset,
        transport->payload.len, transport->has_ports, transport->source_port, transport->destination_port,
        transport->tcp_flags, transport->icmp_type, transport->icmp_code);
    snprintf(text + len, (size_t)(LINE - len), "  checksums %u %u, stop %u %u %u %zu %zu %zu %zu: %s\n",
        packet->header_checksum, packet->payload_checksum, stop->kind, stop->number, stop->layer,
        stop->required_len, stop->len, stop->layer_start_offset, stop->limit, why);
}

int main(void)
{
    static uint8_t bytes[COUNT][ROOM];
    static struct etherparse_frame frames[COUNT];
    static struct etherparse_packet answers[COUNT];
    char text[LINE];
    char again[LINE];
    size_t count = 0;
    for (size_t i = 0; i < COUNT; i++) {
        uint32_t link_type = FRAMES[i].link_type;
        size_t len = bytes_of(FRAMES[i].digits, bytes[i]);
        struct etherparse_packet packet;
        etherparse_packet_lax_from_link_type(link_type, bytes[i], len, true, &packet);
        describe(&packet, text);
        printf("%s, lax\n%s", FRAMES[i].name, text);
        etherparse_packet_strict_from_link_type(link_type, bytes[i], len, true, &packet);
        describe(&packet, text);
        printf("%s, strict\n%s", FRAMES[i].name, text);
        if (link_type == ETHERPARSE_LINKTYPE_ETHERNET) {
            frames[count].at = bytes[i];
            frames[count].len = len;
            frames[count].original_len = len + count;
            count++;
        }
    }

    /* All Ethernet frames in one call, with room for one answer less: each answer as above. */
    size_t same = 0;
    memset(answers, 7, sizeof answers);
    size_t done = etherparse_packet_lax_batch(ETHERPARSE_LINKTYPE_ETHERNET, frames, count, true, answers, count - 1);
    for (size_t i = 0; i < done; i++) {
        struct etherparse_packet one;
        etherparse_packet_lax_from_link_type(ETHERPARSE_LINKTYPE_ETHERNET, frames[i].at, frames[i].len, true, &one);
        describe(&answers[i], text);
        describe(&one, again);
        same += strcmp(text, again) == 0;
    }
    printf("%zu frames in one call, %zu answers, %zu as above, the next kept %d\n", count, done, same,
        answers[done].payload_checksum == 7);

    /* What an EtherType names, and without its last byte. */
    struct etherparse_packet after;
    etherparse_packet_lax_from_ether_type(0x0800, bytes[0] + 22, 36, false, &after);
    describe(&after, text);
    printf("after an EtherType, lax\n%s", text);
    etherparse_packet_strict_from_ether_type(0x0800, bytes[0] + 22, 35, true, &after);
    describe(&after, text);
    printf("after an EtherType, cut, strict\n%s", text);
    return 0;
}
