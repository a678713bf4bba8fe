/* Sorts Ethernet frames by what they carry, many in one call, and counts those with a wrong checksum and those that are cut or
 * damaged. */

#include "etherparse.h"

#include <stdio.h>

enum kind { TCP_SYN, OTHER_TCP, DNS, OTHER_UDP, ICMP, ARP, OTHER_IP, OTHER, KINDS };

static const char *const NAMES[KINDS] = {
    "TCP SYN", "other TCP", "DNS", "other UDP", "ICMP", "ARP", "other IP", "other frames"};

struct counts {
    size_t of_kind[KINDS];
    size_t wrong_checksum;
    size_t stopped;
};

static enum kind kind_of(const struct etherparse_packet *packet)
{
    const struct etherparse_packet_transport *transport = &packet->transport;
    if (packet->ip.version == 0)
        return packet->link.has_ether_type && packet->link.ether_type == 0x0806 ? ARP : OTHER;
    switch (packet->ip.upper) {
    case 6: /* The flags are 0 if the header is not there whole. SYN is bit 1, ACK bit 4. */
        return (transport->tcp_flags & 0x12) == 0x02 ? TCP_SYN : OTHER_TCP;
    case 17:
        return transport->has_ports && (transport->source_port == 53 || transport->destination_port == 53) ? DNS : OTHER_UDP;
    case 1:
        return packet->ip.version == 4 ? ICMP : OTHER_IP;
    case 58:
        return packet->ip.version == 6 ? ICMP : OTHER_IP;
    default:
        return OTHER_IP;
    }
}

/* Adds the frames of a list to the counts. An answer has 224 bytes; here they stay in the processor's cache. */
static void classify(uint32_t link_type, const struct etherparse_frame *frames, size_t count, struct counts *counts)
{
    struct etherparse_packet packets[12];
    while (count > 0) {
        size_t done = etherparse_packet_lax_batch(link_type, frames, count, true, packets, sizeof packets / sizeof packets[0]);
        for (size_t i = 0; i < done; i++) {
            counts->of_kind[kind_of(&packets[i])]++;
            counts->wrong_checksum +=
                packets[i].header_checksum == ETHERPARSE_WRONG || packets[i].payload_checksum == ETHERPARSE_WRONG;
            counts->stopped += packets[i].stop.kind != ETHERPARSE_OK;
        }
        frames += done;
        count -= done;
    }
}

/* Frames as hex digits. */
static const char *const FRAMES[] = {
    /* a TCP SYN */
    "0200000000020200000000010800450000281234000040067c60c0000201c633640704010050000000010000000050022000"
    "9f540000",
    /* its answer, a SYN with ACK */
    "0200000000020200000000010800450000281234000040067c60c0000201c633640700500401000000010000000150122000"
    "9f430000",
    /* a TCP SYN over IPv6 */
    "02000000000202000000000186dd600000000014064020010db800000000000000000000000120010db80000000000000000"
    "00000002040201bb0000000100000000500220002eb00000",
    /* a DNS request */
    "0200000000020200000000010800450000281234000040117c55c0000201c63364070400003500146286abcd010000010000"
    "00000000",
    /* a DNS answer in VLAN 5, over IPv6 */
    "0200000000020200000000018100000586dd600000000014114020010db800000000000000000000000120010db800000000"
    "0000000000000002003504000014f34dabcd01000001000000000000",
    /* a DNS request with a wrong checksum */
    "0200000000020200000000010800450000281234000040117c55c0000201c63364070400003500146287abcd010000010000"
    "00000000",
    /* another UDP datagram */
    "0200000000020200000000010800450000201234000040117c5dc0000201c63364070400007b000c2d5074696d65",
    /* a later fragment of UDP */
    "02000000000202000000000108004500001c1234000140117c60c0000201c63364073132333435363738",
    /* an echo request */
    "0200000000020200000000010800450000201234000040017c6dc0000201c63364070800192c0001000270696e67",
    /* an echo request over IPv6 */
    "02000000000202000000000186dd60000000000c3a4020010db800000000000000000000000120010db80000000000000000"
    "00000002800045700001000270696e67",
    /* an echo request with a wrong checksum */
    "0200000000020200000000010800450000201234000040017c6dc0000201c63364070800182c0001000270696e67",
    /* an ARP request */
    "02000000000202000000000108060001080006040001020000000001c0000201000000000000c6336407",
    /* GRE */
    "02000000000202000000000108004500001812340000402f7c47c0000201c633640700000800",
    /* ICMPv6 over IPv4, with a wrong header checksum */
    "02000000000202000000000108004500001812340000403a7c47c0000201c633640700000800",
    /* ICMP over IPv6 */
    "02000000000202000000000186dd600000000004014020010db800000000000000000000000120010db80000000000000000"
    "0000000208000000",
    /* LLDP */
    "02000000000202000000000188cc0207040200000000010000",
    /* a TCP SYN that the capture cut */
    "0200000000020200000000010800450000281234000040067c60c0000201c63364070403001900000001000000005002",
    /* a frame that ends within its link header */
    "020000000002020000000001",
};

enum { COUNT = sizeof FRAMES / sizeof FRAMES[0] };

/* The value of a hex digit. */
static unsigned value_of(char digit)
{
    return digit <= '9' ? (unsigned)(digit - '0') : (unsigned)(digit - 'a') + 10;
}

/* The bytes that hex digits spell, and their number. */
static size_t bytes_of(const char *digits, uint8_t *bytes)
{
    size_t len = 0;
    for (; digits[2 * len] != 0; len++)
        bytes[len] = (uint8_t)(16 * value_of(digits[2 * len]) + value_of(digits[2 * len + 1]));
    return len;
}

int main(void)
{
    static uint8_t bytes[COUNT][100];
    struct etherparse_frame frames[COUNT];
    struct counts counts = {{0}, 0, 0};
    for (size_t i = 0; i < COUNT; i++) {
        size_t len = bytes_of(FRAMES[i], bytes[i]);
        frames[i].at = bytes[i];
        frames[i].len = len;
        frames[i].original_len = len;
    }
    classify(ETHERPARSE_LINKTYPE_ETHERNET, frames, COUNT, &counts);
    for (int kind = 0; kind < KINDS; kind++)
        printf("%s %zu\n", NAMES[kind], counts.of_kind[kind]);
    printf("wrong checksums %zu\ncut or damaged %zu\n", counts.wrong_checksum, counts.stopped);
    return 0;
}
