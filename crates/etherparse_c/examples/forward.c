/* A translator: packets that leave a network get its public address and a port of it, and a code point, all in place. It prints
 * each packet as it goes on, or why it does not. */

#include "etherparse_rewriting.h"

#include <stdio.h>
#include <string.h>

/* Packets of IP, as hex digits. */
static const struct {
    const char *name;
    const char *digits;
} PACKETS[] = {
    {"UDP over IPv4, with an option", "46b9002400000000401162f3c0a80001c0a800c79404000004000035000c91ae74657374"},
    {"TCP over IPv4", "4500002b000000004006f8b4c0a80001c0a800c70400005001020304050607085018200034ea0000616263"},
    {"UDP without a checksum", "45000020000000004011f8b4c0a80001c0a800c704000035000c000074657374"},
    {"later fragment", "4500001c123420014011c683c0a80001c0a800c70102030405060708"},
    {"ICMP", "4500001e000000004001f8c6c0a80001c0a800c708008468123400016162"},
    {"TCP over IPv6",
        "6b9123450017064020010db800000000000000000000000120010db8000000000000000000000002040000500102030405060708501820005b8e"
        "0000616263"},
    {"first fragment that ends within TCP", "4500001c000020004006e8c3c0a80001c0a800c70400005001020304"},
    {"truncated", "45000020000000004011f8b4c0a80001c0a800c704000035000c0000746573"},
};

enum { COUNT = sizeof PACKETS / sizeof PACKETS[0], ROOM = 128 };

/* The bytes that hex digits spell; returns how many. */
static size_t bytes_of(const char *digits, uint8_t *at)
{
    unsigned byte;
    size_t len = 0;
    while (sscanf(digits + 2 * len, "%2x", &byte) == 1)
        at[len++] = (uint8_t)byte;
    return len;
}

/* Gives a packet the public address and a port, if it has these, and marks it; returns the number of the error, or 0. */
static uint32_t send_out(uint8_t *packet, size_t len, const char **reach)
{
    static const uint8_t address[4] = {198, 51, 100, 7};
    static const char *const reaches[] = {"no address", "address and upper layer", "address alone, later fragment",
        "address alone, other protocol"};
    struct etherparse_reach_answer answer = etherparse_set_source_ipv4(packet, len, address);
    uint32_t error = answer.error;
    *reach = reaches[answer.reach];
    if (error == ETHERPARSE_REWRITING_OTHER_VERSION)
        error = 0;
    if (error == 0)
        error = etherparse_set_source_port(packet, len, 40000);
    if (error == ETHERPARSE_REWRITING_LATER_FRAGMENT || error == ETHERPARSE_REWRITING_OTHER_PROTOCOL)
        error = 0;
    if (error == 0)
        error = etherparse_set_dscp(packet, len, 10);
    if (error == 0)
        error = etherparse_set_ecn(packet, len, 3);
    return error;
}

int main(void)
{
    uint8_t packet[ROOM];
    for (size_t i = 0; i < COUNT; i++) {
        const char *reach;
        size_t len = bytes_of(PACKETS[i].digits, packet);
        uint32_t error = send_out(packet, len, &reach);
        if (error != 0) {
            char text[ETHERPARSE_REWRITING_ERROR_TEXT_SIZE];
            etherparse_rewriting_error_text(error, text, sizeof text);
            printf("%s: error %u: %s\n", PACKETS[i].name, (unsigned)error, text);
            continue;
        }
        printf("%s: %s\n  ", PACKETS[i].name, reach);
        for (size_t j = 0; j < len; j++)
            printf("%02x", packet[j]);
        printf("\n");
    }

    /* A datagram of one's own, whose checksum is made. */
    static const uint8_t source[4] = {198, 51, 100, 7};
    static const uint8_t destination[4] = {10, 0, 0, 2};
    uint8_t datagram[12] = {0x9c, 0x40, 0x14, 0xe9, 0, 12, 0, 0, 't', 'e', 's', 't'};
    uint32_t error = etherparse_set_checksum_ipv4(source, destination, 17, datagram, sizeof datagram);
    printf("a datagram of one's own: error %u, checksum %02x%02x\n", (unsigned)error, datagram[6], datagram[7]);
    return 0;
}
