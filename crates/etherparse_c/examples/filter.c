/* Says which frames of an array each of some expressions chooses:
 *
 *     gcc filter.c $(pkg-config --cflags --libs etherparse)
 *     ./a.out
 *
 * or counts those of a capture, which libpcap reads:
 *
 *     gcc -DWITH_LIBPCAP filter.c $(pkg-config --cflags --libs etherparse) -lpcap
 *     ./a.out 'tcp port 80 or udp port 53' FILE */

#include "etherparse_filter.h"

#include <stdio.h>
#include <string.h>

#ifdef WITH_LIBPCAP
#include <pcap/pcap.h>
#endif

enum { COUNT = 6, ROOM = 128 };

/* Ethernet frames, as hex digits. */
static const char *const FRAMES[COUNT] = {
    /* a question to a name server */
    "02000000000202000000000108004500001e00004000401126cd0a0000010a00000204000035000a7f396869",
    /* the first segment to a web server */
    "020000000002020000000001080045000028000040004006b6ccc0000201c0000202c00000500000000100000000500220004b8d0000",
    /* ARP */
    "020000000002020000000001080600010800060400010200000000010a0000010000000000000a000003",
    /* an echo request over IPv6 */
    "02000000000202000000000186dd6000000000083a4020010db800000000000000000000000120010db80000000000000000000000028000"
    "244500010002",
    /* a segment of data over IPv6, with a tag */
    "0200000000020200000000018100000586dd600000000018064020010db800000000000000000000000120010db800000000000000000000"
    "000201bbc3500000000100000000501820009684000064617461",
    /* a later fragment */
    "02000000000202000000000108004500002c00070003401166b50a0000010a0000020102030405060708090a0b0c0d0e0f101112131415161718"};

static const char *const EXPRESSIONS[] = {"tcp port 80 or udp port 53", "src net 10.0.0.0/8", "tcp and vlan 5", "not ip",
    "port 443 or icmp6", "less 60", "fragment", "tcp prot 80", "udp or tcp and port 22", "ip or mpls", "host"};

static unsigned digit(char c)
{
    return (unsigned)(c <= '9' ? c - '0' : c - 'a' + 10);
}

static size_t bytes_of(const char *digits, uint8_t *bytes)
{
    size_t len = strlen(digits) / 2;
    for (size_t i = 0; i < len; i++) bytes[i] = (uint8_t)(16 * digit(digits[2 * i]) + digit(digits[2 * i + 1]));
    return len;
}

/* Compiles an expression, or prints why it is none, with a mark below the place. */
static bool compiled(const char *expression, struct etherparse_filter *filter)
{
    struct etherparse_filter_refusal refusal;
    char text[ETHERPARSE_FILTER_ERROR_TEXT_SIZE];
    if (etherparse_filter_from_text(expression, strlen(expression), filter, &refusal)) return true;
    etherparse_filter_error_text(&refusal, text, sizeof text);
    printf("%s\n%*s^ %s\n", expression, (int)refusal.place, "", text);
    return false;
}

#ifdef WITH_LIBPCAP
/* How many frames of a capture a filter chooses. */
static int count_in(const char *file, struct etherparse_filter *filter)
{
    char why[PCAP_ERRBUF_SIZE];
    pcap_t *capture = pcap_open_offline(file, why);
    if (!capture) {
        fprintf(stderr, "%s\n", why);
        return 1;
    }
    uint32_t link_type = (uint32_t)pcap_datalink(capture);
    struct pcap_pkthdr *record;
    const u_char *bytes;
    size_t all = 0;
    size_t chosen = 0;
    while (pcap_next_ex(capture, &record, &bytes) == 1) {
        all++;
        chosen += etherparse_filter_matches(filter, link_type, bytes, record->caplen, record->len);
    }
    pcap_close(capture);
    printf("%zu of %zu frames\n", chosen, all);
    return 0;
}
#endif

int main(int count, char **words)
{
    static uint8_t bytes[COUNT][ROOM];
    static struct etherparse_frame frames[COUNT];
    struct etherparse_filter filter;
#ifdef WITH_LIBPCAP
    if (count == 3) return compiled(words[1], &filter) ? count_in(words[2], &filter) : 2;
#endif
    (void)words;
    if (count != 1) {
        fprintf(stderr, "usage: filter, or with libpcap: filter EXPRESSION FILE\n");
        return 2;
    }
    for (size_t i = 0; i < COUNT; i++) {
        frames[i].at = bytes[i];
        frames[i].len = bytes_of(FRAMES[i], bytes[i]);
        frames[i].original_len = frames[i].len;
    }
    for (size_t e = 0; e < sizeof EXPRESSIONS / sizeof EXPRESSIONS[0]; e++) {
        if (!compiled(EXPRESSIONS[e], &filter)) continue;
        bool chosen[COUNT];
        size_t answers = etherparse_filter_matches_batch(&filter, ETHERPARSE_LINKTYPE_ETHERNET, frames, COUNT, chosen, COUNT);
        printf("%s:", EXPRESSIONS[e]);
        for (size_t i = 0; i < answers; i++) {
            if (chosen[i]) printf(" %zu", i + 1);
        }
        printf("\n");
    }
    return 0;
}
