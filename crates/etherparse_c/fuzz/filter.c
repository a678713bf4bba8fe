/* fuzz COUNT SEED: COUNT random expressions, each asked for random frames one by one and in one call, beside bpf_filter; and as many
 * texts of random words, whose refusals have to be consistent.
 *
 * The frames have no tag, extension header or padding, and are whole: on these an expression of the kinds below says the same to both. */

#define _DEFAULT_SOURCE
#include "etherparse_filter.h"

#include <pcap/pcap.h>
#include <stdarg.h>
#include <stdio.h>
#include <stdlib.h>
#include <string.h>
#include <sys/mman.h>
#include <unistd.h>

enum { FRAMES = 64, ROOM = 256, TEXT = 1024 };

/* Numbers that look random, and are the same in each run. */
static uint64_t state = 0x9e3779b97f4a7c15;

static size_t below(size_t bound)
{
    state ^= state >> 12;
    state ^= state << 25;
    state ^= state >> 27;
    return (size_t)((state * 0x2545f4914f6cdd1d) >> 16) % bound;
}

static char text[TEXT];

static void expect(bool holds, const char *what)
{
    if (holds) return;
    fprintf(stderr, "fuzz: %s, of %s\n", what, text);
    abort();
}

/* Pages that end before one that cannot be read. */
static uint8_t *pages(size_t len)
{
    size_t page = (size_t)sysconf(_SC_PAGESIZE);
    size_t whole = (len + page - 1) / page * page;
    uint8_t *at = mmap(NULL, whole + page, PROT_READ | PROT_WRITE, MAP_PRIVATE | MAP_ANONYMOUS, -1, 0);
    if (at == MAP_FAILED || mprotect(at + whole, page, PROT_NONE)) abort();
    return at + whole;
}

static void put16(uint8_t *at, size_t n)
{
    at[0] = (uint8_t)(n >> 8);
    at[1] = (uint8_t)n;
}

static const uint16_t PORTS[] = {22, 53, 80, 443, 1024};

static size_t port(void) { return below(2) ? PORTS[below(5)] : below(65536); }

static void address4(uint8_t *at)
{
    static const uint8_t front[][2] = {{10, 0}, {192, 168}, {172, 16}, {224, 0}};
    memcpy(at, front[below(4)], 2);
    at[2] = (uint8_t)below(2);
    at[3] = (uint8_t)(1 + below(4));
}

static void address6(uint8_t *at)
{
    static const uint8_t front[4] = {0x20, 1, 0xd, 0xb8};
    memset(at, 0, 16);
    memcpy(at, front, 4);
    at[15] = (uint8_t)(1 + below(4));
}

static void hardware(uint8_t *at)
{
    if (!below(8)) {
        memset(at, 0xff, 6);
        return;
    }
    memset(at, 0, 6);
    at[0] = (uint8_t)(2 + below(2));
    at[5] = (uint8_t)below(4);
}

/* What an IP packet carries: its number and its length. */
static uint8_t payload(uint8_t *at, bool is_ipv4, size_t *len)
{
    static const uint8_t flags[] = {2, 0x12, 0x10, 0x18, 0x11, 4};
    size_t data = below(40);
    for (size_t i = 0; i < 20 + data; i++) at[i] = (uint8_t)below(256);
    switch (below(4)) {
    case 0:
        *len = 8 + data;
        at[0] = (uint8_t)below(20);
        return is_ipv4 ? 1 : 58;
    case 1:
        *len = 8 + data;
        put16(at, port());
        put16(at + 2, port());
        put16(at + 4, *len);
        return 17;
    default:
        *len = 20 + data;
        put16(at, port());
        put16(at + 2, port());
        at[12] = 0x50;
        at[13] = flags[below(6)];
        return 6;
    }
}

static size_t frame(uint8_t *at)
{
    size_t len;
    uint8_t *ip = at + 14;
    hardware(at);
    hardware(at + 6);
    switch (below(5)) {
    case 0: {
        static const uint8_t arp[] = {8, 6, 0, 1, 8, 0, 6, 4, 0, 1};
        memcpy(at + 12, arp, sizeof arp);
        memset(at + 22, 1, 20);
        address4(at + 28);
        address4(at + 38);
        return 42;
    }
    case 1:
        put16(at + 12, 0x86dd);
        memset(ip, 0, 40);
        ip[0] = 0x60;
        ip[6] = payload(ip + 40, false, &len);
        ip[7] = (uint8_t)below(256);
        put16(ip + 4, len);
        address6(ip + 8);
        address6(ip + 24);
        return 54 + len;
    default:
        put16(at + 12, 0x0800);
        memset(ip, 0, 20);
        ip[0] = 0x45;
        ip[1] = (uint8_t)below(256);
        ip[9] = payload(ip + 20, true, &len);
        put16(ip + 2, 20 + len);
        put16(ip + 6, below(4) ? 0x4000 : 0x2000 * below(2) + below(3));
        ip[8] = (uint8_t)below(256);
        address4(ip + 12);
        address4(ip + 16);
        return 34 + len;
    }
}

/* ---- expressions */

static size_t at;

static void put(const char *format, ...)
{
    va_list list;
    va_start(list, format);
    at += (size_t)vsnprintf(text + at, TEXT - at, format, list);
    va_end(list);
}

static const char *one_of(const char *const *words, size_t count) { return words[below(count)]; }

#define ONE_OF(...) one_of((const char *const[]){__VA_ARGS__}, sizeof((const char *const[]){__VA_ARGS__}) / sizeof(char *))

static const char *direction(void) { return ONE_OF("", "src ", "dst ", "src or dst ", "src and dst "); }

static void put_ipv4(void)
{
    uint8_t a[4];
    address4(a);
    put("%u.%u.%u.%u", a[0], a[1], a[2], a[3]);
}

static void primitive(void)
{
    static const char *const RELATIONS[] = {"=", "!=", "<", "<=", ">", ">="};
    const char *relation = one_of(RELATIONS, 6);
    switch (below(14)) {
    case 0:
        put("%s", ONE_OF("ip", "ip6", "arp", "tcp", "udp", "icmp", "icmp6"));
        break;
    case 1:
        put("%s%sport %zu", ONE_OF("", "tcp ", "udp "), direction(), port());
        break;
    case 2: {
        size_t low = port();
        put("%s%sportrange %zu-%zu", ONE_OF("", "tcp ", "udp "), direction(), low, low + below(65536 - low));
        break;
    }
    case 3:
        put("%s%shost ", ONE_OF("", "ip ", "arp "), direction());
        put_ipv4();
        break;
    case 4:
        put("%snet %s", direction(), ONE_OF("10.0.0.0/8", "192.168.0.0/16", "172.16.0.0/23", "10.0.1.0/24", "224.0.0.0/4"));
        break;
    case 5:
        put("%shost 2001:db8::%zu", direction(), 1 + below(4));
        break;
    case 6:
        put("%snet 2001:db8::%s", direction(), ONE_OF("/32", "2/127", "4/126"));
        break;
    case 7:
        put("%s %zu", ONE_OF("less", "greater"), 40 + below(80));
        break;
    case 8:
        put("ether %shost %s", ONE_OF("", "src ", "dst "), ONE_OF("02:00:00:00:00:01", "03:00:00:00:00:02", "ff:ff:ff:ff:ff:ff"));
        break;
    case 9:
        put("ether proto %s", ONE_OF("0x0800", "0x0806", "\\ip6", "0x1234"));
        break;
    case 10:
        put("%s", ONE_OF("broadcast", "ether multicast", "ip6 multicast", "ip[16] >= 224"));
        break;
    case 11:
        put("ip[%zu] & %zu %s %zu", below(20), below(256), relation, below(256));
        break;
    case 12:
        put("%s proto %zu", ONE_OF("ip", "ip6"), (size_t)(uint8_t[]){1, 6, 17, 58, 132}[below(5)]);
        break;
    default:
        put("(ip and tcp[tcpflags] & (tcp-syn|tcp-fin) %s %zu)", relation, below(4));
    }
}

static void expression(int depth)
{
    if (depth == 0 || below(3) == 0) {
        primitive();
    } else if (below(4) == 0) {
        put("not (");
        expression(depth - 1);
        put(")");
    } else {
        const char *operator= ONE_OF(" and ", " or ", " && ", " || ");
        put("((");
        expression(depth - 1);
        put(")%s(", operator);
        expression(depth - 1);
        put("))");
    }
}

static void words(void)
{
    size_t count = below(70);
    for (size_t i = 0; i < count; i++) {
        put("%s%s", ONE_OF("and", "or", "not", "(", ")", "tcp", "port", "80", "host", "10.0.0.1", "net", "mask", "ip[", "]", "=", "ether", "vlan",
                "src", "dst", "mpls", "less", "first", "fragment", "checksum", "wrong", "10.0.0.0/8", "x", "\xff", "len", "&", "|"),
            ONE_OF(" ", "\t", "", "\n"));
    }
}

/* The text at the end of a page, and a filter that holds other bytes. */
static bool compiled(uint8_t *end, struct etherparse_filter *filter, struct etherparse_filter_refusal *refusal)
{
    memcpy(end - at, text, at);
    memset(filter, (int)below(256), sizeof *filter);
    memset(refusal, 0xa5, sizeof *refusal);
    return etherparse_filter_from_text((const char *)end - at, at, filter, refusal);
}

int main(int count, char **numbers)
{
    struct etherparse_filter filter;
    struct etherparse_filter_refusal refusal;
    struct etherparse_frame frames[FRAMES];
    bool answers[FRAMES + 1];
    uint8_t *ends[FRAMES];
    uint8_t *text_end = pages(TEXT);
    size_t turns = count > 1 ? strtoull(numbers[1], NULL, 10) : 1000;
    size_t asked = 0;
    size_t chosen = 0;
    size_t read = 0;
    state += count > 2 ? strtoull(numbers[2], NULL, 10) : 0;
    for (size_t i = 0; i < FRAMES; i++) ends[i] = pages(ROOM);
    pcap_t *dead = pcap_open_dead(DLT_EN10MB, 65535);
    for (size_t turn = 0; turn < turns; turn++) {
        for (size_t i = 0; i < FRAMES; i++) {
            uint8_t made[ROOM];
            size_t len = frame(made);
            memcpy(ends[i] - len, made, len);
            frames[i] = (struct etherparse_frame){ends[i] - len, len, len + below(2) * below(20)};
        }
        at = 0;
        expression(3);
        struct bpf_program program;
        /* The optimiser of libpcap refuses an expression that it finds true of no packet. */
        bool none = pcap_compile(dead, &program, text, (int)below(2), PCAP_NETMASK_UNKNOWN) != 0;
        if (none) expect(strstr(pcap_geterr(dead), "rejects all packets") != NULL, pcap_geterr(dead));
        if (compiled(text_end, &filter, &refusal)) {
            answers[FRAMES] = turn % 2;
            size_t done = etherparse_filter_matches_batch(&filter, 1, frames, FRAMES, answers, FRAMES + turn % 2);
            expect(done == FRAMES && answers[FRAMES] == (turn % 2 == 1), "how many answers");
            expect(refusal.kind == 0 && refusal.place == 0 && refusal.expected == 0 && refusal.found == 0, "a refusal");
            for (size_t i = 0; i < FRAMES; i++) {
                bool peer = !none && bpf_filter(program.bf_insns, frames[i].at, (u_int)frames[i].original_len, (u_int)frames[i].len) != 0;
                expect(answers[i] == peer, "a frame is chosen by one alone");
                expect(answers[i] == etherparse_filter_matches(&filter, 1, frames[i].at, frames[i].len, frames[i].original_len), "one frame");
                chosen += peer;
            }
            asked++;
        } else {
            expect(refusal.kind == ETHERPARSE_FILTER_TOO_LONG, "a refusal");
        }
        if (!none) pcap_freecode(&program);

        at = 0;
        text[0] = 0;
        words();
        if (compiled(text_end, &filter, &refusal)) {
            read++;
            expect(refusal.kind == 0 && refusal.place == 0, "a refusal");
        } else {
            char why[ETHERPARSE_FILTER_ERROR_TEXT_SIZE];
            size_t len = etherparse_filter_error_text(&refusal, why, sizeof why);
            expect(refusal.kind >= 1 && refusal.kind <= 5, "a kind");
            expect(refusal.kind == ETHERPARSE_FILTER_INCOMPLETE ? refusal.place == at : refusal.place < at, "a place");
            expect(len < sizeof why && len == strlen(why) && strncmp(why, "Expression Error: ", 18) == 0, "a text");
            for (size_t i = 0; i < FRAMES; i++) expect(!etherparse_filter_matches(&filter, 1, frames[i].at, frames[i].len, frames[i].len), "a choice");
        }
    }
    pcap_close(dead);
    printf("%zu expressions, each for %d frames: all answers are libpcap's, of which %zu are yes. Of %zu other texts %zu were read.\n", asked, FRAMES,
        chosen, turns, read);
    return 0;
}
