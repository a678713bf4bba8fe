/* fuzz COUNT SECONDS [SEED]: calls every function of the library on COUNT inputs, for SECONDS at most, and compares each
 * answer, and the whole packet after it, with the reference.
 *
 * An input is an IP packet of random fields, often with the right lengths and checksums, which may be cut, padded or damaged, at
 * one end of a page between two pages that cannot be read; and a segment with addresses and a number, which stands there too. */

#define _DEFAULT_SOURCE
#include "fuzz.h"
#include "reference_rewriting.h"

#include <stdio.h>
#include <stdlib.h>
#include <string.h>
#include <time.h>
#include <unistd.h>

enum { LONG = 96 << 10 };

static size_t page_len;
static uint8_t *page;
static uint8_t *addresses;
static uint8_t *texts;
static uint8_t *long_page;
static unsigned long long changes = 0;

/* A packet at one end of the page, as it was made. */
static uint8_t *placed(const uint8_t *made, size_t len)
{
    uint8_t *at = below(2) == 0 ? page : page + page_len - len;
    memcpy(at, made, len);
    packet = len == 0 ? NULL : at;
    packet_len = len;
    return at;
}

static size_t make_packet(uint8_t *at)
{
    uint8_t version = below(2) == 0 ? 4 : 6;
    size_t len = make_ip(at, version);
    /* First fragments and atomic ones. */
    if (version == 6 && at[6] == 44 && len >= 48 && below(3) != 0)
        put(at + 42, 2, below(2));
    if (version == 4 && below(16) == 0)
        put(at + 6, 2, 0x2000);
    size_t padding = below(4) == 0 ? below(20) : 0;
    fill(at + len, padding);
    len += padding;
    if (below(8) == 0)
        len = below(len + 1);
    for (size_t count = below(4) == 0 ? below(3) : 0; len > 0 && count > 0; count--)
        at[below(len < 80 ? len : 80)] = (uint8_t)next_random();
    return len;
}

/* An address is often the one that is there, or one that differs in little. */
static void make_address(uint8_t *address, size_t len, const uint8_t *there)
{
    fill(address, len);
    if (below(4) == 0)
        memset(address, below(2) == 0 ? 0 : 255, len);
    if (there != NULL && below(4) == 0) {
        memcpy(address, there, len);
        address[below(len)] ^= (uint8_t)below(2);
    }
}

/* The packet was wanted in another form, or is no more the one of its page. */
static void expect_packet(const uint8_t *wanted, const char *what)
{
    expect(packet_len == 0 || memcmp(packet, wanted, packet_len) == 0, what);
}

static void check_address(uint8_t version, bool is_source, uint8_t *at, uint8_t *wanted)
{
    typedef struct etherparse_reach_answer setter(uint8_t *packet, size_t len, const uint8_t *address);
    static setter *const setters[2][2] = {{etherparse_set_destination_ipv4, etherparse_set_source_ipv4},
        {etherparse_set_destination_ipv6, etherparse_set_source_ipv6}};
    size_t len = version == 4 ? 4 : 16, place = (version == 4 ? 12 : 8) + (is_source ? 0 : len);
    uint8_t *address = addresses - len, given[16];
    make_address(address, len, place + len <= packet_len ? at + place : NULL);
    memcpy(given, address, len);
    struct etherparse_reach_answer want = reference_set_address(version, is_source, wanted, packet_len, address);
    struct etherparse_reach_answer got = setters[version == 6][is_source](packet_len == 0 ? NULL : at, packet_len, address);
    expect(got.error == want.error && got.reach == want.reach, "set_source or set_destination: answer");
    expect_packet(wanted, "set_source or set_destination: packet");
    expect(memcmp(given, address, len) == 0, "an address that stays");
    changes += got.error == ETHERPARSE_REWRITING_OK;
}

static void check_port(bool is_source, uint8_t *at, uint8_t *wanted)
{
    uint16_t port = (uint16_t)some_number(65535);
    uint8_t *from = packet_len == 0 ? NULL : at;
    uint32_t want = reference_set_port(is_source, wanted, packet_len, port);
    uint32_t got = is_source ? etherparse_set_source_port(from, packet_len, port)
                             : etherparse_set_destination_port(from, packet_len, port);
    expect(got == want, "set_port: answer");
    expect_packet(wanted, "set_port: packet");
    changes += got == ETHERPARSE_REWRITING_OK;
}

static void check_mark(bool is_dscp, uint8_t *at, uint8_t *wanted)
{
    uint8_t value = (uint8_t)(below(8) == 0 ? below(256) : below(is_dscp ? 64 : 4));
    uint8_t *from = packet_len == 0 ? NULL : at;
    uint32_t want = reference_set_mark(is_dscp, wanted, packet_len, value);
    uint32_t got = is_dscp ? etherparse_set_dscp(from, packet_len, value) : etherparse_set_ecn(from, packet_len, value);
    expect(got == want, "set_dscp or set_ecn: answer");
    expect_packet(wanted, "set_dscp or set_ecn: packet");
    changes += got == ETHERPARSE_REWRITING_OK;
}

/* All changes of a packet, one after the other, from a random one on. */
static void check_packet(const uint8_t *made, size_t len)
{
    uint8_t wanted[MAX_LEN], *at = placed(made, len);
    memcpy(wanted, made, len);
    for (size_t first = below(8), i = 0; i < 8; i++) {
        size_t call = (first + i) % 8;
        if (call < 4)
            check_address(call < 2 ? 4 : 6, call % 2 == 0, at, wanted);
        else if (call < 6)
            check_port(call == 4, at, wanted);
        else
            check_mark(call == 6, at, wanted);
    }
}

static struct etherparse_checksum_answer checksum_by_call(uint8_t version, uint8_t number, const uint8_t *at, size_t len)
{
    size_t address_len = version == 4 ? 4 : 16;
    const uint8_t *source = addresses - 2 * address_len, *destination = addresses - address_len;
    return version == 4 ? etherparse_checksum_ipv4(source, destination, number, at, len)
                        : etherparse_checksum_ipv6(source, destination, number, at, len);
}

static uint32_t set_checksum_by_call(uint8_t version, uint8_t number, uint8_t *at, size_t len)
{
    size_t address_len = version == 4 ? 4 : 16;
    const uint8_t *source = addresses - 2 * address_len, *destination = addresses - address_len;
    return version == 4 ? etherparse_set_checksum_ipv4(source, destination, number, at, len)
                        : etherparse_set_checksum_ipv6(source, destination, number, at, len);
}

/* The checksum of a segment that stands at a place, which is then written; `wanted` has the same bytes. */
static void check_segment(uint8_t version, uint8_t number, uint8_t *at, uint8_t *wanted)
{
    size_t address_len = version == 4 ? 4 : 16;
    const uint8_t *source = addresses - 2 * address_len, *destination = addresses - address_len;
    struct etherparse_checksum_answer want = reference_checksum(version, source, destination, number, wanted, packet_len);
    struct etherparse_checksum_answer got = checksum_by_call(version, number, at, packet_len);
    expect(got.error == want.error && got.checksum == want.checksum, "checksum");
    expect_packet(wanted, "checksum: the segment");
    expect(set_checksum_by_call(version, number, at, packet_len)
        == reference_set_checksum(version, source, destination, number, wanted, packet_len), "set_checksum: answer");
    expect_packet(wanted, "set_checksum: the segment");
}

static void check_checksums(void)
{
    static const uint8_t numbers[] = {17, 17, 6, 6, 1, 58, 0, 50};
    uint8_t made[MAX_LEN], wanted[MAX_LEN], version = below(2) == 0 ? 4 : 6;
    uint8_t number = below(16) == 0 ? (uint8_t)next_random() : numbers[below(8)];
    size_t len = below(4) == 0 ? below(24) : below(300);
    make_address(addresses - 16, 16, NULL);
    make_address(addresses - 32, 16, NULL);
    fill(made, len);
    if (below(16) == 0)
        memset(made, below(2) == 0 ? 0 : 255, len);
    if (number == 17 && len >= 8 && below(8) != 0)
        put(made + 4, 2, below(3) == 0 ? below(2 * len) : len);
    uint8_t *at = placed(made, len);
    memcpy(wanted, made, len);
    check_segment(version, number, len == 0 ? NULL : at, wanted);
}

/* Segments about as long as a pseudo-header can tell, and longer. */
static void check_long(void)
{
    static uint8_t wanted[LONG];
    static const uint8_t numbers[] = {17, 6, 1, 58};
    size_t len = below(2) == 0 ? 65530 + below(12) : below(LONG);
    uint8_t *at = below(2) == 0 ? long_page : long_page + LONG - len, version = below(2) == 0 ? 4 : 6;
    uint8_t number = numbers[below(4)];
    for (size_t i = 0; i + 8 <= len; i += 8)
        put(at + i, 8, next_random());
    if (number == 17 && len >= 8)
        put(at + 4, 2, below(2) == 0 ? 65535 : len);
    memcpy(wanted, at, len);
    packet = at;
    packet_len = len;
    check_segment(version, number, at, wanted);
}

/* The text of an error's number: no two numbers have one text, and the longest has room. */
static void check_text(void)
{
    char whole[ETHERPARSE_REWRITING_ERROR_TEXT_SIZE], other[ETHERPARSE_REWRITING_ERROR_TEXT_SIZE];
    uint32_t error = below(16) == 0 ? (uint32_t)next_random() : (uint32_t)below(15), another = (uint32_t)below(13);
    bool is_one = error >= 1 && error <= 12;
    size_t len = etherparse_rewriting_error_text(error, whole, sizeof whole), room = below(sizeof whole + 20);
    expect(len < sizeof whole && strlen(whole) == len && (len != 0) == is_one, "error_text");
    etherparse_rewriting_error_text(another, other, sizeof other);
    expect(!is_one || error == another || strcmp(whole, other) != 0, "error_text: the same text");
    uint8_t *at = texts - room, before[sizeof whole + 20];
    fill(at, room);
    memcpy(before, at, room);
    expect(etherparse_rewriting_error_text(error, room == 0 ? NULL : (char *)at, room) == len, "error_text: its length");
    if (room == 0)
        return;
    size_t shown = len < room ? len : room - 1;
    expect(memcmp(at, whole, shown) == 0 && at[shown] == 0, "error_text: what is shown");
    expect(memcmp(at + shown + 1, before + shown + 1, room - shown - 1) == 0, "error_text: what stands behind");
}

int main(int argc, char **argv)
{
    if (argc != 3 && argc != 4) {
        fprintf(stderr, "usage: fuzz COUNT SECONDS [SEED]\n");
        return 2;
    }
    unsigned long long count = strtoull(argv[1], NULL, 10), done = 0;
    time_t end = time(NULL) + atoi(argv[2]);
    if (argc == 4)
        seed_random(strtoull(argv[3], NULL, 10));
    page_len = (size_t)sysconf(_SC_PAGESIZE);
    page = guarded_page(page_len);
    addresses = guarded_page(page_len) + page_len;
    texts = guarded_page(page_len) + page_len;
    long_page = guarded_page(LONG);
    for (; done < count && (done % 4096 != 0 || time(NULL) < end); done++) {
        uint8_t made[MAX_LEN];
        check_packet(made, make_packet(made));
        check_checksums();
        check_text();
        if (done % 4096 == 0)
            check_long();
    }
    printf("%llu inputs with %llu changes, and nothing differs: of the checksums %llu were computed anew, and %llu updated.\n",
        done, changes, computed_anew, updated);
    return 0;
}
