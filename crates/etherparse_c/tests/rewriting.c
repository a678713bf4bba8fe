/* Worked values by the calls from C. The expected bytes are those of a model that computes every checksum anew from the words of
 * RFC 1071; what a call returns is a clause in src/, and this tests the way through the header file. */

#include "etherparse_rewriting.h"
#include "compare.h"

#define EXPECT_BYTES(found, digits) expect_bytes(__LINE__, found, sizeof(found), digits)

/* The bytes that hex digits spell; returns how many. */
static size_t bytes_of(const char *digits, uint8_t *at)
{
    unsigned byte;
    size_t len = 0;
    while (sscanf(digits + 2 * len, "%2x", &byte) == 1)
        at[len++] = (uint8_t)byte;
    return len;
}

static void expect_bytes(int line, const uint8_t *found, size_t len, const char *digits)
{
    uint8_t expected[128];
    compare(line, "the number of bytes", len, bytes_of(digits, expected));
    compare(line, "the bytes", memcmp(found, expected, len) == 0, 1);
}

static const uint8_t INSIDE[4] = {192, 168, 0, 1};
static const uint8_t SERVER[4] = {192, 168, 0, 199};
static const uint8_t PUBLIC[4] = {198, 51, 100, 7};
static const uint8_t OTHER_SERVER[4] = {10, 0, 0, 2};
static const uint8_t FIRST[16] = {0x20, 0x01, 0x0d, 0xb8, 0, 0, 0, 0, 0, 0, 0, 0, 0, 0, 0, 1};
static const uint8_t SECOND[16] = {0x20, 0x01, 0x0d, 0xb8, 0, 0, 0, 0, 0, 0, 0, 0, 0, 0, 0, 2};

static void expect_ipv4(int line, uint8_t protocol, const char *digits, uint32_t error, uint16_t checksum, size_t place)
{
    uint8_t segment[64];
    uint8_t before[64];
    size_t len = bytes_of(digits, segment);
    struct etherparse_checksum_answer answer = etherparse_checksum_ipv4(INSIDE, SERVER, protocol, segment, len);
    compare(line, "error", answer.error, error);
    compare(line, "checksum", answer.checksum, checksum);
    memcpy(before, segment, len);
    compare(line, "set: error", etherparse_set_checksum_ipv4(INSIDE, SERVER, protocol, segment, len), error);
    if (error == 0) {
        before[place] = (uint8_t)(checksum >> 8);
        before[place + 1] = (uint8_t)checksum;
    }
    compare(line, "set: bytes", memcmp(segment, before, len) == 0, 1);
}

static void expect_ipv6(int line, uint8_t number, const char *digits, uint32_t error, uint16_t checksum, size_t place)
{
    uint8_t segment[64];
    uint8_t before[64];
    size_t len = bytes_of(digits, segment);
    struct etherparse_checksum_answer answer = etherparse_checksum_ipv6(FIRST, SECOND, number, segment, len);
    compare(line, "error", answer.error, error);
    compare(line, "checksum", answer.checksum, checksum);
    memcpy(before, segment, len);
    compare(line, "set: error", etherparse_set_checksum_ipv6(FIRST, SECOND, number, segment, len), error);
    if (error == 0) {
        before[place] = (uint8_t)(checksum >> 8);
        before[place + 1] = (uint8_t)checksum;
    }
    compare(line, "set: bytes", memcmp(segment, before, len) == 0, 1);
}

static void checksums(void)
{
    static uint8_t long_segment[65536];
    expect_ipv4(__LINE__, 17, "04000035000cffff74657374", 0, 0x91ae, 6);
    expect_ipv4(__LINE__, 6, "04000050010203040506070850182000abcd0000616263", 0, 0x34ea, 16);
    expect_ipv4(__LINE__, 1, "08001111123400016162", 0, 0x8468, 2);
    expect_ipv6(__LINE__, 17, "04000035000cffff74657374", 0, 0xb852, 6);
    expect_ipv6(__LINE__, 6, "04000050010203040506070850182000abcd0000616263", 0, 0x5b8e, 16);
    expect_ipv6(__LINE__, 58, "80001111123400016162", 0, 0xb0ae, 2);
    /* A complement of 0, which UDP sends as all ones; and what comes after the datagram does not count. */
    expect_ipv4(__LINE__, 17, "04000035000a0000798c", 0, 0xffff, 6);
    expect_ipv4(__LINE__, 17, "04000035000a0000798c0102", 0, 0xffff, 6);
    expect_ipv4(__LINE__, 58, "80001111123400016162", ETHERPARSE_REWRITING_OTHER_PROTOCOL, 0, 0);
    expect_ipv6(__LINE__, 1, "08001111123400016162", ETHERPARSE_REWRITING_OTHER_PROTOCOL, 0, 0);
    expect_ipv4(__LINE__, 17, "04000035000700", ETHERPARSE_REWRITING_INCOMPLETE, 0, 0);
    expect_ipv4(__LINE__, 17, "0400003500070000", ETHERPARSE_REWRITING_INCOMPLETE, 0, 0);
    expect_ipv4(__LINE__, 17, "0400003500090000", ETHERPARSE_REWRITING_INCOMPLETE, 0, 0);
    expect_ipv4(__LINE__, 6, "04000050010203040506070850182000abcd00", ETHERPARSE_REWRITING_INCOMPLETE, 0, 0);
    expect_ipv6(__LINE__, 58, "800011", ETHERPARSE_REWRITING_INCOMPLETE, 0, 0);
    EXPECT(etherparse_checksum_ipv4(INSIDE, SERVER, 6, long_segment, 65536).error, ETHERPARSE_REWRITING_TOO_LONG);
    EXPECT(etherparse_checksum_ipv4(INSIDE, SERVER, 6, long_segment, 65535).error, 0);
    EXPECT(etherparse_checksum_ipv4(INSIDE, SERVER, 1, long_segment, 65536).checksum, 0xffff);
}

/* A datagram with an option in the header of IP, whose fields are changed one after the other. */
static void fields(void)
{
    uint8_t packet[36];
    struct etherparse_reach_answer answer;
    bytes_of("46b9002400000000401162f3c0a80001c0a800c79404000004000035000c91ae74657374", packet);
    answer = etherparse_set_source_ipv4(packet, sizeof packet, PUBLIC);
    EXPECT(answer.error, 0);
    EXPECT(answer.reach, ETHERPARSE_REACH_UPPER);
    EXPECT_BYTES(packet, "46b90024000000004011f961c6336407c0a800c79404000004000035000c281d74657374");
    answer = etherparse_set_destination_ipv4(packet, sizeof packet, OTHER_SERVER);
    EXPECT(answer.error, 0);
    EXPECT(answer.reach, ETHERPARSE_REACH_UPPER);
    EXPECT_BYTES(packet, "46b90024000000004011b0cfc63364070a0000029404000004000035000cdf8a74657374");
    EXPECT(etherparse_set_source_port(packet, sizeof packet, 40000), 0);
    EXPECT_BYTES(packet, "46b90024000000004011b0cfc63364070a000002940400009c400035000c474a74657374");
    EXPECT(etherparse_set_destination_port(packet, sizeof packet, 5353), 0);
    EXPECT_BYTES(packet, "46b90024000000004011b0cfc63364070a000002940400009c4014e9000c329674657374");
    EXPECT(etherparse_set_dscp(packet, sizeof packet, 10), 0);
    EXPECT_BYTES(packet, "46290024000000004011b15fc63364070a000002940400009c4014e9000c329674657374");
    EXPECT(etherparse_set_ecn(packet, sizeof packet, 3), 0);
    EXPECT_BYTES(packet, "462b0024000000004011b15dc63364070a000002940400009c4014e9000c329674657374");
}

/* The same of TCP, with two bytes that the link added, and over IPv6. */
static void segments(void)
{
    uint8_t packet[45];
    uint8_t longer[63];
    bytes_of("4500002b000000004006f8b4c0a80001c0a800c70400005001020304050607085018200034ea00006162630709", packet);
    EXPECT(etherparse_set_source_ipv4(packet, sizeof packet, PUBLIC).reach, ETHERPARSE_REACH_UPPER);
    EXPECT(etherparse_set_destination_ipv4(packet, sizeof packet, OTHER_SERVER).reach, ETHERPARSE_REACH_UPPER);
    EXPECT(etherparse_set_source_port(packet, sizeof packet, 40000), 0);
    EXPECT(etherparse_set_destination_port(packet, sizeof packet, 8080), 0);
    EXPECT_BYTES(packet, "4500002b0000000040064691c63364070a0000029c401f90010203040506070850182000cb4500006162630709");
    bytes_of("6b9123450017064020010db800000000000000000000000120010db8000000000000000000000002040000500102030405060708501820005b8e"
             "0000616263", longer);
    EXPECT(etherparse_set_source_port(longer, sizeof longer, 40000), 0);
    EXPECT(etherparse_set_destination_port(longer, sizeof longer, 8080), 0);
    EXPECT(etherparse_set_dscp(longer, sizeof longer, 10), 0);
    EXPECT(etherparse_set_ecn(longer, sizeof longer, 3), 0);
    EXPECT_BYTES(longer, "62b123450017064020010db800000000000000000000000120010db80000000000000000000000029c401f90010203040506070850182000"
                         "a40d0000616263");
    EXPECT(etherparse_set_source_ipv4(longer, sizeof longer, PUBLIC).error, ETHERPARSE_REWRITING_OTHER_VERSION);
}

/* Other addresses of IPv6: of a message of ICMPv6, whose checksum covers them, and of TCP. */
static void longer_addresses(void)
{
    static const uint8_t source[16] = {0x20, 0x01, 0x0d, 0xb8, 0x12, 0x34, 0, 0, 0, 0, 0, 0, 0, 0, 0, 0x77};
    static const uint8_t destination[16] = {0x20, 0x01, 0x0d, 0xb8, 0, 5, 0, 0, 0, 0, 0, 0, 0, 0, 0, 0x99};
    uint8_t message[50];
    uint8_t segment[63];
    uint8_t mobile[76];
    uint8_t older[32];
    bytes_of("60000000000a3a4020010db800000000000000000000000120010db80000000000000000000000028000b0ae123400016162", message);
    EXPECT(etherparse_set_source_ipv6(message, sizeof message, source).reach, ETHERPARSE_REACH_UPPER);
    EXPECT(etherparse_set_destination_ipv6(message, sizeof message, destination).error, 0);
    EXPECT_BYTES(message, "60000000000a3a4020010db812340000000000000000007720010db800050000000000000000009980009d68123400016162");
    bytes_of("62b123450017064020010db800000000000000000000000120010db80000000000000000000000029c401f90010203040506070850182000a40d"
             "0000616263", segment);
    EXPECT(etherparse_set_source_ipv6(segment, sizeof segment, source).reach, ETHERPARSE_REACH_UPPER);
    EXPECT(etherparse_set_destination_ipv6(segment, sizeof segment, destination).reach, ETHERPARSE_REACH_UPPER);
    EXPECT_BYTES(segment, "62b123450017064020010db812340000000000000000007720010db80005000000000000000000999c401f90010203040506070850182000"
                          "90c70000616263");
    /* The checksum of a mobile node covers its home address, 2001:db8::5, wherever it sends from. */
    bytes_of("6000000000243c4020010db800000000000000000000000120010db8000000000000000000000002110201020000c91020010db800000000"
             "000000000000000504000035000cb84e74657374", mobile);
    EXPECT(etherparse_set_source_ipv6(mobile, sizeof mobile, source).reach, ETHERPARSE_REACH_UPPER);
    EXPECT_BYTES(mobile, "6000000000243c4020010db812340000000000000000007720010db8000000000000000000000002110201020000c910"
                         "20010db800000000000000000000000504000035000cb84e74657374");
    bytes_of("45000020000000004011f8b4c0a80001c0a800c704000035000c000074657374", older);
    EXPECT(etherparse_set_source_ipv6(older, sizeof older, source).error, ETHERPARSE_REWRITING_OTHER_VERSION);
}

/* A later fragment, a message of ICMP, and a datagram without a checksum. */
static void headers_alone(void)
{
    uint8_t later[28];
    uint8_t message[30];
    uint8_t none[32];
    bytes_of("4500001c123420014011c683c0a80001c0a800c70102030405060708", later);
    EXPECT(etherparse_set_source_ipv4(later, sizeof later, PUBLIC).reach, ETHERPARSE_REACH_LATER_FRAGMENT);
    EXPECT_BYTES(later, "4500001c1234200140115cf2c6336407c0a800c70102030405060708");
    EXPECT(etherparse_set_source_port(later, sizeof later, 1), ETHERPARSE_REWRITING_LATER_FRAGMENT);
    bytes_of("4500001e000000004001f8c6c0a80001c0a800c708008468123400016162", message);
    EXPECT(etherparse_set_source_ipv4(message, sizeof message, PUBLIC).reach, ETHERPARSE_REACH_OTHER_PROTOCOL);
    EXPECT_BYTES(message, "4500001e0000000040018f35c6336407c0a800c708008468123400016162");
    EXPECT(etherparse_set_destination_port(message, sizeof message, 1), ETHERPARSE_REWRITING_OTHER_PROTOCOL);
    bytes_of("45000020000000004011f8b4c0a80001c0a800c704000035000c000074657374", none);
    EXPECT(etherparse_set_source_ipv4(none, sizeof none, PUBLIC).reach, ETHERPARSE_REACH_UPPER);
    EXPECT_BYTES(none, "450000200000000040118f23c6336407c0a800c704000035000c000074657374");
}

static void refusals(void)
{
    uint8_t packet[28];
    bytes_of("4500001c000020004006e8c3c0a80001c0a800c70400005001020304", packet);
    EXPECT(etherparse_set_source_ipv4(packet, 0, PUBLIC).error, ETHERPARSE_REWRITING_EMPTY);
    EXPECT(etherparse_set_source_ipv4(packet, 19, PUBLIC).error, ETHERPARSE_REWRITING_IPV4_HEADER);
    EXPECT(etherparse_set_source_ipv4(packet, 27, PUBLIC).error, ETHERPARSE_REWRITING_PACKET);
    EXPECT(etherparse_set_source_ipv4(packet, 28, PUBLIC).error, ETHERPARSE_REWRITING_INCOMPLETE);
    EXPECT(etherparse_set_source_ipv4(packet, 28, PUBLIC).reach, 0);
    EXPECT(etherparse_set_source_port(packet, 28, 7), ETHERPARSE_REWRITING_INCOMPLETE);
    EXPECT(etherparse_set_dscp(packet, 28, 64), ETHERPARSE_REWRITING_VALUE_TOO_BIG);
    EXPECT(etherparse_set_ecn(packet, 28, 4), ETHERPARSE_REWRITING_VALUE_TOO_BIG);
    EXPECT_BYTES(packet, "4500001c000020004006e8c3c0a80001c0a800c70400005001020304");
    packet[0] = 0x55;
    EXPECT(etherparse_set_dscp(packet, 28, 1), ETHERPARSE_REWRITING_UNEXPECTED_VERSION);
    packet[0] = 0x65;
    EXPECT(etherparse_set_ecn(packet, 28, 1), ETHERPARSE_REWRITING_IPV6_HEADER);
}

static void texts(void)
{
    static const char cut[8] = {'T', 'h', 'e', ' ', 0, 7, 7, 7};
    char text[ETHERPARSE_REWRITING_ERROR_TEXT_SIZE];
    memset(text, 7, sizeof text);
    EXPECT(etherparse_rewriting_error_text(ETHERPARSE_REWRITING_EMPTY, text, 5), 24);
    EXPECT(memcmp(text, cut, 8), 0);
    EXPECT(etherparse_rewriting_error_text(ETHERPARSE_REWRITING_EMPTY, text, 0), 24);
    EXPECT(memcmp(text, cut, 8), 0);
    for (uint32_t error = 1; error <= 12; error++) {
        size_t len = etherparse_rewriting_error_text(error, text, sizeof text);
        EXPECT(len, strlen(text));
        EXPECT(len > 20 && len < sizeof text, 1);
    }
    etherparse_rewriting_error_text(ETHERPARSE_REWRITING_TOO_LONG, text, sizeof text);
    EXPECT(strcmp(text, "The pseudo-header has no room for the length."), 0);
    EXPECT(etherparse_rewriting_error_text(13, text, sizeof text), 0);
    EXPECT(text[0], 0);
}

int main(void)
{
    checksums();
    fields();
    segments();
    longer_addresses();
    headers_alone();
    refusals();
    texts();
    printf("%d answers are right, %d are not.\n", right, wrong);
    return wrong != 0;
}
