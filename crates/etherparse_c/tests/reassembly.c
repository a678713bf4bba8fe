/* Worked values of the standards, by the calls from C: the fragments of RFC 791 section 3.2 and RFC 8200 section 4.5 in each order,
 * overlaps (RFC 5722), a second end, what no datagram can have, packets of both versions, their ECN codepoints (RFC 3168), and each
 * refusal with its numbers. What a call returns is a clause in src/; this tests the way through the header file. */

#include "etherparse_reassembly.h"
#include "compare.h"

#define EXPECT_BYTES(found, expected, len) compare(__LINE__, #found, memcmp(found, expected, len) == 0, 1)

/* The kind of an error, its offset and its length. */
static void expect_error(int line, struct etherparse_defrag_error error, uint32_t kind, uint16_t offset, size_t len)
{
    compare(line, "error.kind", error.kind, kind);
    compare(line, "error.offset", error.offset, offset);
    compare(line, "error.len", error.len, len);
}

#define EXPECT_ERROR(...) expect_error(__LINE__, __VA_ARGS__)

/* A datagram of 21 bytes, and its three fragments of 8, 8 and 5 bytes. */
static const uint8_t datagram[21] = {
    101, 102, 103, 104, 105, 106, 107, 108, 201, 202, 203, 204, 205, 206, 207, 208, 11, 12, 13, 14, 15};

static uint8_t memory[ETHERPARSE_DEFRAG_BUF_MEMORY];
static struct etherparse_defrag_buf_state state;
static uint8_t out[ETHERPARSE_DEFRAG_PACKET_SIZE];

static struct etherparse_defrag_error add(struct etherparse_defrag_buf *buf, int k)
{
    return etherparse_defrag_buf_add(buf, (uint16_t)k, k < 2, datagram + 8 * k, k < 2 ? 8 : 5);
}

static struct etherparse_defrag_buf empty(void)
{
    struct etherparse_defrag_buf buf;
    buf.state = &state;
    memset(memory, 0xa5, sizeof memory);
    memset(&state, 0x5a, sizeof state);
    etherparse_defrag_buf_new(&state, memory, sizeof memory);
    return buf;
}

/* The three in each of their six orders, each of them twice. */
static void orders(void)
{
    static const int order[6][3] = {{0, 1, 2}, {0, 2, 1}, {1, 0, 2}, {1, 2, 0}, {2, 0, 1}, {2, 1, 0}};
    int i, j;
    for (i = 0; i < 6; i++) {
        struct etherparse_defrag_buf buf = empty();
        for (j = 0; j < 3; j++) {
            EXPECT(etherparse_defrag_buf_datagram_state(&buf), ETHERPARSE_DEFRAG_INCOMPLETE);
            EXPECT(etherparse_defrag_buf_datagram(&buf, out, sizeof out), 0);
            EXPECT_ERROR(add(&buf, order[i][j]), ETHERPARSE_DEFRAG_OK, 0, 0);
            EXPECT_ERROR(add(&buf, order[i][0]), ETHERPARSE_DEFRAG_OK, 0, 0);
        }
        EXPECT(etherparse_defrag_buf_datagram_state(&buf), ETHERPARSE_DEFRAG_COMPLETE);
        memset(out, 0x77, 32);
        EXPECT(etherparse_defrag_buf_datagram(&buf, out, 20), 21);
        EXPECT(out[0], 0x77);
        EXPECT(out[19], 0x77);
        EXPECT(etherparse_defrag_buf_datagram(&buf, NULL, 0), 21);
        EXPECT(etherparse_defrag_buf_datagram(&buf, out, 22), 21);
        EXPECT_BYTES(out, datagram, 21);
        EXPECT(out[21], 0x77);
        EXPECT(buf.state == &state, 1);
        etherparse_defrag_buf_clear(&buf);
        EXPECT(etherparse_defrag_buf_datagram_state(&buf), ETHERPARSE_DEFRAG_INCOMPLETE);
        EXPECT(etherparse_defrag_buf_datagram(&buf, out, 22), 0);
        EXPECT_BYTES(out, datagram, 21);
    }
}

/* Fragments that contradict each other: the datagram is gone for good, in both orders. */
static void contradictions(void)
{
    /* The two units of 8 bytes of the datagram in one fragment: of the same bytes, but not the same fragment. */
    struct etherparse_defrag_buf buf = empty();
    EXPECT_ERROR(add(&buf, 1), ETHERPARSE_DEFRAG_OK, 0, 0);
    EXPECT_ERROR(etherparse_defrag_buf_add(&buf, 0, true, datagram, 16), ETHERPARSE_DEFRAG_OK, 0, 0);
    EXPECT(etherparse_defrag_buf_datagram_state(&buf), ETHERPARSE_DEFRAG_DISCARDED);
    EXPECT_ERROR(add(&buf, 0), ETHERPARSE_DEFRAG_OK, 0, 0);
    EXPECT_ERROR(add(&buf, 2), ETHERPARSE_DEFRAG_OK, 0, 0);
    EXPECT(etherparse_defrag_buf_datagram_state(&buf), ETHERPARSE_DEFRAG_DISCARDED);
    EXPECT(etherparse_defrag_buf_datagram(&buf, out, sizeof out), 0);

    /* The same place, and one byte differs. */
    buf = empty();
    EXPECT_ERROR(add(&buf, 0), ETHERPARSE_DEFRAG_OK, 0, 0);
    EXPECT_ERROR(etherparse_defrag_buf_add(&buf, 0, true, datagram + 8, 8), ETHERPARSE_DEFRAG_OK, 0, 0);
    EXPECT(etherparse_defrag_buf_datagram_state(&buf), ETHERPARSE_DEFRAG_DISCARDED);

    /* A second end, after the first and before it. */
    buf = empty();
    EXPECT_ERROR(add(&buf, 2), ETHERPARSE_DEFRAG_OK, 0, 0);
    EXPECT_ERROR(etherparse_defrag_buf_add(&buf, 3, false, datagram, 3), ETHERPARSE_DEFRAG_OK, 0, 0);
    EXPECT(etherparse_defrag_buf_datagram_state(&buf), ETHERPARSE_DEFRAG_DISCARDED);
    buf = empty();
    EXPECT_ERROR(add(&buf, 2), ETHERPARSE_DEFRAG_OK, 0, 0);
    EXPECT_ERROR(etherparse_defrag_buf_add(&buf, 1, false, datagram + 8, 8), ETHERPARSE_DEFRAG_OK, 0, 0);
    EXPECT(etherparse_defrag_buf_datagram_state(&buf), ETHERPARSE_DEFRAG_DISCARDED);
    etherparse_defrag_buf_clear(&buf);
    EXPECT(etherparse_defrag_buf_datagram_state(&buf), ETHERPARSE_DEFRAG_INCOMPLETE);
}

/* What no datagram can have; each is as if it had not come. */
static void refusals(void)
{
    struct etherparse_defrag_buf buf = empty();
    EXPECT_ERROR(add(&buf, 0), ETHERPARSE_DEFRAG_OK, 0, 0);
    EXPECT_ERROR(etherparse_defrag_buf_add(&buf, 5, true, NULL, 0), ETHERPARSE_DEFRAG_EMPTY, 5, 0);
    EXPECT_ERROR(etherparse_defrag_buf_add(&buf, 3, true, out, 9), ETHERPARSE_DEFRAG_UNALIGNED_LEN, 3, 9);
    EXPECT_ERROR(etherparse_defrag_buf_add(&buf, 8191, false, out, 8), ETHERPARSE_DEFRAG_TOO_BIG, 8191, 8);
    EXPECT_ERROR(etherparse_defrag_buf_add(&buf, 8000, false, out, 1536), ETHERPARSE_DEFRAG_TOO_BIG, 8000, 1536);
    EXPECT_ERROR(etherparse_defrag_buf_add(&buf, 8192, false, out, 1), ETHERPARSE_DEFRAG_OFFSET, 8192, 0);
    EXPECT_ERROR(etherparse_defrag_buf_add(&buf, 65535, true, NULL, 0), ETHERPARSE_DEFRAG_OFFSET, 65535, 0);
    EXPECT_ERROR(add(&buf, 1), ETHERPARSE_DEFRAG_OK, 0, 0);
    EXPECT_ERROR(add(&buf, 2), ETHERPARSE_DEFRAG_OK, 0, 0);
    EXPECT(etherparse_defrag_buf_datagram(&buf, out, sizeof out), 21);

    /* The longest: 65535 bytes. */
    buf = empty();
    memset(out, 0x3c, sizeof out);
    EXPECT_ERROR(etherparse_defrag_buf_add(&buf, 8191, false, out, 7), ETHERPARSE_DEFRAG_OK, 0, 0);
    EXPECT_ERROR(etherparse_defrag_buf_add(&buf, 0, true, out, 65528), ETHERPARSE_DEFRAG_OK, 0, 0);
    EXPECT(etherparse_defrag_buf_datagram_state(&buf), ETHERPARSE_DEFRAG_COMPLETE);
    EXPECT(etherparse_defrag_buf_datagram(&buf, out, 65535), 65535);
}

/* An IPv4 packet from 192.0.2.1 to 192.0.2.2 that is the fragment k of the datagram, with this identification. */
static size_t ipv4(uint8_t *packet, uint16_t identification, int k)
{
    static const uint8_t header[20] = {0x45, 0, 0, 28, 0xab, 0xcd, 0x20, 0, 63, 17, 0, 0, 192, 0, 2, 1, 192, 0, 2, 2};
    size_t len = k < 2 ? 8 : 5;
    memcpy(packet, header, 20);
    packet[3] = (uint8_t)(20 + len);
    packet[4] = (uint8_t)(identification >> 8);
    packet[5] = (uint8_t)identification;
    packet[6] = k < 2 ? 0x20 : 0;
    packet[7] = (uint8_t)k;
    memcpy(packet + 20, datagram + 8 * k, len);
    return 20 + len;
}

static uint8_t slot_memory[2][ETHERPARSE_DEFRAG_SLOT_MEMORY];
static struct etherparse_defrag_slot slots[2];
static struct etherparse_defrag_pool_state pool_state;

static struct etherparse_defrag_pool pool_of(size_t count)
{
    struct etherparse_defrag_pool pool;
    size_t k;
    pool.state = &pool_state;
    for (k = 0; k < count; k++) {
        memset(slot_memory[k], 0x99, ETHERPARSE_DEFRAG_SLOT_MEMORY);
        etherparse_defrag_slot_new(&slots[k], slot_memory[k], ETHERPARSE_DEFRAG_SLOT_MEMORY);
    }
    etherparse_defrag_pool_new(&pool_state, slots, count, ETHERPARSE_DEFRAG_TIMEOUT_SECONDS);
    return pool;
}

#define NO_VLAN ETHERPARSE_DEFRAG_NO_VLAN

/* The id is that of no packet, or of an IPv4 packet of ipv4() in these VLANs. */
static void expect_id(int line, struct etherparse_frag_id id, uint8_t version, uint32_t outer, uint32_t inner, uint16_t identification)
{
    static const uint8_t none[16] = {0}, source[16] = {192, 0, 2, 1}, destination[16] = {192, 0, 2, 2};
    compare(line, "version", id.version, version);
    compare(line, "outer_vlan_id", id.outer_vlan_id, outer);
    compare(line, "inner_vlan_id", id.inner_vlan_id, inner);
    compare(line, "identification", id.identification, identification);
    compare(line, "protocol", id.protocol, version == 4 ? 17 : 0);
    compare(line, "source", memcmp(id.source, version == 4 ? source : none, 16) == 0, 1);
    compare(line, "destination", memcmp(id.destination, version == 4 ? destination : none, 16) == 0, 1);
}

#define EXPECT_ID(...) expect_id(__LINE__, __VA_ARGS__)

static void expect_added(int line, struct etherparse_defrag_added added, size_t slot, uint32_t is)
{
    expect_error(line, added.error, ETHERPARSE_DEFRAG_OK, 0, 0);
    compare(line, "added.slot", added.slot, slot);
    compare(line, "added.state", added.state, is);
}

#define EXPECT_ADDED(...) expect_added(__LINE__, __VA_ARGS__)

static void expect_refused(int line, struct etherparse_defrag_added added, uint32_t kind, uint16_t offset, size_t len)
{
    expect_error(line, added.error, kind, offset, len);
    compare(line, "added.slot", added.slot, 0);
    compare(line, "added.state", added.state, ETHERPARSE_DEFRAG_NO_FRAGMENT);
    expect_id(line, added.given_up, 0, 0, 0, 0);
}

#define EXPECT_REFUSED(...) expect_refused(__LINE__, __VA_ARGS__)

/* Packets of IPv4 in two slots: the packet once it is whole, the oldest that is given up, and the timeout. */
static void ipv4_packets(void)
{
    /* The header with the total length of the whole, no offset, no more fragments and the checksum of that. */
    static const uint8_t header[20] = {0x45, 0, 0, 41, 0xab, 0xcd, 0, 0, 63, 17, 0x4b, 0xf3, 192, 0, 2, 1, 192, 0, 2, 2};
    struct etherparse_defrag_pool pool = pool_of(2);
    struct etherparse_defrag_added added;
    struct etherparse_defrag_written written;
    uint8_t packet[64];
    size_t len = ipv4(packet, 0xabcd, 2);
    added = etherparse_defrag_pool_add_packet(&pool, packet, len, 7, NO_VLAN, 100);
    EXPECT_ADDED(added, 0, ETHERPARSE_DEFRAG_INCOMPLETE);
    EXPECT_ID(added.given_up, 0, 0, 0, 0);
    /* The same in another VLAN is of another datagram. */
    added = etherparse_defrag_pool_add_packet(&pool, packet, len, 7, 9, 101);
    EXPECT_ADDED(added, 1, ETHERPARSE_DEFRAG_INCOMPLETE);
    written = etherparse_defrag_pool_write_packet(&pool, 0, out, sizeof out);
    EXPECT(written.len, 0);
    EXPECT_ERROR(written.error, ETHERPARSE_DEFRAG_OK, 0, 0);
    len = ipv4(packet, 0xabcd, 0);
    EXPECT_ADDED(etherparse_defrag_pool_add_packet(&pool, packet, len, 7, NO_VLAN, 102), 0, ETHERPARSE_DEFRAG_INCOMPLETE);
    /* What follows the packet does not count. */
    len = ipv4(packet, 0xabcd, 1);
    added = etherparse_defrag_pool_add_packet(&pool, packet, len + 6, 7, NO_VLAN, 103);
    EXPECT_ADDED(added, 0, ETHERPARSE_DEFRAG_COMPLETE);
    EXPECT_ID(added.given_up, 0, 0, 0, 0);
    memset(out, 0, 64);
    written = etherparse_defrag_pool_write_packet(&pool, added.slot, out, sizeof out);
    EXPECT(written.len, 41);
    EXPECT_ERROR(written.error, ETHERPARSE_DEFRAG_OK, 0, 0);
    EXPECT_BYTES(out, header, 20);
    EXPECT_BYTES(out + 20, datagram, 21);

    /* A packet that is whole is no fragment. */
    EXPECT_REFUSED(etherparse_defrag_pool_add_packet(&pool, out, written.len, 7, NO_VLAN, 104), ETHERPARSE_DEFRAG_OK, 0, 0);

    /* No slot is left: the oldest is given up. */
    len = ipv4(packet, 0x1234, 1);
    added = etherparse_defrag_pool_add_packet(&pool, packet, len, 5, 6, 105);
    EXPECT_ADDED(added, 0, ETHERPARSE_DEFRAG_INCOMPLETE);
    EXPECT_ID(added.given_up, 4, 7, NO_VLAN, 0xabcd);
    /* A slot that is released is free. */
    etherparse_defrag_pool_release(&pool, 0);
    len = ipv4(packet, 0x5678, 1);
    added = etherparse_defrag_pool_add_packet(&pool, packet, len, 5, 6, 106);
    EXPECT_ADDED(added, 0, ETHERPARSE_DEFRAG_INCOMPLETE);
    EXPECT_ID(added.given_up, 0, 0, 0, 0);
    /* 60 seconds after its first fragment a datagram is given up: the one in slot 1 began at 101. */
    len = ipv4(packet, 0xabcd, 0);
    added = etherparse_defrag_pool_add_packet(&pool, packet, len, 7, 9, 160);
    EXPECT_ADDED(added, 1, ETHERPARSE_DEFRAG_INCOMPLETE);
    EXPECT_ID(added.given_up, 0, 0, 0, 0);
    added = etherparse_defrag_pool_add_packet(&pool, packet, len, 7, 9, 161);
    EXPECT_ADDED(added, 1, ETHERPARSE_DEFRAG_INCOMPLETE);
    EXPECT_ID(added.given_up, 4, 7, 9, 0xabcd);
    /* A fragment that contradicts it: it is discarded. */
    packet[20] = 1;
    EXPECT_ADDED(etherparse_defrag_pool_add_packet(&pool, packet, len, 7, 9, 162), 1, ETHERPARSE_DEFRAG_DISCARDED);
    written = etherparse_defrag_pool_write_packet(&pool, 1, out, sizeof out);
    EXPECT(written.len, 0);
    EXPECT(pool.state == &pool_state, 1);
}

/* The ECN codepoints of three fragments, and of their packet, if it is not dropped (RFC 3168 section 5.3): CE, 3, is not lost, and is
 * not set beside Not-ECT, 0. */
static void codepoints(void)
{
    enum { DROPPED = 4 };
    static const uint8_t cases[][4] = {{2, 2, 3, 3}, {3, 1, 2, 3}, {3, 3, 3, 3}, {2, 1, 1, 2}, {1, 2, 2, 1}, {0, 0, 0, 0},
        {3, 3, 0, DROPPED}, {0, 2, 3, DROPPED}, {3, 0, 3, DROPPED}};
    struct etherparse_defrag_pool pool = pool_of(1);
    struct etherparse_defrag_added added;
    struct etherparse_defrag_written written;
    uint8_t packet[64];
    int i, j;
    for (i = 0; i < 9; i++) {
        for (j = 2; j >= 0; j--) {
            size_t len = ipv4(packet, 0xabcd, j);
            packet[1] = (uint8_t)(0xb8 + cases[i][j]);
            added = etherparse_defrag_pool_add_packet(&pool, packet, len, NO_VLAN, NO_VLAN, 0);
        }
        EXPECT_ADDED(added, 0, cases[i][3] == DROPPED ? ETHERPARSE_DEFRAG_DISCARDED : ETHERPARSE_DEFRAG_COMPLETE);
        written = etherparse_defrag_pool_write_packet(&pool, 0, out, sizeof out);
        EXPECT(written.len, cases[i][3] == DROPPED ? 0 : 41);
        if (cases[i][3] != DROPPED) {
            EXPECT(out[1], 0xb8U + cases[i][3]);
            EXPECT(out[11], 0x3bU - cases[i][3]); /* of the checksum, which is 4b3b less the codepoint */
        }
        etherparse_defrag_pool_release(&pool, 0);
    }
}

/* Two fragments of an IPv6 packet with a UDP header, of 16 bytes and of 5. */
static void ipv6_packets(void)
{
    uint8_t packet[1400] = {0x60, 0, 0, 0, 0, 24, 44, 58};
    struct etherparse_defrag_pool pool = pool_of(1);
    struct etherparse_defrag_added added;
    struct etherparse_defrag_written written;
    packet[8] = 0xfe;
    packet[23] = 1;
    packet[24] = 0xff;
    packet[39] = 2;
    packet[40] = 17; /* next header: UDP */
    packet[43] = 1; /* offset 0, more fragments */
    packet[44] = 0x11;
    packet[47] = 0x44;
    memcpy(packet + 48, datagram, 16);
    added = etherparse_defrag_pool_add_packet(&pool, packet, 64, 65536, 70000, 0);
    EXPECT_ADDED(added, 0, ETHERPARSE_DEFRAG_INCOMPLETE);
    /* The last fragment: of another time to live, and of a next header that does not count. */
    packet[5] = 13;
    packet[7] = 9;
    packet[40] = 6;
    packet[42] = 0;
    packet[43] = 16;
    memcpy(packet + 48, datagram + 16, 5);
    added = etherparse_defrag_pool_add_packet(&pool, packet, 61, NO_VLAN, NO_VLAN, 1);
    EXPECT_ADDED(added, 0, ETHERPARSE_DEFRAG_COMPLETE);
    memset(out, 0x66, 64);
    written = etherparse_defrag_pool_write_packet(&pool, 0, out, sizeof out);
    EXPECT(written.len, 61);
    EXPECT_ERROR(written.error, ETHERPARSE_DEFRAG_OK, 0, 0);
    packet[5] = 21;
    packet[6] = 17;
    packet[7] = 58;
    EXPECT_BYTES(out, packet, 40);
    EXPECT_BYTES(out + 40, datagram, 21);

    /* Another datagram takes the slot; all of the id differs. */
    packet[5] = 13;
    packet[6] = 44;
    packet[47] = 0x45;
    added = etherparse_defrag_pool_add_packet(&pool, packet, 61, 3, 4, 2);
    EXPECT_ADDED(added, 0, ETHERPARSE_DEFRAG_INCOMPLETE);
    EXPECT(added.given_up.version, 6);
    EXPECT(added.given_up.protocol, 0);
    EXPECT(added.given_up.identification, 0x11000044);
    EXPECT(added.given_up.outer_vlan_id, NO_VLAN);
    EXPECT(added.given_up.inner_vlan_id, NO_VLAN);
    EXPECT_BYTES(added.given_up.source, packet + 8, 16);
    EXPECT_BYTES(added.given_up.destination, packet + 24, 16);

    /* The first fragment of a packet with 8 of the 20 bytes of a TCP header (RFC 7112). */
    packet[5] = 16;
    packet[43] = 1;
    EXPECT_REFUSED(etherparse_defrag_pool_add_packet(&pool, packet, 56, NO_VLAN, NO_VLAN, 3), ETHERPARSE_DEFRAG_HEADER_CHAIN, 0, 0);
    /* One that ends within an extension header after its fragment header: the 16 bytes of its destination options are 8. */
    packet[40] = 60;
    packet[48] = 17;
    packet[49] = 1;
    EXPECT_REFUSED(etherparse_defrag_pool_add_packet(&pool, packet, 56, NO_VLAN, NO_VLAN, 3), ETHERPARSE_DEFRAG_HEADER_CHAIN, 0, 0);
    /* One that ends within its fragment header, or within an extension header after an atomic one: it is not known to be a fragment. */
    packet[5] = 7;
    EXPECT_REFUSED(etherparse_defrag_pool_add_packet(&pool, packet, 47, NO_VLAN, NO_VLAN, 3), ETHERPARSE_DEFRAG_PACKET, 0, 0);
    packet[5] = 16;
    packet[43] = 0;
    EXPECT_REFUSED(etherparse_defrag_pool_add_packet(&pool, packet, 56, NO_VLAN, NO_VLAN, 3), ETHERPARSE_DEFRAG_PACKET, 0, 0);
    /* Headers of 40, 1240 and 8 bytes before the first fragment, which is a UDP header. */
    memset(packet + 40, 0, sizeof packet - 40);
    packet[4] = 1256 / 256;
    packet[5] = 1256 % 256;
    packet[6] = 60;
    packet[40] = 44;
    packet[41] = 1240 / 8 - 1;
    packet[1280] = 17;
    packet[1283] = 1;
    EXPECT_REFUSED(
        etherparse_defrag_pool_add_packet(&pool, packet, 1296, NO_VLAN, NO_VLAN, 4), ETHERPARSE_DEFRAG_HEADERS_TOO_LONG, 0, 1288);
}

/* What is refused of a packet, and a packet that would be too long. */
static void packet_refusals(void)
{
    static uint8_t packet[65535];
    struct etherparse_defrag_pool pool = pool_of(1);
    struct etherparse_defrag_written written;
    size_t len = ipv4(packet, 1, 1);
    EXPECT_REFUSED(etherparse_defrag_pool_add_packet(&pool, packet, len - 1, 1, 2, 3), ETHERPARSE_DEFRAG_PACKET, 0, 0);
    EXPECT_REFUSED(etherparse_defrag_pool_add_packet(&pool, NULL, 0, 1, 2, 3), ETHERPARSE_DEFRAG_PACKET, 0, 0);
    packet[3] = 27;
    EXPECT_REFUSED(etherparse_defrag_pool_add_packet(&pool, packet, len, 1, 2, 3), ETHERPARSE_DEFRAG_UNALIGNED_LEN, 1, 7);
    packet[3] = 20;
    EXPECT_REFUSED(etherparse_defrag_pool_add_packet(&pool, packet, len, 1, 2, 3), ETHERPARSE_DEFRAG_EMPTY, 1, 0);
    packet[3] = 28;
    packet[6] = 0x1f;
    packet[7] = 0xff;
    EXPECT_REFUSED(etherparse_defrag_pool_add_packet(&pool, packet, len, 1, 2, 3), ETHERPARSE_DEFRAG_TOO_BIG, 8191, 8);

    /* 65512 bytes and 16: with the header more than 65535. */
    packet[2] = 65532 / 256;
    packet[3] = 65532 % 256;
    packet[6] = 0x20;
    packet[7] = 0;
    EXPECT_ADDED(etherparse_defrag_pool_add_packet(&pool, packet, 65532, 1, 2, 3), 0, ETHERPARSE_DEFRAG_INCOMPLETE);
    packet[2] = 0;
    packet[3] = 36;
    packet[6] = 8189 / 256;
    packet[7] = 8189 % 256;
    EXPECT_ADDED(etherparse_defrag_pool_add_packet(&pool, packet, 36, 1, 2, 4), 0, ETHERPARSE_DEFRAG_COMPLETE);
    out[0] = 0x42;
    written = etherparse_defrag_pool_write_packet(&pool, 0, out, sizeof out);
    EXPECT(written.len, 0);
    EXPECT_ERROR(written.error, ETHERPARSE_DEFRAG_PACKET_TOO_LONG, 0, 0);
    EXPECT(out[0], 0x42);
}

static void expect_text(int line, uint32_t kind, uint16_t offset, size_t len, const char *expected)
{
    char text[ETHERPARSE_DEFRAG_ERROR_TEXT_SIZE];
    struct etherparse_defrag_error error;
    error.kind = kind;
    error.offset = offset;
    error.len = len;
    memset(text, 7, sizeof text);
    compare(line, "length of the text", etherparse_defrag_error_text(&error, text, sizeof text), strlen(expected));
    compare(line, "text", strcmp(text, expected) == 0, 1);
    if (strcmp(text, expected) != 0)
        printf("%s\n", text);
}

#define EXPECT_TEXT(...) expect_text(__LINE__, __VA_ARGS__)

static void texts(void)
{
    char cut[8] = {1, 1, 1, 1, 1, 1, 1, 1};
    struct etherparse_defrag_error error;
    EXPECT_TEXT(0, 1, 2, "");
    EXPECT_TEXT(1, 5, 0, "IP Fragment Error: The fragment at byte 40 has no bytes.");
    EXPECT_TEXT(2, 3, 9, "IP Fragment Error: More fragments follow the one at byte 24, and its 9 bytes are no multiple of 8.");
    EXPECT_TEXT(2, 65535, SIZE_MAX,
        "IP Fragment Error: More fragments follow the one at byte 524280, and its 18446744073709551615 bytes are no multiple of 8.");
    error.kind = 2;
    error.offset = 65535;
    error.len = SIZE_MAX;
    EXPECT(etherparse_defrag_error_text(&error, NULL, 0), ETHERPARSE_DEFRAG_ERROR_TEXT_SIZE - 1);
    EXPECT_TEXT(3, 8191, 18446744073709551615u,
        "IP Fragment Error: The fragment at byte 65528 has 18446744073709551615 bytes and ends past byte 65535.");
    EXPECT_TEXT(4, 0, 0, "IP Packet Error: The bytes are no whole IP packet.");
    EXPECT_TEXT(5, 0, 0, "IPv6 Fragment Error: The first fragment lacks a part of the header chain.");
    EXPECT_TEXT(6, 0, 1288, "IP Fragment Error: The headers of the first fragment have 1288 bytes, and there is room for 1280.");
    EXPECT_TEXT(7, 65535, 0, "IP Fragment Error: The offset 65535 is greater than 8191.");
    EXPECT_TEXT(8, 0, 0, "IP Packet Error: The packet is longer than its length field can say.");
    EXPECT_TEXT(9, 1, 2, "");
    error.kind = 8;
    error.offset = 0;
    error.len = 0;
    EXPECT(etherparse_defrag_error_text(&error, cut, 4), 68);
    EXPECT_BYTES(cut, "IP \0\1\1\1\1", 8);
    EXPECT(etherparse_defrag_error_text(&error, NULL, 0), 68);
}

int main(void)
{
    orders();
    contradictions();
    refusals();
    ipv4_packets();
    codepoints();
    ipv6_packets();
    packet_refusals();
    texts();
    printf("%d answers are right, %d are not.\n", right, wrong);
    return wrong != 0;
}
