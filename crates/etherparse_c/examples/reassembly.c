/* Puts fragments together: those of one datagram, and the packets of a pool, and prints what it finds. */

#include "etherparse_reassembly.h"

#include <stdio.h>
#include <string.h>

static const char *const STATES[4] = {"incomplete", "complete", "discarded", "no fragment"};

/* Fragments of one datagram: the offset, whether more follow, and the bytes. */
static const struct {
    uint16_t offset;
    bool more_fragments;
    const char *payload;
} FRAGMENTS[] = {
    {1, false, "bytes"},
    {0, true, "thirteen"},
    {1, false, "bytes"},
    {0, true, ""},
    {2, true, "three"},
    {8191, false, "too long"},
    {8192, false, "no offset"},
    {0, true, "nineteen"},
    {0, true, "thirteen"},
};

/* Packets, as hex digits; the VLAN that they came in, and when. */
static const struct {
    const char *name;
    const char *digits;
    uint32_t vlan_id;
    uint64_t now;
} PACKETS[] = {
    {"the last fragment", "4500001912340001401100 00c0000201c0000202 6279746573", 7, 0},
    {"the same in another VLAN", "4500001912340001401100 00c0000201c0000202 6279746573", 8, 1},
    {"the first one", "4500001c123420003f1100 00c0000201c0000202 746869727465656e", 7, 2},
    {"a packet that is whole", "4500001500000000401100 00c0000201c0000202 78", 7, 3},
    {"a first fragment over IPv6, and padding",
        "60000000 00102c40 20010db8000000000000000000000001 20010db8000000000000000000000002"
        "11000001 00000099 0035c0010010abcd 0000", 7, 4},
    {"the last one", "60000000 00102c40 20010db8000000000000000000000001 20010db8000000000000000000000002"
                     "11000008 00000099 6f6e652074776f21", 7, 5},
    {"8 bytes of a TCP header", "60000000 00102c40 20010db8000000000000000000000001 20010db8000000000000000000000002"
                                "06000001 00000098 0035c00100000001", 7, 6},
    {"another datagram", "4500001c432120003f1100 00c0000201c0000202 746869727465656e", 7, 7},
    {"it takes the slot of the oldest", "4500001c999920003f1100 00c0000201c0000202 746869727465656e", 7, 8},
    {"a length of 9", "4500001d999920013f1100 00c0000201c0000202 746869727465656e21", 7, 9},
    {"fewer bytes than its length", "4500001d9999", 7, 10},
    {"other bytes at the same place", "4500001c999920003f1100 00c0000201c0000202 6e696e657465656e", 7, 11},
    {"after the timeout", "4500001c999920003f1100 00c0000201c0000202 746869727465656e", 7, 68},
};

enum { FRAGMENT_COUNT = sizeof FRAGMENTS / sizeof FRAGMENTS[0], PACKET_COUNT = sizeof PACKETS / sizeof PACKETS[0] };
enum { SLOT_COUNT = 2, ROOM = 128 };

/* The bytes that hex digits spell, with spaces between them; returns how many. */
static size_t bytes_of(const char *digits, uint8_t *at)
{
    unsigned byte;
    size_t len = 0;
    while (*digits != 0) {
        if (*digits == ' ') {
            digits++;
        } else if (sscanf(digits, "%2x", &byte) == 1) {
            at[len++] = (uint8_t)byte;
            digits += 2;
        }
    }
    return len;
}

static void print_error(const struct etherparse_defrag_error *error)
{
    char text[ETHERPARSE_DEFRAG_ERROR_TEXT_SIZE];
    size_t len = etherparse_defrag_error_text(error, text, sizeof text);
    printf("  error %u, offset %u, len %zu: %s (%zu)\n", error->kind, error->offset, error->len, text, len);
}

static void one_datagram(void)
{
    static uint8_t memory[ETHERPARSE_DEFRAG_BUF_MEMORY];
    struct etherparse_defrag_buf_state state;
    struct etherparse_defrag_buf buf;
    uint8_t out[ROOM];
    size_t i;
    buf.state = &state;
    etherparse_defrag_buf_new(&state, memory, sizeof memory);
    for (i = 0; i < FRAGMENT_COUNT; i++) {
        const char *payload = FRAGMENTS[i].payload;
        struct etherparse_defrag_error error = etherparse_defrag_buf_add(
            &buf, FRAGMENTS[i].offset, FRAGMENTS[i].more_fragments, (const uint8_t *)payload, strlen(payload));
        size_t len = etherparse_defrag_buf_datagram(&buf, out, sizeof out);
        printf("offset %u, \"%s\"\n", FRAGMENTS[i].offset, payload);
        print_error(&error);
        printf("  %s, %zu bytes: %.*s\n", STATES[etherparse_defrag_buf_datagram_state(&buf)], len, (int)len, (const char *)out);
    }
    etherparse_defrag_buf_clear(&buf);
    printf("cleared: %s\n", STATES[etherparse_defrag_buf_datagram_state(&buf)]);
}

static void print_id(const struct etherparse_frag_id *id)
{
    size_t i;
    printf("  gave up version %u, protocol %u, identification %x, VLAN %u and %u, from ", id->version, id->protocol,
        id->identification, id->outer_vlan_id, id->inner_vlan_id);
    for (i = 0; i < 16; i++)
        printf("%02x", id->source[i]);
    printf(" to ");
    for (i = 0; i < 16; i++)
        printf("%02x", id->destination[i]);
    printf("\n");
}

static void pool_of_packets(void)
{
    static uint8_t memory[SLOT_COUNT][ETHERPARSE_DEFRAG_SLOT_MEMORY];
    static struct etherparse_defrag_slot slots[SLOT_COUNT];
    static uint8_t out[ETHERPARSE_DEFRAG_PACKET_SIZE];
    struct etherparse_defrag_pool_state state;
    struct etherparse_defrag_pool pool;
    uint8_t packet[ROOM];
    size_t i, j;
    for (i = 0; i < SLOT_COUNT; i++)
        etherparse_defrag_slot_new(&slots[i], memory[i], sizeof memory[i]);
    pool.state = &state;
    etherparse_defrag_pool_new(&state, slots, SLOT_COUNT, ETHERPARSE_DEFRAG_TIMEOUT_SECONDS);
    for (i = 0; i < PACKET_COUNT; i++) {
        size_t len = bytes_of(PACKETS[i].digits, packet);
        struct etherparse_defrag_added added = etherparse_defrag_pool_add_packet(
            &pool, packet, len, PACKETS[i].vlan_id, ETHERPARSE_DEFRAG_NO_VLAN, PACKETS[i].now);
        printf("%s\n  slot %zu, %s\n", PACKETS[i].name, added.slot, STATES[added.state]);
        if (added.error.kind != ETHERPARSE_DEFRAG_OK)
            print_error(&added.error);
        if (added.given_up.version != 0)
            print_id(&added.given_up);
        if (added.state == ETHERPARSE_DEFRAG_COMPLETE) {
            struct etherparse_defrag_written written =
                etherparse_defrag_pool_write_packet(&pool, added.slot, out, sizeof out);
            printf("  a packet of %zu bytes, error %u: ", written.len, written.error.kind);
            for (j = 0; j < written.len; j++)
                printf("%02x", out[j]);
            printf("\n");
            etherparse_defrag_pool_release(&pool, added.slot);
        }
    }
}

int main(void)
{
    one_datagram();
    pool_of_packets();
    return 0;
}
