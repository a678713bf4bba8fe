/* Tests at which offset of its result a call stores which number. It reads a result as bytes and names no field of a struct, so
 * the order of the fields in etherparse.h has no influence. Each field of each struct has, in some call, another number than
 * the fields next to it. Bytes that belong to no field are not read. */

#include "etherparse.h"

#include <stdio.h>
#include <string.h>

/* A number in that many bytes, the low byte first. Bytes after the eighth have to be 0. */
struct place {
    const char *name;
    size_t offset;
    size_t len;
    uint64_t number;
};

static int wrong = 0;
static int right = 0;

static void compare(const char *call, const void *answer, const struct place *places, size_t count)
{
    for (size_t i = 0; i < count; i++) {
        const uint8_t *bytes = (const uint8_t *)answer + places[i].offset;
        uint64_t number = 0;
        for (size_t k = places[i].len; k > 0; k--)
            number = number >> 56 == 0 ? 256 * number + bytes[k - 1] : UINT64_MAX;
        if (number == places[i].number) {
            right++;
        } else {
            wrong++;
            printf("offsets: %s: %s at %zu is %llu, and not %llu\n", call, places[i].name, places[i].offset,
                (unsigned long long)number, (unsigned long long)places[i].number);
        }
    }
}

#define COMPARE(call, answer, places) compare(call, &(answer), places, sizeof(places) / sizeof((places)[0]))

/* The bytes of a packet at an offset of a result. */
static void compare_bytes(const char *call, const char *name, const void *answer, size_t offset, const uint8_t *bytes, size_t len)
{
    for (size_t i = 0; i < len; i++) {
        const struct place place = {name, offset + i, 1, bytes[i]};
        compare(call, answer, &place, 1);
    }
}

/* The example of RFC 1071 section 3: its words sum to 0xddf2. */
static const uint8_t WORDS[8] = {0x00, 0x01, 0xf2, 0x03, 0xf4, 0xf5, 0xf6, 0xf7};

/* All fields of a header differ but for its flags, and so do all numbers of its error. The first has 4 bytes of options and the
 * flag "don't fragment", the second 40 bytes and "more fragments". */
static const uint8_t IPV4[26] = {
    0x46, 0x29, 1, 2, 3, 4, 0x55, 6, 7, 8, 9, 10, 11, 12, 13, 14, 15, 16, 17, 18, 19, 20, 21, 22, 23, 24,
};

static const uint8_t LONG_IPV4[63] = {
    0x4f, 0xb6, 0x82, 0x83, 0x84, 0x85, 0x26, 0x87, 0x88, 0x89, 0x8a, 0x8b, 0x8c, 0x8d, 0x8e, 0x8f, 0x90, 0x91, 0x92, 0x93,
    0x94, 0x95, 0x96, 0x97, 0x98, 0x99, 0x9a, 0x9b, 0x9c, 0x9d, 0x9e, 0x9f, 0xa0, 0xa1, 0xa2, 0xa3, 0xa4, 0xa5, 0xa6, 0xa7,
    0xa8, 0xa9, 0xaa, 0xab, 0xac, 0xad, 0xae, 0xaf, 0xb0, 0xb1, 0xb2, 0xb3, 0xb4, 0xb5, 0xb6, 0xb7, 0xb8, 0xb9, 0xba, 0xbb,
    1, 2, 3,
};

static const uint8_t SMALL_IHL[20] = {0x44};

static const uint8_t IPV6[43] = {
    0x61, 0x23, 0x45, 0x67, 0x89, 0xab, 0xcd, 0xef, 0x20, 0x21, 0x22, 0x23, 0x24, 0x25, 0x26, 0x27, 0x28, 0x29, 0x2a, 0x2b,
    0x2c, 0x2d, 0x2e, 0x2f, 0x30, 0x31, 0x32, 0x33, 0x34, 0x35, 0x36, 0x37, 0x38, 0x39, 0x3a, 0x3b, 0x3c, 0x3d, 0x3e, 0x3f,
    1, 2, 3,
};

static const uint8_t CHAIN[11] = {43, 0, 0, 0, 0, 0, 0, 0, 6, 1, 0};

static const uint8_t FRAGMENT[11] = {6, 0, 0, 0, 0, 0, 0, 0, 1, 2, 3};

/* The pieces are written as bytes, too: a pointer and a length each. */
static void compare_sums(void)
{
    static const struct place complement[] = {{"complement", 0, 2, 0x0d22}};
    const uint8_t *at[2] = {WORDS, WORDS + 2};
    const size_t len[2] = {2, 6};
    struct etherparse_slice pieces[2];
    for (size_t i = 0; i < 2; i++) {
        memcpy((uint8_t *)pieces + 16 * i, &at[i], 8);
        memcpy((uint8_t *)pieces + 16 * i + 8, &len[i], 8);
    }
    uint16_t wide = etherparse_u64_16bit_word_ones_complement(etherparse_u64_16bit_word_add_slices(pieces, 2));
    uint16_t narrow = etherparse_u32_16bit_word_ones_complement(etherparse_u32_16bit_word_add_slices(pieces, 2));
    COMPARE("u64_16bit_word_add_slices", wide, complement);
    COMPARE("u32_16bit_word_add_slices", narrow, complement);
}

static void compare_ipv4_reads(void)
{
    static const struct place view[] = {
        {"source", 0, 4, 0x0e0d0c0b}, {"destination", 4, 4, 0x1211100f}, {"total_len", 8, 2, 0x0102},
        {"identification", 10, 2, 0x0304}, {"fragment_offset", 12, 2, 0x1506}, {"header_checksum", 14, 2, 0x090a},
        {"ihl", 16, 1, 6}, {"dscp", 17, 1, 10}, {"ecn", 18, 1, 1}, {"dont_fragment", 19, 1, 1},
        {"more_fragments", 20, 1, 0}, {"is_fragmenting_payload", 21, 1, 1}, {"time_to_live", 22, 1, 7},
        {"protocol", 23, 1, 8}, {"error", 24, 40, 0}, {"rest.offset", 64, 8, 24}, {"rest.len", 72, 8, 2},
    };
    static const struct place long_view[] = {
        {"source", 0, 4, 0x8f8e8d8c}, {"destination", 4, 4, 0x93929190}, {"total_len", 8, 2, 0x8283},
        {"identification", 10, 2, 0x8485}, {"fragment_offset", 12, 2, 0x0687}, {"header_checksum", 14, 2, 0x8a8b},
        {"ihl", 16, 1, 15}, {"dscp", 17, 1, 45}, {"ecn", 18, 1, 2}, {"dont_fragment", 19, 1, 0},
        {"more_fragments", 20, 1, 1}, {"is_fragmenting_payload", 21, 1, 1}, {"time_to_live", 22, 1, 0x88},
        {"protocol", 23, 1, 0x89}, {"error", 24, 40, 0}, {"rest.offset", 64, 8, 60}, {"rest.len", 72, 8, 3},
    };
    static const struct place no_view[] = {
        {"view", 0, 24, 0}, {"error.kind", 24, 4, 1}, {"error.number", 28, 2, 0}, {"error.layer", 30, 2, 1},
        {"error.required_len", 32, 8, 60}, {"error.len", 40, 8, 59}, {"error.layer_start_offset", 48, 8, 0},
        {"error.limit", 56, 8, 0}, {"rest", 64, 16, 0},
    };
    static const struct place read[] = {
        {"dscp", 0, 1, 10}, {"ecn", 1, 1, 1}, {"total_len", 2, 2, 0x0102}, {"identification", 4, 2, 0x0304},
        {"dont_fragment", 6, 1, 1}, {"more_fragments", 7, 1, 0}, {"fragment_offset", 8, 2, 0x1506},
        {"time_to_live", 10, 1, 7}, {"protocol", 11, 1, 8}, {"header_checksum", 12, 2, 0x090a},
        {"source", 14, 4, 0x0e0d0c0b}, {"destination", 18, 4, 0x1211100f}, {"options_len", 22, 1, 4},
        {"options", 23, 40, 0x16151413}, {"error", 64, 40, 0}, {"rest.offset", 104, 8, 24}, {"rest.len", 112, 8, 2},
    };
    static const struct place long_read[] = {
        {"dscp", 0, 1, 45}, {"ecn", 1, 1, 2}, {"total_len", 2, 2, 0x8283}, {"identification", 4, 2, 0x8485},
        {"dont_fragment", 6, 1, 0}, {"more_fragments", 7, 1, 1}, {"fragment_offset", 8, 2, 0x0687},
        {"time_to_live", 10, 1, 0x88}, {"protocol", 11, 1, 0x89}, {"header_checksum", 12, 2, 0x8a8b},
        {"source", 14, 4, 0x8f8e8d8c}, {"destination", 18, 4, 0x93929190}, {"options_len", 22, 1, 40},
        {"error", 64, 40, 0}, {"rest.offset", 104, 8, 60}, {"rest.len", 112, 8, 3},
    };
    static const struct place cut_read[] = {
        {"fields", 0, 63, 0}, {"error.kind", 64, 4, 1}, {"error.number", 68, 2, 0}, {"error.layer", 70, 2, 1},
        {"error.required_len", 72, 8, 60}, {"error.len", 80, 8, 59}, {"error.layer_start_offset", 88, 8, 0},
        {"error.limit", 96, 8, 0}, {"rest", 104, 16, 0},
    };
    static const struct place no_read[] = {
        {"fields", 0, 63, 0}, {"error.kind", 64, 4, 3}, {"error.number", 68, 2, 4}, {"error.layer", 70, 2, 1},
        {"error.required_len", 72, 8, 0}, {"error.len", 80, 8, 0}, {"error.layer_start_offset", 88, 8, 0},
        {"error.limit", 96, 8, 0}, {"rest", 104, 16, 0},
    };
    struct etherparse_ipv4_view_answer seen = etherparse_ipv4_view(IPV4, sizeof IPV4);
    struct etherparse_ipv4_view_answer long_seen = etherparse_ipv4_view(LONG_IPV4, sizeof LONG_IPV4);
    struct etherparse_ipv4_view_answer not_seen = etherparse_ipv4_view(LONG_IPV4, 59);
    struct etherparse_ipv4_read_answer found = etherparse_ipv4_read(IPV4, sizeof IPV4);
    struct etherparse_ipv4_read_answer long_found = etherparse_ipv4_read(LONG_IPV4, sizeof LONG_IPV4);
    struct etherparse_ipv4_read_answer cut_off = etherparse_ipv4_read(LONG_IPV4, 59);
    struct etherparse_ipv4_read_answer not_found = etherparse_ipv4_read(SMALL_IHL, sizeof SMALL_IHL);
    COMPARE("ipv4_view", seen, view);
    COMPARE("ipv4_view, long", long_seen, long_view);
    COMPARE("ipv4_view, cut", not_seen, no_view);
    COMPARE("ipv4_read", found, read);
    COMPARE("ipv4_read, long", long_found, long_read);
    compare_bytes("ipv4_read, long", "options", &long_found, 23, LONG_IPV4 + 20, 40);
    COMPARE("ipv4_read, cut", cut_off, cut_read);
    COMPARE("ipv4_read, small IHL", not_found, no_read);
}

/* The calls that take fields: those of the headers above, and some with the DSCP 64, which is too great. */
static void compare_ipv4_fields(void)
{
    static const struct place written[] = {{"after the bytes", 24, 36, 0}, {"len", 60, 1, 24}};
    static const struct place long_written[] = {{"len", 60, 1, 60}};
    static const struct place not_written[] = {{"bytes and len", 0, 61, 0}};
    static const struct place checksum[] = {{"checksum", 0, 2, 0xf95b}, {"accepted", 2, 1, 1}};
    static const struct place no_checksum[] = {{"checksum", 0, 2, 0}, {"accepted", 2, 1, 0}};
    static const struct place set[] = {
        {"dscp", 0, 1, 10}, {"ecn", 1, 1, 1}, {"total_len", 2, 2, 0x0102}, {"identification", 4, 2, 0x0304},
        {"dont_fragment", 6, 1, 1}, {"more_fragments", 7, 1, 0}, {"fragment_offset", 8, 2, 0x1506},
        {"time_to_live", 10, 1, 5}, {"protocol", 11, 1, 8}, {"header_checksum", 12, 2, 0x0b0a},
        {"source", 14, 4, 0x0e0d0c0b}, {"destination", 18, 4, 0x1211100f}, {"options_len", 22, 1, 4},
        {"options", 23, 40, 0x16151413},
    };
    static const struct place accepted[] = {{"result", 0, 1, 1}};
    struct etherparse_ipv4_read_answer found = etherparse_ipv4_read(IPV4, sizeof IPV4);
    struct etherparse_ipv4_read_answer long_found = etherparse_ipv4_read(LONG_IPV4, sizeof LONG_IPV4);
    struct etherparse_ipv4_fields fields, long_fields, too_great;
    memcpy(&fields, &found, 64);
    memcpy(&long_fields, &long_found, 64);
    memcpy(&too_great, &found, 64);
    memset(&too_great, 64, 1);
    struct etherparse_ipv4_bytes bytes = etherparse_ipv4_write(&fields);
    struct etherparse_ipv4_bytes long_bytes = etherparse_ipv4_write(&long_fields);
    struct etherparse_ipv4_bytes no_bytes = etherparse_ipv4_write(&too_great);
    struct etherparse_ipv4_header_checksum_answer computed = etherparse_ipv4_header_checksum(&fields);
    struct etherparse_ipv4_header_checksum_answer not_computed = etherparse_ipv4_header_checksum(&too_great);
    bool result = etherparse_ipv4_set_time_to_live(&fields, 5);
    compare_bytes("ipv4_write", "bytes", &bytes, 0, IPV4, 24);
    COMPARE("ipv4_write", bytes, written);
    compare_bytes("ipv4_write, long", "bytes", &long_bytes, 0, LONG_IPV4, 60);
    COMPARE("ipv4_write, long", long_bytes, long_written);
    COMPARE("ipv4_write, too great", no_bytes, not_written);
    COMPARE("ipv4_header_checksum", computed, checksum);
    COMPARE("ipv4_header_checksum, too great", not_computed, no_checksum);
    COMPARE("ipv4_set_time_to_live", result, accepted);
    COMPARE("ipv4_set_time_to_live", fields, set);
}

static void compare_ipv4_numbers(void)
{
    static const struct place lengths[] = {
        {"payload_len", 0, 2, 234}, {"max_payload_len", 2, 2, 65511}, {"header_len", 4, 1, 24}, {"ihl", 5, 1, 6},
        {"error", 8, 40, 0},
    };
    static const struct place no_payload[] = {
        {"payload_len", 0, 2, 0}, {"max_payload_len", 2, 2, 65515}, {"header_len", 4, 1, 20}, {"ihl", 5, 1, 5},
        {"error.kind", 8, 4, 1}, {"error.number", 12, 2, 1}, {"error.layer", 14, 2, 2}, {"error.required_len", 16, 8, 20},
        {"error.len", 24, 8, 19}, {"error.layer_start_offset", 32, 8, 0}, {"error.limit", 40, 8, 0},
    };
    static const struct place no_lengths[] = {
        {"all lengths", 0, 6, 0}, {"error.kind", 8, 4, 6}, {"error.number", 12, 2, 0}, {"error.layer", 14, 2, 0},
        {"error.required_len", 16, 8, 0}, {"error.len", 24, 8, 41}, {"error.layer_start_offset", 32, 8, 0},
        {"error.limit", 40, 8, 0},
    };
    static const struct place made[] = {
        {"dscp", 0, 1, 0}, {"ecn", 1, 1, 0}, {"total_len", 2, 2, 115}, {"identification", 4, 2, 0}, {"dont_fragment", 6, 1, 1},
        {"more_fragments", 7, 1, 0}, {"fragment_offset", 8, 2, 0}, {"time_to_live", 10, 1, 64}, {"protocol", 11, 1, 17},
        {"header_checksum", 12, 2, 0}, {"source", 14, 4, 0x0e0d0c0b}, {"destination", 18, 4, 0x1211100f},
        {"options_len", 22, 1, 0}, {"options", 23, 40, 0}, {"error", 64, 40, 0},
    };
    static const struct place not_made[] = {
        {"fields", 0, 63, 0}, {"error.kind", 64, 4, 5}, {"error.number", 68, 2, 5}, {"error.layer", 70, 2, 0},
        {"error.required_len", 72, 8, 0}, {"error.len", 80, 8, 65516}, {"error.layer_start_offset", 88, 8, 0},
        {"error.limit", 96, 8, 65515},
    };
    static const struct place defaults[] = {
        {"dscp", 0, 1, 0}, {"ecn", 1, 1, 0}, {"total_len", 2, 2, 0}, {"identification", 4, 2, 0}, {"dont_fragment", 6, 1, 1},
        {"more_fragments", 7, 1, 0}, {"fragment_offset", 8, 2, 0}, {"time_to_live", 10, 1, 0}, {"protocol", 11, 1, 255},
        {"header_checksum", 12, 2, 0}, {"source", 14, 4, 0}, {"destination", 18, 4, 0}, {"options_len", 22, 1, 0},
        {"options", 23, 40, 0},
    };
    struct etherparse_ipv4_lengths_answer all = etherparse_ipv4_lengths(258, 4);
    struct etherparse_ipv4_lengths_answer some = etherparse_ipv4_lengths(19, 0);
    struct etherparse_ipv4_lengths_answer none = etherparse_ipv4_lengths(258, 41);
    struct etherparse_ipv4_new_answer header = etherparse_ipv4_new(95, 64, 17, IPV4 + 12, IPV4 + 16);
    struct etherparse_ipv4_new_answer no_header = etherparse_ipv4_new(65516, 64, 17, IPV4 + 12, IPV4 + 16);
    struct etherparse_ipv4_fields fields = etherparse_ipv4_default();
    COMPARE("ipv4_lengths", all, lengths);
    COMPARE("ipv4_lengths, total_len too small", some, no_payload);
    COMPARE("ipv4_lengths, bad options_len", none, no_lengths);
    COMPARE("ipv4_new", header, made);
    COMPARE("ipv4_new, too long", no_header, not_made);
    COMPARE("ipv4_default", fields, defaults);
}

static void compare_ipv6(void)
{
    static const struct place view[] = {
        {"source", 0, 8, 0x2726252423222120}, {"source + 8", 8, 8, 0x2f2e2d2c2b2a2928},
        {"destination", 16, 8, 0x3736353433323130}, {"destination + 8", 24, 8, 0x3f3e3d3c3b3a3938},
        {"flow_label", 32, 4, 0x34567}, {"payload_length", 36, 2, 0x89ab}, {"traffic_class", 38, 1, 0x12}, {"dscp", 39, 1, 4},
        {"ecn", 40, 1, 2}, {"next_header", 41, 1, 0xcd}, {"hop_limit", 42, 1, 0xef}, {"error", 48, 40, 0},
        {"rest.offset", 88, 8, 40}, {"rest.len", 96, 8, 3},
    };
    static const struct place cut_view[] = {
        {"view", 0, 43, 0}, {"error.kind", 48, 4, 1}, {"error.number", 52, 2, 0}, {"error.layer", 54, 2, 3},
        {"error.required_len", 56, 8, 40}, {"error.len", 64, 8, 39}, {"error.layer_start_offset", 72, 8, 0},
        {"error.limit", 80, 8, 0}, {"rest", 88, 16, 0},
    };
    static const struct place no_view[] = {
        {"view", 0, 43, 0}, {"error.kind", 48, 4, 2}, {"error.number", 52, 2, 4}, {"error.layer", 54, 2, 3},
        {"error.required_len", 56, 8, 0}, {"error.len", 64, 8, 0}, {"error.layer_start_offset", 72, 8, 0},
        {"error.limit", 80, 8, 0}, {"rest", 88, 16, 0},
    };
    static const struct place read[] = {
        {"source", 0, 8, 0x2726252423222120}, {"source + 8", 8, 8, 0x2f2e2d2c2b2a2928},
        {"destination", 16, 8, 0x3736353433323130}, {"destination + 8", 24, 8, 0x3f3e3d3c3b3a3938},
        {"flow_label", 32, 4, 0x34567}, {"payload_length", 36, 2, 0x89ab}, {"traffic_class", 38, 1, 0x12},
        {"next_header", 39, 1, 0xcd}, {"hop_limit", 40, 1, 0xef}, {"error", 48, 40, 0}, {"rest.offset", 88, 8, 40},
        {"rest.len", 96, 8, 3},
    };
    static const struct place no_read[] = {
        {"fields", 0, 41, 0}, {"error.kind", 48, 4, 1}, {"error.number", 52, 2, 0}, {"error.layer", 54, 2, 3},
        {"error.required_len", 56, 8, 40}, {"error.len", 64, 8, 39}, {"error.layer_start_offset", 72, 8, 0},
        {"error.limit", 80, 8, 0}, {"rest", 88, 16, 0},
    };
    static const struct place defaults[] = {
        {"source", 0, 16, 0}, {"destination", 16, 16, 0}, {"flow_label", 32, 4, 0}, {"payload_length", 36, 2, 0},
        {"traffic_class", 38, 1, 0}, {"next_header", 39, 1, 255}, {"hop_limit", 40, 1, 0},
    };
    static const struct place written[] = {{"len", 40, 1, 40}};
    static const struct place not_written[] = {{"bytes and len", 0, 41, 0}};
    struct etherparse_ipv6_view_answer seen = etherparse_ipv6_view(IPV6, sizeof IPV6);
    struct etherparse_ipv6_view_answer cut_off = etherparse_ipv6_view(IPV6, 39);
    struct etherparse_ipv6_view_answer not_seen = etherparse_ipv6_view(LONG_IPV4, sizeof LONG_IPV4);
    struct etherparse_ipv6_read_answer found = etherparse_ipv6_read(IPV6, sizeof IPV6);
    struct etherparse_ipv6_read_answer not_found = etherparse_ipv6_read(IPV6, 39);
    struct etherparse_ipv6_fields header = etherparse_ipv6_default();
    struct etherparse_ipv6_fields fields, too_great;
    memcpy(&fields, &found, 44);
    memcpy(&too_great, &found, 44);
    memset((uint8_t *)&too_great + 34, 0x10, 1);
    struct etherparse_ipv6_bytes bytes = etherparse_ipv6_write(&fields);
    struct etherparse_ipv6_bytes no_bytes = etherparse_ipv6_write(&too_great);
    COMPARE("ipv6_view", seen, view);
    COMPARE("ipv6_view, cut", cut_off, cut_view);
    COMPARE("ipv6_view, IPv4", not_seen, no_view);
    COMPARE("ipv6_read", found, read);
    COMPARE("ipv6_read, cut", not_found, no_read);
    COMPARE("ipv6_default", header, defaults);
    compare_bytes("ipv6_write", "bytes", &bytes, 0, IPV6, 40);
    COMPARE("ipv6_write", bytes, written);
    COMPARE("ipv6_write, flow label too great", no_bytes, not_written);
}

static void compare_walks(void)
{
    static const struct place skipped[] = {
        {"next_header", 0, 1, 43}, {"error", 8, 40, 0}, {"rest.offset", 48, 8, 8}, {"rest.len", 56, 8, 3},
    };
    static const struct place walked[] = {
        {"next_header", 0, 1, 6}, {"error", 8, 40, 0}, {"rest.offset", 48, 8, 8}, {"rest.len", 56, 8, 3},
    };
    static const struct place not_skipped[] = {
        {"next_header", 0, 1, 0}, {"error.kind", 8, 4, 1}, {"error.number", 12, 2, 0}, {"error.layer", 14, 2, 4},
        {"error.required_len", 16, 8, 8}, {"error.len", 24, 8, 7}, {"error.layer_start_offset", 32, 8, 0},
        {"error.limit", 40, 8, 0}, {"rest", 48, 16, 0},
    };
    static const struct place incomplete[] = {
        {"next_header", 0, 1, 0}, {"error.kind", 8, 4, 1}, {"error.number", 12, 2, 0}, {"error.layer", 14, 2, 4},
        {"error.required_len", 16, 8, 16}, {"error.len", 24, 8, 3}, {"error.layer_start_offset", 32, 8, 8},
        {"error.limit", 40, 8, 0}, {"rest", 48, 16, 0},
    };
    static const struct place too_many[] = {
        {"next_header", 0, 1, 0}, {"error.kind", 8, 4, 4}, {"error.number", 12, 2, 43}, {"error.layer", 14, 2, 4},
        {"error.required_len", 16, 8, 0}, {"error.len", 24, 8, 0}, {"error.layer_start_offset", 32, 8, 8},
        {"error.limit", 40, 8, 1}, {"rest", 48, 16, 0},
    };
    struct etherparse_ipv6_walk_answer one = etherparse_ipv6_skip(CHAIN, sizeof CHAIN, 0);
    struct etherparse_ipv6_walk_answer none = etherparse_ipv6_skip(CHAIN, 7, 0);
    struct etherparse_ipv6_walk_answer all = etherparse_ipv6_walk(FRAGMENT, sizeof FRAGMENT, 44);
    struct etherparse_ipv6_walk_answer cut = etherparse_ipv6_walk(CHAIN, sizeof CHAIN, 0);
    struct etherparse_ipv6_walk_answer allowed = etherparse_ipv6_walk_up_to(FRAGMENT, sizeof FRAGMENT, 44, 1);
    struct etherparse_ipv6_walk_answer limited = etherparse_ipv6_walk_up_to(CHAIN, sizeof CHAIN, 0, 1);
    COMPARE("ipv6_skip", one, skipped);
    COMPARE("ipv6_skip, cut", none, not_skipped);
    COMPARE("ipv6_walk", all, walked);
    COMPARE("ipv6_walk, cut", cut, incomplete);
    COMPARE("ipv6_walk_up_to", allowed, walked);
    COMPARE("ipv6_walk_up_to, too many", limited, too_many);
}

/* Frames whose parts differ: two tags and UDP; a truncated first fragment of IPv6 with TCP; a later fragment behind a loopback
 * header; one tag and ICMP behind the header of a Linux cooked capture. */
static const uint8_t TAGGED[61] = {
    2, 0, 0, 0, 0, 2, 2, 0, 0, 0, 0, 1, 136, 168, 177, 35, 129, 0, 74, 188, 8, 0, 70, 0, 0, 36, 0, 0, 0, 0, 64, 17, 99, 198,
    10, 0, 0, 1, 10, 0, 0, 2, 1, 1, 1, 0, 18, 52, 86, 120, 0, 12, 127, 33, 1, 2, 3, 4, 0, 0, 0,
};

static const uint8_t TRUNCATED[103] = {
    134, 221, 0, 0, 0, 0, 0, 3, 0, 1, 4, 6, 2, 0, 0, 0, 0, 1, 0, 0, 96, 0, 0, 0, 0, 48, 0, 64, 32, 1, 13, 184, 0, 0, 0, 0, 0,
    0, 0, 0, 0, 0, 0, 1, 32, 1, 13, 184, 0, 0, 0, 0, 0, 0, 0, 0, 0, 0, 0, 2, 44, 0, 1, 4, 0, 0, 0, 0, 6, 0, 0, 1, 17, 18, 19,
    20, 35, 69, 103, 137, 0, 0, 0, 1, 0, 0, 0, 2, 96, 18, 16, 0, 0, 0, 0, 0, 2, 4, 5, 180, 7, 7, 7,
};

static const uint8_t LATER[40] = {
    2, 0, 0, 0, 69, 0, 0, 36, 154, 188, 32, 66, 64, 17, 171, 200, 10, 0, 0, 1, 10, 0, 0, 2, 0, 1, 2, 3, 4, 5, 6, 7, 8, 9, 10,
    11, 12, 13, 14, 15,
};

static const uint8_t MESSAGE[50] = {
    0, 4, 0, 1, 0, 6, 2, 0, 0, 0, 0, 1, 0, 0, 129, 0, 208, 7, 8, 0, 69, 0, 0, 30, 0, 0, 0, 0, 64, 1, 102, 221, 10, 0, 0, 1, 10,
    0, 0, 2, 3, 1, 183, 253, 0, 0, 0, 0, 69, 1,
};

static void compare_packets(void)
{
    static const struct place tagged[] = {
        {"link.header.offset", 0, 8, 0}, {"link.header.len", 8, 8, 14}, {"link.payload.offset", 16, 8, 22},
        {"link.payload.len", 24, 8, 39}, {"link.family", 32, 4, 0}, {"link.ether_type", 36, 2, 2048},
        {"outer_vlan.identifier", 38, 2, 291}, {"outer_vlan.priority", 40, 1, 5}, {"outer_vlan.drop_eligible", 41, 1, 1},
        {"inner_vlan.identifier", 42, 2, 2748}, {"inner_vlan.priority", 44, 1, 2}, {"inner_vlan.drop_eligible", 45, 1, 0},
        {"link.kind", 46, 1, 1}, {"vlan_count", 47, 1, 2}, {"has_ether_type", 48, 1, 1}, {"ip.header.offset", 56, 8, 22},
        {"ip.header.len", 64, 8, 24}, {"ip.extensions.offset", 72, 8, 46}, {"ip.extensions.len", 80, 8, 0},
        {"ip.payload.offset", 88, 8, 46}, {"ip.payload.len", 96, 8, 12}, {"packet_len", 104, 8, 36},
        {"identification", 112, 4, 0}, {"fragment_offset", 116, 4, 0}, {"version", 120, 1, 4}, {"upper", 121, 1, 17},
        {"is_fragment", 122, 1, 0}, {"more_fragments", 123, 1, 0}, {"is_later_fragment", 124, 1, 0},
        {"is_truncated", 125, 1, 0}, {"transport.header.offset", 128, 8, 46}, {"transport.header.len", 136, 8, 8},
        {"transport.payload.offset", 144, 8, 54}, {"transport.payload.len", 152, 8, 4}, {"source_port", 160, 2, 4660},
        {"destination_port", 162, 2, 22136}, {"transport.kind", 164, 1, 17}, {"has_ports", 165, 1, 1},
        {"tcp_flags", 166, 1, 0}, {"icmp_type", 167, 1, 0}, {"icmp_code", 168, 1, 0}, {"stop.kind", 176, 4, 0},
        {"stop.number", 180, 2, 0}, {"stop.layer", 182, 2, 0}, {"stop.required_len", 184, 8, 0}, {"stop.len", 192, 8, 0},
        {"stop.layer_start_offset", 200, 8, 0}, {"stop.limit", 208, 8, 0}, {"header_checksum", 216, 1, 1},
        {"payload_checksum", 217, 1, 1},
    };
    static const struct place truncated[] = {
        {"link.header.offset", 0, 8, 0}, {"link.header.len", 8, 8, 20}, {"link.payload.offset", 16, 8, 20},
        {"link.payload.len", 24, 8, 83}, {"link.family", 32, 4, 0}, {"link.ether_type", 36, 2, 34525},
        {"outer_vlan.identifier", 38, 2, 0}, {"outer_vlan.priority", 40, 1, 0}, {"outer_vlan.drop_eligible", 41, 1, 0},
        {"inner_vlan.identifier", 42, 2, 0}, {"inner_vlan.priority", 44, 1, 0}, {"inner_vlan.drop_eligible", 45, 1, 0},
        {"link.kind", 46, 1, 3}, {"vlan_count", 47, 1, 0}, {"has_ether_type", 48, 1, 1}, {"ip.header.offset", 56, 8, 20},
        {"ip.header.len", 64, 8, 40}, {"ip.extensions.offset", 72, 8, 60}, {"ip.extensions.len", 80, 8, 16},
        {"ip.payload.offset", 88, 8, 76}, {"ip.payload.len", 96, 8, 27}, {"packet_len", 104, 8, 88},
        {"identification", 112, 4, 286397204}, {"fragment_offset", 116, 4, 0}, {"version", 120, 1, 6}, {"upper", 121, 1, 6},
        {"is_fragment", 122, 1, 1}, {"more_fragments", 123, 1, 1}, {"is_later_fragment", 124, 1, 0},
        {"is_truncated", 125, 1, 1}, {"transport.header.offset", 128, 8, 76}, {"transport.header.len", 136, 8, 24},
        {"transport.payload.offset", 144, 8, 100}, {"transport.payload.len", 152, 8, 3}, {"source_port", 160, 2, 9029},
        {"destination_port", 162, 2, 26505}, {"transport.kind", 164, 1, 6}, {"has_ports", 165, 1, 1},
        {"tcp_flags", 166, 1, 18}, {"icmp_type", 167, 1, 0}, {"icmp_code", 168, 1, 0}, {"stop.kind", 176, 4, 1},
        {"stop.number", 180, 2, 0}, {"stop.layer", 182, 2, 9}, {"stop.required_len", 184, 8, 88}, {"stop.len", 192, 8, 83},
        {"stop.layer_start_offset", 200, 8, 20}, {"stop.limit", 208, 8, 0}, {"header_checksum", 216, 1, 0},
        {"payload_checksum", 217, 1, 5},
    };
    static const struct place later[] = {
        {"link.header.offset", 0, 8, 0}, {"link.header.len", 8, 8, 4}, {"link.payload.offset", 16, 8, 4},
        {"link.payload.len", 24, 8, 36}, {"link.family", 32, 4, 2}, {"link.ether_type", 36, 2, 0},
        {"outer_vlan.identifier", 38, 2, 0}, {"outer_vlan.priority", 40, 1, 0}, {"outer_vlan.drop_eligible", 41, 1, 0},
        {"inner_vlan.identifier", 42, 2, 0}, {"inner_vlan.priority", 44, 1, 0}, {"inner_vlan.drop_eligible", 45, 1, 0},
        {"link.kind", 46, 1, 4}, {"vlan_count", 47, 1, 0}, {"has_ether_type", 48, 1, 0}, {"ip.header.offset", 56, 8, 4},
        {"ip.header.len", 64, 8, 20}, {"ip.extensions.offset", 72, 8, 24}, {"ip.extensions.len", 80, 8, 0},
        {"ip.payload.offset", 88, 8, 24}, {"ip.payload.len", 96, 8, 16}, {"packet_len", 104, 8, 36},
        {"identification", 112, 4, 39612}, {"fragment_offset", 116, 4, 528}, {"version", 120, 1, 4}, {"upper", 121, 1, 17},
        {"is_fragment", 122, 1, 1}, {"more_fragments", 123, 1, 1}, {"is_later_fragment", 124, 1, 1},
        {"is_truncated", 125, 1, 0}, {"transport.header.offset", 128, 8, 0}, {"transport.header.len", 136, 8, 0},
        {"transport.payload.offset", 144, 8, 0}, {"transport.payload.len", 152, 8, 0}, {"source_port", 160, 2, 0},
        {"destination_port", 162, 2, 0}, {"transport.kind", 164, 1, 0}, {"has_ports", 165, 1, 0}, {"tcp_flags", 166, 1, 0},
        {"icmp_type", 167, 1, 0}, {"icmp_code", 168, 1, 0}, {"stop.kind", 176, 4, 0}, {"stop.number", 180, 2, 0},
        {"stop.layer", 182, 2, 0}, {"stop.required_len", 184, 8, 0}, {"stop.len", 192, 8, 0},
        {"stop.layer_start_offset", 200, 8, 0}, {"stop.limit", 208, 8, 0}, {"header_checksum", 216, 1, 1},
        {"payload_checksum", 217, 1, 3},
    };
    static const struct place message[] = {
        {"link.header.offset", 0, 8, 0}, {"link.header.len", 8, 8, 16}, {"link.payload.offset", 16, 8, 20},
        {"link.payload.len", 24, 8, 30}, {"link.family", 32, 4, 0}, {"link.ether_type", 36, 2, 2048},
        {"outer_vlan.identifier", 38, 2, 7}, {"outer_vlan.priority", 40, 1, 6}, {"outer_vlan.drop_eligible", 41, 1, 1},
        {"inner_vlan.identifier", 42, 2, 0}, {"inner_vlan.priority", 44, 1, 0}, {"inner_vlan.drop_eligible", 45, 1, 0},
        {"link.kind", 46, 1, 2}, {"vlan_count", 47, 1, 1}, {"has_ether_type", 48, 1, 1}, {"ip.header.offset", 56, 8, 20},
        {"ip.header.len", 64, 8, 20}, {"ip.extensions.offset", 72, 8, 40}, {"ip.extensions.len", 80, 8, 0},
        {"ip.payload.offset", 88, 8, 40}, {"ip.payload.len", 96, 8, 10}, {"packet_len", 104, 8, 30},
        {"identification", 112, 4, 0}, {"fragment_offset", 116, 4, 0}, {"version", 120, 1, 4}, {"upper", 121, 1, 1},
        {"is_fragment", 122, 1, 0}, {"more_fragments", 123, 1, 0}, {"is_later_fragment", 124, 1, 0},
        {"is_truncated", 125, 1, 0}, {"transport.header.offset", 128, 8, 40}, {"transport.header.len", 136, 8, 4},
        {"transport.payload.offset", 144, 8, 44}, {"transport.payload.len", 152, 8, 6}, {"source_port", 160, 2, 0},
        {"destination_port", 162, 2, 0}, {"transport.kind", 164, 1, 1}, {"has_ports", 165, 1, 0}, {"tcp_flags", 166, 1, 0},
        {"icmp_type", 167, 1, 3}, {"icmp_code", 168, 1, 1}, {"stop.kind", 176, 4, 0}, {"stop.number", 180, 2, 0},
        {"stop.layer", 182, 2, 0}, {"stop.required_len", 184, 8, 0}, {"stop.len", 192, 8, 0},
        {"stop.layer_start_offset", 200, 8, 0}, {"stop.limit", 208, 8, 0}, {"header_checksum", 216, 1, 1},
        {"payload_checksum", 217, 1, 1},
    };
    struct etherparse_packet tagged_packet;
    etherparse_packet_lax_from_link_type(1, TAGGED, sizeof TAGGED, true, &tagged_packet);
    struct etherparse_packet truncated_packet;
    etherparse_packet_lax_from_link_type(276, TRUNCATED, sizeof TRUNCATED, true, &truncated_packet);
    struct etherparse_packet later_packet;
    etherparse_packet_lax_from_link_type(0, LATER, sizeof LATER, true, &later_packet);
    struct etherparse_packet message_packet;
    etherparse_packet_lax_from_link_type(113, MESSAGE, sizeof MESSAGE, true, &message_packet);
    COMPARE("packet_lax_from_link_type, two tags, options, UDP, padding", tagged_packet, tagged);
    COMPARE("packet_lax_from_link_type, first fragment over IPv6, truncated", truncated_packet, truncated);
    COMPARE("packet_lax_from_link_type, later fragment, loopback", later_packet, later);
    COMPARE("packet_lax_from_link_type, ICMP, one tag, Linux cooked capture", message_packet, message);
    memset(&tagged_packet, 7, sizeof tagged_packet);
    etherparse_packet_strict_from_link_type(1, TAGGED, sizeof TAGGED, true, &tagged_packet);
    COMPARE("packet_strict_from_link_type", tagged_packet, tagged);

    /* Frames are written as bytes, too: a pointer and two lengths each. */
    const uint8_t *at[2] = {WORDS, TAGGED};
    const size_t len[4] = {8, 60, sizeof TAGGED, 70};
    struct etherparse_frame frames[2];
    struct etherparse_packet answers[2];
    for (size_t i = 0; i < 2; i++) {
        memcpy((uint8_t *)frames + 24 * i, &at[i], 8);
        memcpy((uint8_t *)frames + 24 * i + 8, &len[2 * i], 16);
    }
    size_t count = etherparse_packet_lax_batch(1, frames, 2, true, answers, 2);
    static const struct place two[] = {{"count", 0, 8, 2}};
    COMPARE("packet_lax_batch", count, two);
    COMPARE("packet_lax_batch", answers[1], tagged);
}

int main(void)
{
    compare_sums();
    compare_ipv4_reads();
    compare_ipv4_fields();
    compare_ipv4_numbers();
    compare_ipv6();
    compare_walks();
    compare_packets();
    printf("%d numbers stand where they should, %d do not.\n", right, wrong);
    return wrong != 0;
}
