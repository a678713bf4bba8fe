/* Worked values of the standards, by the calls from C: sums, the checksum of a header, the largest header, each refusal with its
 * numbers, walks and texts. What a call returns is a clause in src/; this tests the way through the header file. */

#include "etherparse.h"
#include "compare.h"

#define EXPECT_BYTES(found, expected, len) compare(__LINE__, #found, memcmp(found, expected, len) == 0, 1)

/* The kind of an error, its number, the two lengths, the place and the limit. */
static void expect_error(int line, struct etherparse_error error, uint32_t kind, uint16_t number, size_t required_len, size_t len,
    size_t layer_start_offset, size_t limit)
{
    compare(line, "error.kind", error.kind, kind);
    compare(line, "error.number", error.number, number);
    compare(line, "error.required_len", error.required_len, required_len);
    compare(line, "error.len", error.len, len);
    compare(line, "error.layer_start_offset", error.layer_start_offset, layer_start_offset);
    compare(line, "error.limit", error.limit, limit);
}

#define EXPECT_ERROR(...) expect_error(__LINE__, __VA_ARGS__)

/* The complement of the words of the bytes 1, 2, 3 and so on is 0xf3ef up to 7 and 0xc7bf up to 15, as a number whose low byte
 * comes first. */
static void sums(void)
{
    static const uint8_t counted[15] = {1, 2, 3, 4, 5, 6, 7, 8, 9, 10, 11, 12, 13, 14, 15};
    static const struct {
        size_t len;
        uint16_t complement;
    } cases[] = {{7, 0xf3ef}, {15, 0xc7bf}};
    for (size_t i = 0; i < 2; i++) {
        size_t len = cases[i].len;
        uint16_t complement = cases[i].complement;
        const struct etherparse_slice pieces[3] = {{counted, 6}, {counted, 0}, {counted + 6, len - 6}};
        uint64_t wide = etherparse_u64_16bit_word_add_slice(0, counted, len);
        uint32_t narrow = etherparse_u32_16bit_word_add_slice(0, counted, len);
        EXPECT(etherparse_u64_16bit_word_ones_complement(wide), complement);
        EXPECT(etherparse_u32_16bit_word_ones_complement(narrow), complement);
        EXPECT(etherparse_u64_16bit_word_ones_complement_with_no_zero(wide), complement);
        EXPECT(etherparse_u32_16bit_word_ones_complement_with_no_zero(narrow), complement);
        EXPECT(etherparse_u64_16bit_word_checksum(0, counted, len), complement);
        EXPECT(etherparse_u32_16bit_word_checksum(0, counted, len), complement);
        wide = etherparse_u64_16bit_word_add_slices(pieces, 3);
        narrow = etherparse_u32_16bit_word_add_slices(pieces, 3);
        EXPECT(etherparse_u64_16bit_word_ones_complement(wide), complement);
        EXPECT(etherparse_u32_16bit_word_ones_complement(narrow), complement);
        wide = etherparse_u64_16bit_word_add_slice(0, counted, 6);
        narrow = etherparse_u32_16bit_word_add_slice(0, counted, 6);
        EXPECT(etherparse_u64_16bit_word_checksum(wide, counted + 6, len - 6), complement);
        EXPECT(etherparse_u32_16bit_word_checksum(narrow, counted + 6, len - 6), complement);
    }
    EXPECT(etherparse_u64_16bit_word_ones_complement(UINT64_MAX), 0);
    EXPECT(etherparse_u32_16bit_word_ones_complement(UINT32_MAX), 0);
    EXPECT(etherparse_u64_16bit_word_ones_complement_with_no_zero(UINT64_MAX), 0xffff);
    EXPECT(etherparse_u32_16bit_word_ones_complement_with_no_zero(UINT32_MAX), 0xffff);
    EXPECT(etherparse_u64_16bit_word_checksum(0, counted, 0), 0xffff);
    EXPECT(etherparse_u32_16bit_word_checksum(0, counted, 0), 0xffff);
    EXPECT(etherparse_swap_bytes(0x61b8), 0xb861);
}

/* The worked example of RFC 1624 section 4, and changed addresses. */
static void updates(void)
{
    static const uint8_t first[4] = {192, 168, 0, 199};
    static const uint8_t second[4] = {192, 168, 0, 200};
    static const uint8_t one[16] = {0, 0, 0, 0, 0, 0, 0, 0, 0, 0, 0, 0, 0, 0, 0, 1};
    static const uint8_t two[16] = {0, 0, 0, 0, 0, 0, 0, 0, 0, 0, 0, 0, 0, 0, 0, 2};
    EXPECT(etherparse_update_2bytes(0xdd2f, 0x5555, 0x3285), 0);
    EXPECT(etherparse_update_4bytes(0xb861, first, second), 0xb860);
    EXPECT(etherparse_update_16bytes(0x1234, one, two), 0x1233);
}

/* The fields of a UDP packet with no options. */
static struct etherparse_ipv4_fields some_fields(void)
{
    static const uint8_t source[4] = {192, 168, 0, 1};
    static const uint8_t destination[4] = {192, 168, 0, 199};
    return etherparse_ipv4_new(95, 64, 17, source, destination).fields;
}

static void expect_checksum(int line, struct etherparse_ipv4_fields fields, bool accepted, uint16_t checksum)
{
    struct etherparse_ipv4_header_checksum_answer answer = etherparse_ipv4_header_checksum(&fields);
    compare(line, "accepted", answer.accepted, accepted);
    compare(line, "checksum", answer.checksum, checksum);
}

#define EXPECT_CHECKSUM(fields, accepted, checksum) expect_checksum(__LINE__, fields, accepted, checksum)

static void checksums_of_headers(void)
{
    static const uint8_t lens[6] = {1, 2, 3, 41, 44, 255};
    struct etherparse_ipv4_fields fields = some_fields();
    EXPECT(fields.total_len, 115);
    EXPECT(fields.dont_fragment, true);
    EXPECT_CHECKSUM(fields, true, 0xb861);
    fields.header_checksum = 0xb861;
    EXPECT_CHECKSUM(fields, true, 0xb861);
    EXPECT(etherparse_ipv4_set_time_to_live(&fields, 63), true);
    EXPECT(fields.time_to_live, 63);
    EXPECT(fields.header_checksum, 0xb961);
    fields.dscp = 64;
    EXPECT(etherparse_ipv4_set_time_to_live(&fields, 9), false);
    EXPECT(fields.time_to_live, 63);
    EXPECT(fields.header_checksum, 0xb961);
    EXPECT_CHECKSUM(fields, false, 0);
    fields = some_fields();
    fields.ecn = 4;
    EXPECT_CHECKSUM(fields, false, 0);
    fields = some_fields();
    fields.fragment_offset = 8192;
    EXPECT_CHECKSUM(fields, false, 0);
    for (size_t i = 0; i < sizeof lens; i++) {
        fields = some_fields();
        fields.options_len = lens[i];
        EXPECT_CHECKSUM(fields, false, 0);
    }
    memset(&fields, 255, sizeof fields);
    fields.dscp = 63;
    fields.ecn = 3;
    fields.dont_fragment = true;
    fields.more_fragments = true;
    fields.fragment_offset = 8191;
    fields.options_len = 40;
    EXPECT_CHECKSUM(fields, true, 0x3001);
}

static void ipv4_headers(void)
{
    uint8_t bytes[70];
    struct etherparse_ipv4_read_answer read;
    struct etherparse_ipv4_view_answer seen;
    struct etherparse_ipv4_bytes written;
    memset(bytes, 255, sizeof bytes);
    bytes[0] = 0x4f;
    bytes[6] = 0x7f;
    read = etherparse_ipv4_read(bytes, 62);
    EXPECT(read.error.kind, ETHERPARSE_OK);
    EXPECT(read.rest.offset, 60);
    EXPECT(read.rest.len, 2);
    EXPECT(read.fields.dscp, 63);
    EXPECT(read.fields.ecn, 3);
    EXPECT(read.fields.fragment_offset, 8191);
    EXPECT(read.fields.dont_fragment, true);
    EXPECT(read.fields.more_fragments, true);
    EXPECT(read.fields.options_len, 40);
    EXPECT_BYTES(read.fields.options, bytes + 20, 40);
    written = etherparse_ipv4_write(&read.fields);
    EXPECT(written.len, 60);
    EXPECT_BYTES(written.bytes, bytes, 60);

    /* What follows the options is 0. */
    bytes[0] = 0x46;
    for (size_t len = 24; len <= 70; len += 46) {
        static const uint8_t options[5] = {255, 255, 255, 255, 0};
        read = etherparse_ipv4_read(bytes, len);
        EXPECT(read.fields.options_len, 4);
        EXPECT_BYTES(read.fields.options, options, 5);
    }

    /* A view shows the bytes as they are, with the reserved bit. */
    memset(bytes, 0, sizeof bytes);
    bytes[0] = 0x45;
    bytes[6] = 0xc0;
    seen = etherparse_ipv4_view(bytes, 25);
    EXPECT(seen.error.kind, ETHERPARSE_OK);
    EXPECT(seen.rest.offset, 20);
    EXPECT(seen.rest.len, 5);
    EXPECT(seen.view.ihl, 5);
    EXPECT(seen.view.dont_fragment, true);
    EXPECT(seen.view.more_fragments, false);
    EXPECT(seen.view.is_fragmenting_payload, false);
    seen = etherparse_ipv4_view(bytes, 19);
    EXPECT_ERROR(seen.error, ETHERPARSE_LEN, 0, 20, 19, 0, 0);
    EXPECT(seen.view.ihl, 0);
}

static void ipv4_refusals(void)
{
    static const uint8_t source[4] = {192, 168, 0, 1};
    uint8_t bytes[23];
    struct etherparse_ipv4_lengths_answer lengths;
    struct etherparse_ipv4_new_answer made;
    memset(bytes, 0, sizeof bytes);
    EXPECT_ERROR(etherparse_ipv4_read(bytes, 0).error, ETHERPARSE_LEN, 0, 20, 0, 0, 0);
    EXPECT_ERROR(etherparse_ipv4_read(bytes, 19).error, ETHERPARSE_LEN, 0, 20, 19, 0, 0);
    bytes[0] = 0x54;
    EXPECT_ERROR(etherparse_ipv4_read(bytes, 23).error, ETHERPARSE_UNEXPECTED_VERSION, 5, 0, 0, 0, 0);
    bytes[0] = 0x44;
    EXPECT_ERROR(etherparse_ipv4_read(bytes, 23).error, ETHERPARSE_HEADER_LENGTH_SMALLER_THAN_HEADER, 4, 0, 0, 0, 0);
    bytes[0] = 0x46;
    EXPECT_ERROR(etherparse_ipv4_read(bytes, 23).error, ETHERPARSE_LEN, 0, 24, 23, 0, 0);
    lengths = etherparse_ipv4_lengths(19, 0);
    EXPECT_ERROR(lengths.error, ETHERPARSE_LEN, ETHERPARSE_FROM_IPV4_TOTAL_LEN, 20, 19, 0, 0);
    EXPECT(lengths.header_len, 20);
    EXPECT(lengths.ihl, 5);
    lengths = etherparse_ipv4_lengths(65535, 40);
    EXPECT(lengths.error.kind, ETHERPARSE_OK);
    EXPECT(lengths.payload_len, 65475);
    EXPECT(lengths.max_payload_len, 65475);
    EXPECT(lengths.header_len, 60);
    EXPECT(lengths.ihl, 15);
    lengths = etherparse_ipv4_lengths(20, 3);
    EXPECT_ERROR(lengths.error, ETHERPARSE_BAD_OPTIONS_LEN, 0, 0, 3, 0, 0);
    EXPECT(lengths.header_len, 0);
    made = etherparse_ipv4_new(65516, 64, 17, source, source);
    EXPECT_ERROR(made.error, ETHERPARSE_VALUE_TOO_BIG, 5, 0, 65516, 0, 65515);
    EXPECT(made.fields.time_to_live, 0);
    EXPECT(etherparse_ipv4_default().protocol, 255);
    EXPECT(etherparse_ipv4_default().dont_fragment, true);
}

static void ipv6_headers(void)
{
    uint8_t bytes[42];
    struct etherparse_ipv6_read_answer read;
    struct etherparse_ipv6_view_answer seen;
    struct etherparse_ipv6_bytes written;
    memset(bytes, 7, sizeof bytes);
    memcpy(bytes, "\x6a\xbc\xde\xf0", 4);
    read = etherparse_ipv6_read(bytes, 42);
    EXPECT(read.error.kind, ETHERPARSE_OK);
    EXPECT(read.rest.offset, 40);
    EXPECT(read.rest.len, 2);
    EXPECT(read.fields.traffic_class, 171);
    EXPECT(read.fields.flow_label, 843504);
    written = etherparse_ipv6_write(&read.fields);
    EXPECT(written.len, 40);
    EXPECT_BYTES(written.bytes, bytes, 40);
    read.fields.flow_label = 1048576;
    EXPECT(etherparse_ipv6_write(&read.fields).len, 0);
    seen = etherparse_ipv6_view(bytes, 41);
    EXPECT(seen.error.kind, ETHERPARSE_OK);
    EXPECT(seen.rest.offset, 40);
    EXPECT(seen.rest.len, 1);
    EXPECT(seen.view.traffic_class, 171);
    EXPECT(seen.view.dscp, 42);
    EXPECT(seen.view.ecn, 3);
    EXPECT(seen.view.flow_label, 843504);
    EXPECT_ERROR(etherparse_ipv6_view(bytes, 0).error, ETHERPARSE_LEN, 0, 40, 0, 0, 0);
    EXPECT_ERROR(etherparse_ipv6_read(bytes, 39).error, ETHERPARSE_LEN, 0, 40, 39, 0, 0);
    bytes[0] = 0x45;
    EXPECT_ERROR(etherparse_ipv6_read(bytes, 40).error, ETHERPARSE_UNEXPECTED_VERSION, 4, 0, 0, 0, 0);
    EXPECT(etherparse_ipv6_default().next_header, 255);
    EXPECT(etherparse_ipv6_default().hop_limit, 0);
}

static void expect_walk(int line, struct etherparse_ipv6_walk_answer walk, uint8_t next_header, size_t offset, size_t len)
{
    compare(line, "error.kind", walk.error.kind, ETHERPARSE_OK);
    compare(line, "next_header", walk.next_header, next_header);
    compare(line, "rest.offset", walk.rest.offset, offset);
    compare(line, "rest.len", walk.rest.len, len);
}

#define EXPECT_WALK(...) expect_walk(__LINE__, __VA_ARGS__)

static void walks(void)
{
    static const uint8_t fragment[9] = {6, 255, 0, 0, 0, 0, 0, 0, 9};
    static const uint8_t chain[11] = {43, 0, 0, 0, 0, 0, 0, 0, 6, 1, 0};
    static const uint8_t zeros[24] = {0};
    struct etherparse_ipv6_walk_answer walk;
    EXPECT_WALK(etherparse_ipv6_walk(fragment, 9, 44), 6, 8, 1);
    EXPECT_WALK(etherparse_ipv6_walk(fragment, 0, 59), 59, 0, 0);
    EXPECT_ERROR(etherparse_ipv6_walk(chain, 11, 0).error, ETHERPARSE_LEN, 0, 16, 3, 8, 0);
    EXPECT_ERROR(etherparse_ipv6_walk_up_to(zeros, 24, 0, 3).error, ETHERPARSE_TOO_MANY, 0, 0, 0, 24, 3);
    EXPECT_ERROR(etherparse_ipv6_walk_up_to(zeros, 24, 0, 4).error, ETHERPARSE_LEN, 0, 2, 0, 24, 0);
    EXPECT_WALK(etherparse_ipv6_skip(chain, 11, 0), 43, 8, 3);
    EXPECT_WALK(etherparse_ipv6_skip(chain, 11, 17), 17, 0, 11);
    walk = etherparse_ipv6_skip(chain + 8, 3, 43);
    EXPECT_ERROR(walk.error, ETHERPARSE_LEN, 0, 16, 3, 0, 0);
    EXPECT(walk.error.layer, ETHERPARSE_IPV6_EXT_HEADER);
}

static struct etherparse_error error_of(uint32_t kind, uint16_t number, uint16_t layer)
{
    struct etherparse_error error = {0};
    error.kind = kind;
    error.number = number;
    error.layer = layer;
    error.required_len = 40;
    error.len = 39;
    return error;
}

static void texts(void)
{
    static const char too_short[] =
        "IPv6 Header Error: Not enough data to decode 'IPv6 header'. 40 byte(s) would be required, but only 39 byte(s) are "
        "available based on the slice length.";
    static const char version[] =
        "IPv6 Header Error: Encountered '4' as IP version number in the IPv6 header (must be '6' in an IPv6 header).";
    static const char cut[8] = {'I', 'P', 'v', '4', 0, 7, 7, 7};
    static const char by_total_len[] =
        "UDP Header Error: Not enough data to decode 'UDP header'. 40 byte(s) would be required, but only 39 byte(s) are "
        "available based on the length calculated from the IPv4 header 'total length' field.";
    static const char by_payload_length[] =
        "IPv6 Extension Header Error: Not enough data to decode 'IPv6 extension header'. 40 byte(s) would be required, but only "
        "39 byte(s) are available based on the length calculated from the IPv6 header 'payload length' field.";
    static const char longest[] =
        "IPv6 Extension Header Error: Not enough data to decode 'IPv6 extension header'. 18446744073709551615 byte(s) would be "
        "required, but only 18446744073709551614 byte(s) are available based on the length calculated from the IPv6 header "
        "'payload length' field ('IPv6 extension header' starts at overall parsed byte 18446744073709551615).";
    char text[ETHERPARSE_ERROR_TEXT_SIZE];
    struct etherparse_error error = error_of(ETHERPARSE_LEN, ETHERPARSE_FROM_SLICE, ETHERPARSE_IPV6_HEADER);
    memset(text, 7, sizeof text);
    EXPECT(etherparse_error_text(&error, text, sizeof text), sizeof too_short - 1);
    EXPECT_BYTES(text, too_short, sizeof too_short);
    error = error_of(ETHERPARSE_LEN, ETHERPARSE_FROM_IPV4_TOTAL_LEN, ETHERPARSE_UDP_HEADER);
    EXPECT(etherparse_error_text(&error, text, sizeof text), sizeof by_total_len - 1);
    EXPECT_BYTES(text, by_total_len, sizeof by_total_len);
    error = error_of(ETHERPARSE_LEN, ETHERPARSE_FROM_IPV6_PAYLOAD_LENGTH, ETHERPARSE_IPV6_EXT_HEADER);
    EXPECT(etherparse_error_text(&error, text, sizeof text), sizeof by_payload_length - 1);
    EXPECT_BYTES(text, by_payload_length, sizeof by_payload_length);
    error = error_of(ETHERPARSE_UNEXPECTED_VERSION, 4, ETHERPARSE_IPV6_HEADER);
    EXPECT(etherparse_error_text(&error, text, sizeof text), sizeof version - 1);
    EXPECT_BYTES(text, version, sizeof version);
    error = error_of(ETHERPARSE_LEN, ETHERPARSE_FROM_IPV6_PAYLOAD_LENGTH, ETHERPARSE_IPV6_EXT_HEADER);
    error.required_len = SIZE_MAX;
    error.len = SIZE_MAX - 1;
    error.layer_start_offset = SIZE_MAX;
    EXPECT(sizeof longest, ETHERPARSE_ERROR_TEXT_SIZE);
    EXPECT(etherparse_error_text(&error, text, sizeof text), sizeof longest - 1);
    EXPECT_BYTES(text, longest, sizeof longest);

    /* Into a buffer that is too small, into none, and for a kind or a source that does not exist. */
    error = error_of(ETHERPARSE_UNEXPECTED_VERSION, 5, ETHERPARSE_IPV4_HEADER);
    memset(text, 7, sizeof text);
    EXPECT(etherparse_error_text(&error, text, 5), 107);
    EXPECT_BYTES(text, cut, 8);
    EXPECT(etherparse_error_text(&error, text, 0), 107);
    EXPECT_BYTES(text, cut, 8);
    error = error_of(9, 0, 0);
    EXPECT(etherparse_error_text(&error, text, 8), 0);
    EXPECT(text[0], 0);
    EXPECT(text[1], 'P');
    error = error_of(ETHERPARSE_LEN, 3, ETHERPARSE_UDP_HEADER);
    EXPECT(etherparse_error_text(&error, text, 8), 0);
    error = error_of(ETHERPARSE_LEN, ETHERPARSE_FROM_IPV4_TOTAL_LEN, ETHERPARSE_IPV4_PACKET_BYTES);
    EXPECT(etherparse_error_text(&error, text, 8), 0);
}

int main(void)
{
    sums();
    updates();
    checksums_of_headers();
    ipv4_headers();
    ipv4_refusals();
    ipv6_headers();
    walks();
    texts();
    printf("%d answers are right, %d are not.\n", right, wrong);
    return wrong != 0;
}
