/* Views, reads, makes and writes headers, walks past extension headers and sums bytes, and shows what is refused. */

#include "etherparse.h"

#include <stdio.h>
#include <string.h>

/* Room for the packets below. */
struct packet {
    uint8_t at[128];
    size_t len;
};

/* The bytes that hex digits spell; blanks may stand anywhere. */
static struct packet packet_of(const char *digits)
{
    struct packet made;
    unsigned byte;
    int used;
    memset(&made, 0, sizeof made);
    while (sscanf(digits, " %2x%n", &byte, &used) == 1) {
        made.at[made.len++] = (uint8_t)byte;
        digits += used;
    }
    return made;
}

/* The same, padded with 0 to a length. */
static struct packet padded(const char *digits, size_t len)
{
    struct packet made = packet_of(digits);
    made.len = len;
    return made;
}

static void print_hex(const char *name, const uint8_t *at, size_t len)
{
    printf("  %s ", name);
    for (size_t i = 0; i < len; i++)
        printf("%02x", at[i]);
    printf("%s\n", len == 0 ? "-" : "");
}

static const char *yes_or_no(bool is)
{
    return is ? "yes" : "no";
}

/* Prints the numbers of an error, and its text. `before` is how many bytes of the packet come before the slice that was refused:
 * its header, or none. */
static void print_error(struct etherparse_error error, size_t before)
{
    char text[ETHERPARSE_ERROR_TEXT_SIZE];
    error.layer_start_offset += before;
    printf("  error: kind %u, number %u, layer %u, required_len %zu, len %zu, layer_start_offset %zu, limit %zu\n",
        error.kind, error.number, error.layer, error.required_len, error.len, error.layer_start_offset, error.limit);
    printf("  %zu bytes: ", etherparse_error_text(&error, text, sizeof text));
    printf("%s\n", text);
}

static void print_ipv4_getters(const struct etherparse_ipv4_view_fields *view)
{
    printf("  ihl %u, dscp %u, ecn %u, total_len %u, identification %u\n",
        view->ihl, view->dscp, view->ecn, view->total_len, view->identification);
    printf("  dont_fragment %s, more_fragments %s, fragment_offset %u, a fragment %s\n",
        yes_or_no(view->dont_fragment), yes_or_no(view->more_fragments), view->fragment_offset,
        yes_or_no(view->is_fragmenting_payload));
    printf("  time_to_live %u, protocol %u, header_checksum %04x\n",
        view->time_to_live, view->protocol, view->header_checksum);
    print_hex("source", view->source, sizeof view->source);
    print_hex("destination", view->destination, sizeof view->destination);
}

/* Prints what the getters of a view return, and the fields of the owned header. */
static void show_ipv4(const char *name, const uint8_t *at, size_t len)
{
    printf("IPv4, %s\n", name);
    struct etherparse_ipv4_view_answer seen = etherparse_ipv4_view(at, len);
    struct etherparse_ipv4_read_answer read = etherparse_ipv4_read(at, len);
    if (seen.error.kind != ETHERPARSE_OK || read.error.kind != ETHERPARSE_OK) {
        print_error(seen.error, 0);
        print_error(read.error, 0);
        return;
    }
    print_ipv4_getters(&seen.view);
    print_hex("options", at + 20, seen.rest.offset - 20);
    printf("  computed %04x\n", etherparse_ipv4_header_checksum(&read.fields).checksum);
    struct etherparse_ipv4_lengths_answer lengths = etherparse_ipv4_lengths(read.fields.total_len, read.fields.options_len);
    printf("  header_len %u, max_payload_len %u, payload_len %u\n",
        lengths.header_len, lengths.max_payload_len, lengths.payload_len);
    if (lengths.error.kind != ETHERPARSE_OK)
        print_error(lengths.error, 0);
    struct etherparse_ipv4_bytes written = etherparse_ipv4_write(&read.fields);
    print_hex("written", written.bytes, written.len);
    printf("  rest at %zu, %zu bytes\n", read.rest.offset, read.rest.len);
}

/* Forwards a packet to the next hop. */
static void show_next_hop(const uint8_t *at, size_t len, uint8_t time_to_live)
{
    struct etherparse_ipv4_read_answer read = etherparse_ipv4_read(at, len);
    if (!etherparse_ipv4_set_time_to_live(&read.fields, time_to_live))
        return;
    printf("the next hop: time_to_live %u, header_checksum %04x, computed %04x\n", read.fields.time_to_live,
        read.fields.header_checksum, etherparse_ipv4_header_checksum(&read.fields).checksum);
}

static void print_walk(struct etherparse_ipv6_walk_answer walk, size_t before)
{
    if (walk.error.kind != ETHERPARSE_OK)
        print_error(walk.error, before);
    else
        printf("  then %u at %zu, %zu bytes\n", walk.next_header, before + walk.rest.offset, walk.rest.len);
}

static void print_ipv6_getters(const struct etherparse_ipv6_view_fields *view)
{
    printf("  traffic_class %u, dscp %u, ecn %u, flow_label %lu\n",
        view->traffic_class, view->dscp, view->ecn, (unsigned long)view->flow_label);
    printf("  payload_length %u, next_header %u, hop_limit %u\n",
        view->payload_length, view->next_header, view->hop_limit);
    print_hex("source", view->source, sizeof view->source);
    print_hex("destination", view->destination, sizeof view->destination);
}

static void show_ipv6(const char *name, const uint8_t *at, size_t len)
{
    printf("IPv6, %s\n", name);
    struct etherparse_ipv6_view_answer seen = etherparse_ipv6_view(at, len);
    struct etherparse_ipv6_read_answer read = etherparse_ipv6_read(at, len);
    if (seen.error.kind != ETHERPARSE_OK || read.error.kind != ETHERPARSE_OK) {
        print_error(seen.error, 0);
        print_error(read.error, 0);
        return;
    }
    print_ipv6_getters(&seen.view);
    struct etherparse_ipv6_bytes written = etherparse_ipv6_write(&read.fields);
    print_hex("written", written.bytes, written.len);
    print_walk(etherparse_ipv6_walk(at + read.rest.offset, read.rest.len, read.fields.next_header), read.rest.offset);
}

static void show_walk(const char *digits, size_t len, uint8_t next_header)
{
    struct packet slice = padded(digits, len);
    printf("a walk from %u over %zu bytes\n", next_header, len);
    print_walk(etherparse_ipv6_walk(len == 0 ? NULL : slice.at, len, next_header), 0);
}

static void show_skip(const char *digits, size_t len, uint8_t next_header)
{
    struct packet slice = padded(digits, len);
    printf("one skip from %u over %zu bytes\n", next_header, len);
    print_walk(etherparse_ipv6_skip(slice.at, len, next_header), 0);
}

static void show_limited_walk(const char *digits, size_t len, uint8_t next_header, size_t limit)
{
    struct packet slice = padded(digits, len);
    printf("a walk from %u over %zu bytes, past %zu headers at most\n", next_header, len, limit);
    print_walk(etherparse_ipv6_walk_up_to(slice.at, len, next_header, limit), 0);
}

static void show_checksum(const char *name, uint64_t wide, uint32_t narrow)
{
    printf("checksum of %s: %04x, %04x; with no zero: %04x, %04x\n", name,
        etherparse_u64_16bit_word_ones_complement(wide), etherparse_u32_16bit_word_ones_complement(narrow),
        etherparse_u64_16bit_word_ones_complement_with_no_zero(wide),
        etherparse_u32_16bit_word_ones_complement_with_no_zero(narrow));
}

static void show_checksums(void)
{
    const uint8_t ones[2] = {0xff, 0xff};
    const uint8_t three[3] = {1, 2, 3};
    const struct etherparse_slice pieces[2] = {{three, 1}, {three + 1, 2}};
    show_checksum("no bytes", etherparse_u64_16bit_word_add_slice(0, NULL, 0), etherparse_u32_16bit_word_add_slice(0, NULL, 0));
    show_checksum("ones", etherparse_u64_16bit_word_add_slice(0, ones, 2), etherparse_u32_16bit_word_add_slice(0, ones, 2));
    show_checksum("two pieces", etherparse_u64_16bit_word_add_slices(pieces, 2), etherparse_u32_16bit_word_add_slices(pieces, 2));
    printf("checksum of one piece: %04x, %04x\n",
        etherparse_u64_16bit_word_checksum(0, three, 3), etherparse_u32_16bit_word_checksum(0, three, 3));
    printf("in the other byte order: %04x\n", etherparse_swap_bytes(etherparse_u64_16bit_word_checksum(0, three, 3)));
    printf("checksum dd2f with 3285 for 5555: %04x\n", etherparse_update_2bytes(0xdd2f, 0x5555, 0x3285));
}

/* The checksum of a UDP packet over IPv4: the addresses, the protocol and the length in a pseudo-header (RFC 768), and then the
 * UDP header, whose own checksum is 0, and its payload. */
static void show_pseudo_header(void)
{
    const uint8_t addresses[8] = {192, 0, 2, 1, 192, 0, 2, 2};
    const uint8_t protocol_and_len[4] = {0, 17, 0, 12};
    uint8_t udp[12] = {0x30, 0x39, 0, 53, 0, 12, 0, 0, 'a', 'b', 'c', 'd'};
    uint64_t sum = etherparse_u64_16bit_word_add_slice(0, addresses, sizeof addresses);
    sum = etherparse_u64_16bit_word_add_slice(sum, protocol_and_len, sizeof protocol_and_len);
    uint64_t whole = etherparse_u64_16bit_word_add_slice(sum, udp, sizeof udp);
    uint16_t checksum = etherparse_u64_16bit_word_ones_complement_with_no_zero(whole);
    memcpy(udp + 6, &checksum, sizeof checksum);
    print_hex("UDP", udp, sizeof udp);
    printf("  a receiver's sum %04x\n", etherparse_u64_16bit_word_checksum(sum, udp, sizeof udp));
}

/* Numbers that count up. */
static void fill(uint8_t *at, size_t len, uint8_t first)
{
    for (size_t i = 0; i < len; i++)
        at[i] = (uint8_t)(first + i);
}

/* Headers whose fields all differ, written and read again. */
static void show_made(void)
{
    struct etherparse_ipv4_fields ipv4 = etherparse_ipv4_default();
    struct etherparse_ipv6_fields ipv6 = etherparse_ipv6_default();
    ipv4.dscp = 10;
    ipv4.ecn = 1;
    ipv4.total_len = 0x0102;
    ipv4.identification = 0x0304;
    ipv4.fragment_offset = 0x1506;
    ipv4.time_to_live = 7;
    ipv4.protocol = 8;
    ipv4.header_checksum = 0x090a;
    fill(ipv4.source, 4, 11);
    fill(ipv4.destination, 4, 15);
    ipv4.options_len = 4;
    fill(ipv4.options, 4, 19);
    ipv6.flow_label = 0x34567;
    ipv6.payload_length = 0x89ab;
    ipv6.traffic_class = 0x12;
    ipv6.next_header = 0xcd;
    ipv6.hop_limit = 0xef;
    fill(ipv6.source, 16, 0x20);
    fill(ipv6.destination, 16, 0x30);
    struct etherparse_ipv4_bytes first = etherparse_ipv4_write(&ipv4);
    struct etherparse_ipv6_bytes second = etherparse_ipv6_write(&ipv6);
    printf("made of fields\n");
    print_hex("IPv4", first.bytes, first.len);
    print_hex("IPv6", second.bytes, second.len);
    show_ipv4("made of fields", first.bytes, first.len);
    show_ipv6("made of fields", second.bytes, second.len);
}

static void print_fields(const struct etherparse_ipv4_fields *fields)
{
    printf("  dscp %u, ecn %u, total_len %u, identification %u, dont_fragment %s, more_fragments %s, fragment_offset %u\n",
        fields->dscp, fields->ecn, fields->total_len, fields->identification, yes_or_no(fields->dont_fragment),
        yes_or_no(fields->more_fragments), fields->fragment_offset);
    printf("  time_to_live %u, protocol %u, header_checksum %04x, options_len %u\n", fields->time_to_live, fields->protocol,
        fields->header_checksum, fields->options_len);
    print_hex("source", fields->source, sizeof fields->source);
    print_hex("destination", fields->destination, sizeof fields->destination);
    print_hex("options", fields->options, sizeof fields->options);
}

/* Headers that the library fills in. */
static void show_new(void)
{
    const uint8_t source[4] = {192, 168, 0, 1}, destination[4] = {192, 168, 0, 199};
    struct etherparse_ipv4_fields none = etherparse_ipv4_default();
    struct etherparse_ipv6_fields other = etherparse_ipv6_default();
    printf("no field given\n");
    print_fields(&none);
    struct etherparse_ipv6_bytes written = etherparse_ipv6_write(&other);
    print_hex("IPv6", written.bytes, written.len);
    printf("new, for a payload of 95 bytes\n");
    struct etherparse_ipv4_new_answer made = etherparse_ipv4_new(95, 64, 17, source, destination);
    made.fields.header_checksum = etherparse_ipv4_header_checksum(&made.fields).checksum;
    print_fields(&made.fields);
    printf("new, for a payload of 65516 bytes\n");
    print_error(etherparse_ipv4_new(65516, 64, 17, source, destination).error, 0);
}

/* Fields that are out of bounds are refused. */
static void show_refused_fields(void)
{
    struct etherparse_ipv4_fields ipv4 = etherparse_ipv4_default();
    struct etherparse_ipv6_fields ipv6 = etherparse_ipv6_default();
    ipv4.dscp = 64;
    ipv6.flow_label = 1048576;
    struct etherparse_ipv4_header_checksum_answer checksum = etherparse_ipv4_header_checksum(&ipv4);
    bool is_set = etherparse_ipv4_set_time_to_live(&ipv4, 9);
    printf("dscp 64: %u bytes, checksum %s, %u, time_to_live %s, %u\n", etherparse_ipv4_write(&ipv4).len,
        yes_or_no(checksum.accepted), checksum.checksum, yes_or_no(is_set), ipv4.time_to_live);
    printf("flow_label 1048576: %u bytes\n", etherparse_ipv6_write(&ipv6).len);
    struct etherparse_ipv4_lengths_answer lengths = etherparse_ipv4_lengths(20, 3);
    printf("3 bytes of options: header_len %u\n", lengths.header_len);
    print_error(lengths.error, 0);
}

int main(void)
{
    struct packet udp = packet_of("45000073 00004000 4011b861 c0a80001 c0a800c7");
    show_ipv4("a UDP packet", udp.at, udp.len);
    show_next_hop(udp.at, udp.len, 63);
    struct packet largest = packet_of("4fffffff ffff7fff");
    memset(largest.at + 8, 0xff, 52);
    largest.len = 60;
    show_ipv4("the largest header", largest.at, largest.len);
    struct packet reserved = padded("45000000 0000c000", 20);
    show_ipv4("the reserved bit", reserved.at, reserved.len);
    struct packet short_total = padded("45000013", 25);
    show_ipv4("a total length below the header's", short_total.at, short_total.len);
    show_ipv4("no bytes", NULL, 0);
    struct packet zeros = padded("", 20);
    show_ipv4("19 bytes", zeros.at, 19);
    zeros.at[0] = 0x54;
    show_ipv4("version 5", zeros.at, 20);
    zeros.at[0] = 0x44;
    show_ipv4("IHL 4", zeros.at, 20);
    struct packet cut = padded("46", 23);
    show_ipv4("shorter than the IHL says", cut.at, cut.len);

    struct packet plain = padded("60000000 00003b40 00000000 00000000 00000000 00000001", 40);
    plain.at[39] = 2;
    show_ipv6("no payload", plain.at, plain.len);
    struct packet classed = padded("6abcdef0", 40);
    classed.at[6] = 59;
    show_ipv6("a traffic class and a flow label", classed.at, classed.len);
    struct packet chained = packet_of("60000000 000b0040 00000000 00000000 00000000 00000001"
        "00000000 00000000 00000000 00000002 2b000000 00000000 060100");
    show_ipv6("an incomplete extension header", chained.at, chained.len);
    show_ipv6("no bytes", NULL, 0);
    struct packet other = padded("45", 40);
    show_ipv6("39 bytes", other.at, 39);
    show_ipv6("version 4", other.at, 40);

    show_walk("06000000 00000000 09", 9, 0);
    show_walk("06ff0000 00000000 09", 9, 44);
    show_walk("11010000 00000000 00000000 05", 13, 51);
    show_walk("2b000000 00000000 060100", 11, 0);
    show_walk("06", 1, 44);
    show_walk("", 24, 0);
    show_walk("060504", 3, 50);
    show_walk("", 0, 59);
    show_skip("2b000000 00000000 060100", 11, 0);
    show_skip("060504", 3, 50);
    show_skip("060100", 3, 43);
    show_limited_walk("2b000000 00000000 060100", 11, 0, 1);
    show_limited_walk("", 24, 0, 3);
    show_limited_walk("", 24, 0, 4);

    show_checksums();
    show_pseudo_header();
    show_made();
    show_new();
    show_refused_fields();
    return 0;
}
