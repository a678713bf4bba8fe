/* The reference: see reference.h. */

#include "reference.h"

#include <stdio.h>
#include <string.h>

uint32_t bits_at(const uint8_t *at, size_t first, size_t count)
{
    uint32_t number = 0;
    for (size_t bit = first; bit < first + count; bit++)
        number = 2 * number + ((at[bit / 8] >> (7 - bit % 8)) & 1u);
    return number;
}

static void put_bits(uint8_t *at, size_t first, size_t count, uint32_t number)
{
    for (size_t i = 0; i < count; i++) {
        size_t bit = first + count - 1 - i;
        uint8_t mask = (uint8_t)(1u << (7 - bit % 8));
        if ((number >> i) & 1u)
            at[bit / 8] = (uint8_t)(at[bit / 8] | mask);
        else
            at[bit / 8] = (uint8_t)(at[bit / 8] & ~mask);
    }
}

/* Errors. */

static struct etherparse_error no_error(void)
{
    struct etherparse_error error;
    memset(&error, 0, sizeof error);
    return error;
}

/* A length that is too small, from this source. */
static struct etherparse_error too_short(uint16_t layer, uint16_t source, size_t required_len, size_t len,
    size_t layer_start_offset)
{
    struct etherparse_error error = no_error();
    error.kind = ETHERPARSE_LEN;
    error.number = source;
    error.layer = layer;
    error.required_len = required_len;
    error.len = len;
    error.layer_start_offset = layer_start_offset;
    return error;
}

static struct etherparse_error of_number(uint32_t kind, uint16_t layer, uint32_t number)
{
    struct etherparse_error error = no_error();
    error.kind = kind;
    error.layer = layer;
    error.number = (uint16_t)number;
    return error;
}

/* The text, with the titles and names of the layers. */
static int len_text(char *text, const char *title, const char *layer, const char *source, const struct etherparse_error *error)
{
    int len = snprintf(text, ETHERPARSE_ERROR_TEXT_SIZE,
        "%s: Not enough data to decode '%s'. %zu byte(s) would be required, but only %zu byte(s) are available based on the %s",
        title, layer, error->required_len, error->len, source);
    if (error->layer_start_offset > 0)
        len += snprintf(text + len, (size_t)(ETHERPARSE_ERROR_TEXT_SIZE - len), " ('%s' starts at overall parsed byte %zu)",
            layer, error->layer_start_offset);
    return len + snprintf(text + len, (size_t)(ETHERPARSE_ERROR_TEXT_SIZE - len), ".");
}

static int version_text(char *text, int version, unsigned number)
{
    return snprintf(text, ETHERPARSE_ERROR_TEXT_SIZE,
        "IPv%d Header Error: Encountered '%u' as IP version number in the IPv%d header (must be '%d' in an IPv%d header).",
        version, number, version, version, version);
}

size_t reference_text(const struct etherparse_error *error, char text[ETHERPARSE_ERROR_TEXT_SIZE])
{
    static const char *const sources[3] = {
        "slice length", "length calculated from the IPv4 header 'total length' field",
        "length calculated from the IPv6 header 'payload length' field",
    };
    static const char *const values[7] = {
        NULL, "IP Fragment Offset", "IPv4 DSCP (Differentiated Services Code Point)",
        "IPv4 ECN (Explicit Congestion Notification)", "IPv6 Flow Label",
        "IPv4 Header 'Payload Length' (sets 'Total Length')", "IPv6 Header 'Payload Length'",
    };
    int len = 0;
    text[0] = '\0';
    if (error->kind == ETHERPARSE_LEN && error->layer == ETHERPARSE_LINK_HEADER && error->len < error->required_len)
        len = snprintf(text, ETHERPARSE_ERROR_TEXT_SIZE, "Link Header Error: The header has at least %zu bytes, the frame %zu.",
            error->required_len, error->len);
    if (error->kind == ETHERPARSE_LEN && error->number <= 2 && error->len < error->required_len) {
        const char *source = sources[error->number];
        if (error->layer == ETHERPARSE_IPV4_HEADER)
            len = len_text(text, "IPv4 Header Error", "IPv4 header", source, error);
        if (error->layer == ETHERPARSE_IPV4_PACKET)
            len = len_text(text, "IPv4 Packet Error", "IPv4 packet", source, error);
        if (error->layer == ETHERPARSE_IPV6_HEADER)
            len = len_text(text, "IPv6 Header Error", "IPv6 header", source, error);
        if (error->layer == ETHERPARSE_IPV6_EXT_HEADER)
            len = len_text(text, "IPv6 Extension Header Error", "IPv6 extension header", source, error);
        if (error->layer == ETHERPARSE_VLAN_HEADER)
            len = len_text(text, "VLAN Header Error", "VLAN header", source, error);
        if (error->layer == ETHERPARSE_IP_HEADER)
            len = len_text(text, "IP Header Error", "IP header", source, error);
        if (error->layer == ETHERPARSE_IPV4_PACKET_BYTES && error->number == ETHERPARSE_FROM_SLICE)
            len = len_text(text, "IPv4 Packet Error", "IPv4 packet", source, error);
        if (error->layer == ETHERPARSE_IPV6_PACKET)
            len = len_text(text, "IPv6 Packet Error", "IPv6 packet", source, error);
        if (error->layer == ETHERPARSE_UDP_HEADER)
            len = len_text(text, "UDP Header Error", "UDP header", source, error);
        if (error->layer == ETHERPARSE_TCP_HEADER)
            len = len_text(text, "TCP Header Error", "TCP header", source, error);
        if (error->layer == ETHERPARSE_ICMPV4)
            len = len_text(text, "ICMP Packet Error", "ICMP packet", source, error);
        if (error->layer == ETHERPARSE_ICMPV6)
            len = len_text(text, "ICMPv6 Packet Error", "ICMPv6 packet", source, error);
    }
    if (error->kind == ETHERPARSE_UNEXPECTED_VERSION && error->layer == ETHERPARSE_IP_HEADER)
        len = snprintf(text, ETHERPARSE_ERROR_TEXT_SIZE, "IP Header Error: Version %u is neither 4 nor 6.", error->number);
    if (error->kind == ETHERPARSE_DATA_OFFSET)
        len = snprintf(text, ETHERPARSE_ERROR_TEXT_SIZE, "TCP Header Error: Data offset %u is less than 5.", error->number);
    if (error->kind == ETHERPARSE_LINK_TYPE)
        len = snprintf(text, ETHERPARSE_ERROR_TEXT_SIZE, "Link Type Error: Frames of link type %zu are not read.", error->len);
    if (error->kind == ETHERPARSE_UNEXPECTED_VERSION && error->layer == ETHERPARSE_IPV4_HEADER)
        len = version_text(text, 4, error->number);
    if (error->kind == ETHERPARSE_UNEXPECTED_VERSION && error->layer == ETHERPARSE_IPV6_HEADER)
        len = version_text(text, 6, error->number);
    if (error->kind == ETHERPARSE_HEADER_LENGTH_SMALLER_THAN_HEADER)
        len = snprintf(text, ETHERPARSE_ERROR_TEXT_SIZE,
            "IPv4 Header Error: The 'internet header length' value '%u' present in the IPv4 header is smaller than the minimum"
            " size of an IPv4 header. The minimum allowed value is '5'.", error->number);
    if (error->kind == ETHERPARSE_TOO_MANY)
        len = snprintf(text, ETHERPARSE_ERROR_TEXT_SIZE,
            "IPv6 Extension Header Error: More than %zu extension header(s) ('%u' starts at overall parsed byte %zu).",
            error->limit, error->number, error->layer_start_offset);
    if (error->kind == ETHERPARSE_VALUE_TOO_BIG && error->number >= 1 && error->number <= 6)
        len = snprintf(text, ETHERPARSE_ERROR_TEXT_SIZE,
            "Error '%zu' is too big to be a '%s' (maximum allowed value is '%zu')", error->len, values[error->number],
            error->limit);
    if (error->kind == ETHERPARSE_BAD_OPTIONS_LEN)
        len = snprintf(text, ETHERPARSE_ERROR_TEXT_SIZE,
            "Slice of length %zu cannot be set as IPv4 header options. The length must be a multiple of 4 and at maximum 40.",
            error->len);
    return (size_t)len;
}

/* Sums (RFC 1071 section 1): carries are added at the low end until none is left. */

uint16_t reference_fold(uint64_t sum)
{
    while (sum > 0xffff)
        sum = (sum >> 16) + (sum & 0xffff);
    return (uint16_t)sum;
}

uint16_t reference_add(uint16_t a, uint16_t b)
{
    return reference_fold((uint64_t)a + b);
}

uint16_t reference_sum(const uint8_t *at, size_t len)
{
    uint16_t sum = 0;
    for (size_t i = 0; i < len; i += 2)
        sum = reference_add(sum, (uint16_t)(at[i] + (i + 1 < len ? 256u * at[i + 1] : 0)));
    return sum;
}

uint16_t reference_update(uint16_t checksum, const uint8_t *old_bytes, const uint8_t *new_bytes, size_t len)
{
    uint16_t sum = (uint16_t)~checksum;
    for (size_t i = 0; i < len; i += 2) {
        sum = reference_add(sum, (uint16_t)~bits_at(old_bytes + i, 0, 16));
        sum = reference_add(sum, (uint16_t)bits_at(new_bytes + i, 0, 16));
    }
    return (uint16_t)~sum;
}

/* IPv4 (RFC 791 section 3.1, figure 4). */

static struct etherparse_error ipv4_error(const uint8_t *at, size_t len)
{
    if (len < 20)
        return too_short(ETHERPARSE_IPV4_HEADER, ETHERPARSE_FROM_SLICE, 20, len, 0);
    if (bits_at(at, 0, 4) != 4)
        return of_number(ETHERPARSE_UNEXPECTED_VERSION, ETHERPARSE_IPV4_HEADER, bits_at(at, 0, 4));
    if (bits_at(at, 4, 4) < 5)
        return of_number(ETHERPARSE_HEADER_LENGTH_SMALLER_THAN_HEADER, ETHERPARSE_IPV4_HEADER, bits_at(at, 4, 4));
    if (len < 4 * bits_at(at, 4, 4))
        return too_short(ETHERPARSE_IPV4_HEADER, ETHERPARSE_FROM_SLICE, 4 * bits_at(at, 4, 4), len, 0);
    return no_error();
}

struct etherparse_ipv4_read_answer reference_ipv4_read(const uint8_t *at, size_t len)
{
    struct etherparse_ipv4_read_answer answer;
    memset(&answer, 0, sizeof answer);
    answer.error = ipv4_error(at, len);
    if (answer.error.kind != ETHERPARSE_OK)
        return answer;
    answer.fields.dscp = (uint8_t)bits_at(at, 8, 6);
    answer.fields.ecn = (uint8_t)bits_at(at, 14, 2);
    answer.fields.total_len = (uint16_t)bits_at(at, 16, 16);
    answer.fields.identification = (uint16_t)bits_at(at, 32, 16);
    answer.fields.dont_fragment = bits_at(at, 49, 1) == 1;
    answer.fields.more_fragments = bits_at(at, 50, 1) == 1;
    answer.fields.fragment_offset = (uint16_t)bits_at(at, 51, 13);
    answer.fields.time_to_live = (uint8_t)bits_at(at, 64, 8);
    answer.fields.protocol = (uint8_t)bits_at(at, 72, 8);
    answer.fields.header_checksum = (uint16_t)bits_at(at, 80, 16);
    for (size_t i = 0; i < 4; i++) {
        answer.fields.source[i] = at[12 + i];
        answer.fields.destination[i] = at[16 + i];
    }
    answer.rest.offset = 4 * bits_at(at, 4, 4);
    answer.rest.len = len - answer.rest.offset;
    answer.fields.options_len = (uint8_t)(answer.rest.offset - 20);
    for (size_t i = 20; i < answer.rest.offset; i++)
        answer.fields.options[i - 20] = at[i];
    return answer;
}

struct etherparse_ipv4_view_answer reference_ipv4_view(const uint8_t *at, size_t len)
{
    struct etherparse_ipv4_read_answer read = reference_ipv4_read(at, len);
    struct etherparse_ipv4_view_answer answer;
    memset(&answer, 0, sizeof answer);
    answer.error = read.error;
    answer.rest = read.rest;
    answer.view.ihl = (uint8_t)(read.rest.offset / 4);
    answer.view.dscp = read.fields.dscp;
    answer.view.ecn = read.fields.ecn;
    answer.view.total_len = read.fields.total_len;
    answer.view.identification = read.fields.identification;
    answer.view.dont_fragment = read.fields.dont_fragment;
    answer.view.more_fragments = read.fields.more_fragments;
    answer.view.is_fragmenting_payload = read.fields.more_fragments || read.fields.fragment_offset > 0;
    answer.view.fragment_offset = read.fields.fragment_offset;
    answer.view.time_to_live = read.fields.time_to_live;
    answer.view.protocol = read.fields.protocol;
    answer.view.header_checksum = read.fields.header_checksum;
    memcpy(answer.view.source, read.fields.source, 4);
    memcpy(answer.view.destination, read.fields.destination, 4);
    return answer;
}

static bool can_be_options(uint8_t len)
{
    return len <= 40 && len % 4 == 0;
}

struct etherparse_ipv4_bytes reference_ipv4_write(const struct etherparse_ipv4_fields *fields)
{
    struct etherparse_ipv4_bytes written;
    memset(&written, 0, sizeof written);
    if (fields->dscp > 63 || fields->ecn > 3 || fields->fragment_offset > 8191 || !can_be_options(fields->options_len))
        return written;
    written.len = (uint8_t)(20 + fields->options_len);
    put_bits(written.bytes, 0, 4, 4);
    put_bits(written.bytes, 4, 4, written.len / 4u);
    put_bits(written.bytes, 8, 6, fields->dscp);
    put_bits(written.bytes, 14, 2, fields->ecn);
    put_bits(written.bytes, 16, 16, fields->total_len);
    put_bits(written.bytes, 32, 16, fields->identification);
    put_bits(written.bytes, 49, 1, fields->dont_fragment);
    put_bits(written.bytes, 50, 1, fields->more_fragments);
    put_bits(written.bytes, 51, 13, fields->fragment_offset);
    put_bits(written.bytes, 64, 8, fields->time_to_live);
    put_bits(written.bytes, 72, 8, fields->protocol);
    put_bits(written.bytes, 80, 16, fields->header_checksum);
    memcpy(written.bytes + 12, fields->source, 4);
    memcpy(written.bytes + 16, fields->destination, 4);
    memcpy(written.bytes + 20, fields->options, fields->options_len);
    return written;
}

struct etherparse_ipv4_fields reference_ipv4_default(void)
{
    struct etherparse_ipv4_fields fields;
    memset(&fields, 0, sizeof fields);
    fields.dont_fragment = true;
    fields.protocol = 255;
    return fields;
}

struct etherparse_ipv4_new_answer reference_ipv4_new(uint16_t payload_len, uint8_t time_to_live, uint8_t protocol,
    const uint8_t source[4], const uint8_t destination[4])
{
    struct etherparse_ipv4_new_answer answer;
    memset(&answer, 0, sizeof answer);
    if (payload_len > 65535 - 20) {
        answer.error = of_number(ETHERPARSE_VALUE_TOO_BIG, 0, ETHERPARSE_IPV4_PAYLOAD_LENGTH);
        answer.error.len = payload_len;
        answer.error.limit = 65535 - 20;
        return answer;
    }
    answer.fields = reference_ipv4_default();
    answer.fields.total_len = (uint16_t)(20 + payload_len);
    answer.fields.time_to_live = time_to_live;
    answer.fields.protocol = protocol;
    memcpy(answer.fields.source, source, 4);
    memcpy(answer.fields.destination, destination, 4);
    return answer;
}

struct etherparse_ipv4_lengths_answer reference_ipv4_lengths(uint16_t total_len, uint8_t options_len)
{
    struct etherparse_ipv4_lengths_answer answer;
    size_t header_len = 20u + options_len;
    memset(&answer, 0, sizeof answer);
    if (!can_be_options(options_len)) {
        answer.error = of_number(ETHERPARSE_BAD_OPTIONS_LEN, 0, 0);
        answer.error.len = options_len;
        return answer;
    }
    answer.header_len = (uint8_t)header_len;
    answer.ihl = (uint8_t)(header_len / 4);
    answer.max_payload_len = (uint16_t)(65535 - header_len);
    if (total_len < header_len)
        answer.error = too_short(ETHERPARSE_IPV4_PACKET, ETHERPARSE_FROM_IPV4_TOTAL_LEN, header_len, total_len, 0);
    else
        answer.payload_len = (uint16_t)(total_len - header_len);
    return answer;
}

struct etherparse_ipv4_header_checksum_answer reference_ipv4_header_checksum(const struct etherparse_ipv4_fields *fields)
{
    struct etherparse_ipv4_header_checksum_answer answer = {0, false};
    struct etherparse_ipv4_fields with_none = *fields;
    struct etherparse_ipv4_bytes written;
    uint16_t sum = 0;
    with_none.header_checksum = 0;
    written = reference_ipv4_write(&with_none);
    if (written.len == 0)
        return answer;
    for (size_t i = 0; i < written.len; i += 2)
        sum = reference_add(sum, (uint16_t)bits_at(written.bytes + i, 0, 16));
    answer.checksum = (uint16_t)~sum;
    answer.accepted = true;
    return answer;
}

bool reference_ipv4_set_time_to_live(struct etherparse_ipv4_fields *fields, uint8_t time_to_live)
{
    uint8_t old_word[2] = {fields->time_to_live, fields->protocol};
    uint8_t new_word[2] = {time_to_live, fields->protocol};
    if (reference_ipv4_write(fields).len == 0)
        return false;
    fields->header_checksum = reference_update(fields->header_checksum, old_word, new_word, 2);
    fields->time_to_live = time_to_live;
    return true;
}

/* IPv6 (RFC 8200 section 3). */

struct etherparse_ipv6_view_answer reference_ipv6_view(const uint8_t *at, size_t len)
{
    struct etherparse_ipv6_view_answer answer;
    memset(&answer, 0, sizeof answer);
    if (len < 40)
        answer.error = too_short(ETHERPARSE_IPV6_HEADER, ETHERPARSE_FROM_SLICE, 40, len, 0);
    else if (bits_at(at, 0, 4) != 6)
        answer.error = of_number(ETHERPARSE_UNEXPECTED_VERSION, ETHERPARSE_IPV6_HEADER, bits_at(at, 0, 4));
    if (answer.error.kind != ETHERPARSE_OK)
        return answer;
    answer.view.traffic_class = (uint8_t)bits_at(at, 4, 8);
    answer.view.dscp = (uint8_t)bits_at(at, 4, 6);
    answer.view.ecn = (uint8_t)bits_at(at, 10, 2);
    answer.view.flow_label = bits_at(at, 12, 20);
    answer.view.payload_length = (uint16_t)bits_at(at, 32, 16);
    answer.view.next_header = (uint8_t)bits_at(at, 48, 8);
    answer.view.hop_limit = (uint8_t)bits_at(at, 56, 8);
    memcpy(answer.view.source, at + 8, 16);
    memcpy(answer.view.destination, at + 24, 16);
    answer.rest.offset = 40;
    answer.rest.len = len - 40;
    return answer;
}

struct etherparse_ipv6_read_answer reference_ipv6_read(const uint8_t *at, size_t len)
{
    struct etherparse_ipv6_view_answer seen = reference_ipv6_view(at, len);
    struct etherparse_ipv6_read_answer answer;
    memset(&answer, 0, sizeof answer);
    answer.error = seen.error;
    answer.rest = seen.rest;
    answer.fields.traffic_class = seen.view.traffic_class;
    answer.fields.flow_label = seen.view.flow_label;
    answer.fields.payload_length = seen.view.payload_length;
    answer.fields.next_header = seen.view.next_header;
    answer.fields.hop_limit = seen.view.hop_limit;
    memcpy(answer.fields.source, seen.view.source, 16);
    memcpy(answer.fields.destination, seen.view.destination, 16);
    return answer;
}

struct etherparse_ipv6_bytes reference_ipv6_write(const struct etherparse_ipv6_fields *fields)
{
    struct etherparse_ipv6_bytes written;
    memset(&written, 0, sizeof written);
    if (fields->flow_label > 0xfffff)
        return written;
    written.len = 40;
    put_bits(written.bytes, 0, 4, 6);
    put_bits(written.bytes, 4, 8, fields->traffic_class);
    put_bits(written.bytes, 12, 20, fields->flow_label);
    put_bits(written.bytes, 32, 16, fields->payload_length);
    put_bits(written.bytes, 48, 8, fields->next_header);
    put_bits(written.bytes, 56, 8, fields->hop_limit);
    memcpy(written.bytes + 8, fields->source, 16);
    memcpy(written.bytes + 24, fields->destination, 16);
    return written;
}

struct etherparse_ipv6_fields reference_ipv6_default(void)
{
    struct etherparse_ipv6_fields fields;
    memset(&fields, 0, sizeof fields);
    fields.next_header = 255;
    return fields;
}

/* Extension headers (RFC 8200 section 4; RFC 4302 section 2.2 for 51; RFC 6275, 7401 and 5533 for 135, 139 and 140). */

static bool is_skippable(uint8_t number)
{
    return number == 0 || number == 43 || number == 44 || number == 51 || number == 60 || number == 135 || number == 139
        || number == 140;
}

static size_t required_len(const uint8_t *at, size_t len, size_t offset, uint8_t number)
{
    if (len - offset < 2)
        return 2;
    if (number == 44)
        return 8;
    return number == 51 ? 4 * ((size_t)at[offset + 1] + 2) : 8 * ((size_t)at[offset + 1] + 1);
}

/* A walk past at most this many headers. If is_told, one header more is an error; otherwise the walk ends there. */
static struct etherparse_ipv6_walk_answer walked(const uint8_t *at, size_t len, uint8_t number, size_t limit, bool is_told)
{
    struct etherparse_ipv6_walk_answer answer;
    size_t offset = 0;
    size_t skipped = 0;
    memset(&answer, 0, sizeof answer);
    while (is_skippable(number) && skipped < limit) {
        size_t required = required_len(at, len, offset, number);
        if (len - offset < required) {
            answer.error = too_short(ETHERPARSE_IPV6_EXT_HEADER, ETHERPARSE_FROM_SLICE, required, len - offset, offset);
            return answer;
        }
        number = at[offset];
        offset += required;
        skipped++;
    }
    if (is_skippable(number) && is_told) {
        answer.error = of_number(ETHERPARSE_TOO_MANY, ETHERPARSE_IPV6_EXT_HEADER, number);
        answer.error.layer_start_offset = offset;
        answer.error.limit = limit;
        return answer;
    }
    answer.next_header = number;
    answer.rest.offset = offset;
    answer.rest.len = len - offset;
    return answer;
}

struct etherparse_ipv6_walk_answer reference_ipv6_skip(const uint8_t *at, size_t len, uint8_t next_header)
{
    return walked(at, len, next_header, 1, false);
}

struct etherparse_ipv6_walk_answer reference_ipv6_walk(const uint8_t *at, size_t len, uint8_t next_header)
{
    return walked(at, len, next_header, len + 1, false);
}

struct etherparse_ipv6_walk_answer reference_ipv6_walk_up_to(const uint8_t *at, size_t len, uint8_t next_header, size_t limit)
{
    return walked(at, len, next_header, limit, true);
}
