/* fuzz COUNT SECONDS EVERY CASES ANSWERS [SEED]: calls every function of the library on COUNT inputs, for SECONDS at most, and
 * compares each answer with that of the reference.
 *
 * An input is a random or mutated packet, at one end of a page between two pages that cannot be read, a frame that stands there
 * too, and fields, words and an error of random numbers, which end at such a page. For each EVERYth packet the calls are written to
 * the file CASES and the answers to ANSWERS, in the protocol of comparison/PROTOCOL.md. */

#define _DEFAULT_SOURCE
#include "fuzz.h"

#include <inttypes.h>
#include <stdarg.h>
#include <stdio.h>
#include <stdlib.h>
#include <string.h>
#include <sys/mman.h>
#include <time.h>
#include <unistd.h>

/* The packet from an offset on. */
static const uint8_t *from(size_t offset)
{
    return packet == NULL ? NULL : packet + offset;
}

/* Packets. */

static const uint8_t SKIPPABLE[8] = {0, 43, 44, 51, 60, 135, 139, 140};

static size_t make_packet(uint8_t *at, uint8_t *number)
{
    size_t len = 0;
    *number = SKIPPABLE[below(8)];
    switch (below(5)) {
    case 0:
        len = make_ipv4(at);
        break;
    case 1:
        len = make_ipv6(at, *number);
        len += make_chain(at + len, *number, 17);
        break;
    case 2:
        len = make_chain(at, *number, 17);
        break;
    case 3:
        *number = (uint8_t)next_random();
        break;
    default:
        break;
    }
    size_t more = below(below(16) == 0 ? 300 : 24);
    fill(at + len, more);
    len += more;
    if (below(3) == 0)
        len = below(len + 1);
    for (size_t count = below(3); len > 0 && count > 0; count--)
        at[below(len)] = (uint8_t)next_random();
    return len;
}

/* Compares the results of the calls on one packet with the reference. Structs are compared by field, since the padding between
 * fields is not set. */

bool same_error(const struct etherparse_error *a, const struct etherparse_error *b)
{
    return a->kind == b->kind && a->number == b->number && a->layer == b->layer && a->required_len == b->required_len
        && a->len == b->len && a->layer_start_offset == b->layer_start_offset && a->limit == b->limit;
}

static bool same_rest(const struct etherparse_rest *a, const struct etherparse_rest *b)
{
    return a->offset == b->offset && a->len == b->len;
}

static bool same_ipv4_fields(const struct etherparse_ipv4_fields *a, const struct etherparse_ipv4_fields *b)
{
    return a->dscp == b->dscp && a->ecn == b->ecn && a->total_len == b->total_len && a->identification == b->identification
        && a->dont_fragment == b->dont_fragment && a->more_fragments == b->more_fragments
        && a->fragment_offset == b->fragment_offset && a->time_to_live == b->time_to_live && a->protocol == b->protocol
        && a->header_checksum == b->header_checksum && memcmp(a->source, b->source, 4) == 0
        && memcmp(a->destination, b->destination, 4) == 0 && a->options_len == b->options_len
        && memcmp(a->options, b->options, 40) == 0;
}

static bool same_ipv6_fields(const struct etherparse_ipv6_fields *a, const struct etherparse_ipv6_fields *b)
{
    return memcmp(a->source, b->source, 16) == 0 && memcmp(a->destination, b->destination, 16) == 0
        && a->flow_label == b->flow_label && a->payload_length == b->payload_length && a->traffic_class == b->traffic_class
        && a->next_header == b->next_header && a->hop_limit == b->hop_limit;
}

static bool same_walk(struct etherparse_ipv6_walk_answer a, struct etherparse_ipv6_walk_answer b)
{
    return a.next_header == b.next_header && same_error(&a.error, &b.error) && same_rest(&a.rest, &b.rest);
}

static void check_ipv4(void)
{
    struct etherparse_ipv4_view_answer seen = etherparse_ipv4_view(packet, packet_len);
    struct etherparse_ipv4_view_answer view = reference_ipv4_view(packet, packet_len);
    struct etherparse_ipv4_read_answer found = etherparse_ipv4_read(packet, packet_len);
    struct etherparse_ipv4_read_answer read = reference_ipv4_read(packet, packet_len);
    expect(same_error(&seen.error, &view.error) && same_rest(&seen.rest, &view.rest), "ipv4_view: error and rest");
    expect(seen.view.ihl == view.view.ihl && seen.view.dscp == view.view.dscp && seen.view.ecn == view.view.ecn
        && seen.view.total_len == view.view.total_len && seen.view.identification == view.view.identification
        && seen.view.dont_fragment == view.view.dont_fragment && seen.view.more_fragments == view.view.more_fragments
        && seen.view.is_fragmenting_payload == view.view.is_fragmenting_payload
        && seen.view.fragment_offset == view.view.fragment_offset && seen.view.time_to_live == view.view.time_to_live
        && seen.view.protocol == view.view.protocol && seen.view.header_checksum == view.view.header_checksum
        && memcmp(seen.view.source, view.view.source, 4) == 0
        && memcmp(seen.view.destination, view.view.destination, 4) == 0, "ipv4_view: getters");
    expect(same_error(&found.error, &read.error) && same_rest(&found.rest, &read.rest), "ipv4_read: error and rest");
    expect(same_ipv4_fields(&found.fields, &read.fields), "ipv4_read: fields");
}

static void check_ipv6(void)
{
    struct etherparse_ipv6_view_answer seen = etherparse_ipv6_view(packet, packet_len);
    struct etherparse_ipv6_view_answer view = reference_ipv6_view(packet, packet_len);
    struct etherparse_ipv6_read_answer found = etherparse_ipv6_read(packet, packet_len);
    struct etherparse_ipv6_read_answer read = reference_ipv6_read(packet, packet_len);
    expect(same_error(&seen.error, &view.error) && same_rest(&seen.rest, &view.rest), "ipv6_view: error and rest");
    expect(memcmp(seen.view.source, view.view.source, 16) == 0
        && memcmp(seen.view.destination, view.view.destination, 16) == 0 && seen.view.flow_label == view.view.flow_label
        && seen.view.payload_length == view.view.payload_length && seen.view.traffic_class == view.view.traffic_class
        && seen.view.dscp == view.view.dscp && seen.view.ecn == view.view.ecn
        && seen.view.next_header == view.view.next_header && seen.view.hop_limit == view.view.hop_limit, "ipv6_view: getters");
    expect(same_error(&found.error, &read.error) && same_rest(&found.rest, &read.rest), "ipv6_read: error and rest");
    expect(same_ipv6_fields(&found.fields, &read.fields), "ipv6_read: fields");
}

static void check_walk(uint8_t number)
{
    size_t limit = below(6);
    expect(same_walk(etherparse_ipv6_skip(packet, packet_len, number), reference_ipv6_skip(packet, packet_len, number)),
        "ipv6_skip");
    expect(same_walk(etherparse_ipv6_walk(packet, packet_len, number), reference_ipv6_walk(packet, packet_len, number)),
        "ipv6_walk");
    expect(same_walk(etherparse_ipv6_walk_up_to(packet, packet_len, number, limit),
        reference_ipv6_walk_up_to(packet, packet_len, number, limit)), "ipv6_walk_up_to");
}

/* The checksum of a sum with this fold, the low byte first, and its form with no zero. */
static void check_complements(uint64_t wide, uint32_t narrow)
{
    uint16_t of_wide = (uint16_t)~reference_fold(wide);
    uint16_t of_narrow = (uint16_t)~reference_fold(narrow);
    expect(etherparse_u64_16bit_word_ones_complement(wide) == of_wide, "u64 ones_complement");
    expect(etherparse_u32_16bit_word_ones_complement(narrow) == of_narrow, "u32 ones_complement");
    expect(etherparse_u64_16bit_word_ones_complement_with_no_zero(wide) == (of_wide == 0 ? 0xffff : of_wide),
        "u64 ones_complement_with_no_zero");
    expect(etherparse_u32_16bit_word_ones_complement_with_no_zero(narrow) == (of_narrow == 0 ? 0xffff : of_narrow),
        "u32 ones_complement_with_no_zero");
    expect(etherparse_swap_bytes(of_wide) == 256 * (of_wide % 256) + of_wide / 256, "swap_bytes");
}

static void check_sums(void)
{
    uint64_t start = some_number(UINT64_MAX);
    uint32_t narrow_start = (uint32_t)some_number(UINT32_MAX);
    uint16_t words = reference_sum(packet, packet_len);
    uint16_t wide = reference_add(reference_fold(start), words);
    uint16_t narrow = reference_add(reference_fold(narrow_start), words);
    uint64_t wide_sum = etherparse_u64_16bit_word_add_slice(start, packet, packet_len);
    uint32_t narrow_sum = etherparse_u32_16bit_word_add_slice(narrow_start, packet, packet_len);
    expect(reference_fold(wide_sum) == wide, "u64 add_slice");
    expect(reference_fold(narrow_sum) == narrow, "u32 add_slice");
    expect(etherparse_u64_16bit_word_checksum(start, packet, packet_len) + wide == 0xffff, "u64 checksum");
    expect(etherparse_u32_16bit_word_checksum(narrow_start, packet, packet_len) + narrow == 0xffff, "u32 checksum");
    check_complements(wide_sum, narrow_sum);
    check_complements(start, narrow_start);
    size_t first = below(packet_len + 1), second = first + below(packet_len - first + 1);
    const struct etherparse_slice pieces[4] = {
        {packet, first}, {NULL, 0}, {from(first), second - first}, {from(second), packet_len - second},
    };
    size_t count = below(5);
    uint16_t of_pieces = 0;
    for (size_t i = 0; i < count; i++)
        of_pieces = reference_add(of_pieces, reference_sum(pieces[i].at, pieces[i].len));
    const struct etherparse_slice *list = count == 0 ? NULL : pieces;
    expect(reference_fold(etherparse_u64_16bit_word_add_slices(list, count)) == of_pieces, "u64 add_slices");
    expect(reference_fold(etherparse_u32_16bit_word_add_slices(list, count)) == of_pieces, "u32 add_slices");
}

/* Room at the end of a page; nothing after it can be read or written. */
static uint8_t *page_end;

static void fill_words(uint8_t *at, size_t len)
{
    for (size_t i = 0; i < len; i++)
        at[i] = (uint8_t)some_number(255);
}

static void check_updates(void)
{
    uint16_t checksum = (uint16_t)some_number(65535);
    uint8_t *old_bytes = page_end - 16, *new_bytes = page_end - 32;
    fill_words(old_bytes, 16);
    fill_words(new_bytes, 16);
    uint16_t old_word = (uint16_t)bits_at(old_bytes, 0, 16), new_word = (uint16_t)bits_at(new_bytes, 0, 16);
    expect(etherparse_update_2bytes(checksum, old_word, new_word) == reference_update(checksum, old_bytes, new_bytes, 2),
        "update_2bytes");
    expect(etherparse_update_4bytes(checksum, old_bytes + 12, new_bytes + 12)
        == reference_update(checksum, old_bytes + 12, new_bytes + 12, 4), "update_4bytes");
    expect(etherparse_update_16bytes(checksum, old_bytes, new_bytes) == reference_update(checksum, old_bytes, new_bytes, 16),
        "update_16bytes");
}

static struct etherparse_ipv4_fields made_fields(void)
{
    struct etherparse_ipv4_fields fields = {
        .dscp = (uint8_t)below(below(8) == 0 ? 256 : 64),
        .ecn = (uint8_t)below(below(8) == 0 ? 256 : 4),
        .total_len = (uint16_t)(below(4) == 0 ? below(80) : next_random() >> 40),
        .identification = (uint16_t)(next_random() >> 40),
        .dont_fragment = below(2) == 1,
        .more_fragments = below(2) == 1,
        .fragment_offset = (uint16_t)below(below(8) == 0 ? 65536 : 8192),
        .time_to_live = (uint8_t)below(256),
        .protocol = (uint8_t)below(256),
        .header_checksum = (uint16_t)some_number(65535),
        .options_len = (uint8_t)(below(8) == 0 ? below(256) : 4 * below(11)),
    };
    fill_words(fields.source, 4);
    fill_words(fields.destination, 4);
    fill_words(fields.options, 40);
    return fields;
}

/* Headers made of fields at the end of the page. */
static void check_ipv4_fields(void)
{
    struct etherparse_ipv4_fields *fields = (struct etherparse_ipv4_fields *)(page_end - sizeof *fields);
    *fields = made_fields();
    struct etherparse_ipv4_fields wanted = *fields;
    struct etherparse_ipv4_bytes written = etherparse_ipv4_write(fields), bytes = reference_ipv4_write(&wanted);
    expect(written.len == bytes.len && memcmp(written.bytes, bytes.bytes, 60) == 0, "ipv4_write");
    struct etherparse_ipv4_header_checksum_answer computed = etherparse_ipv4_header_checksum(fields);
    struct etherparse_ipv4_header_checksum_answer checksum = reference_ipv4_header_checksum(&wanted);
    expect(computed.accepted == checksum.accepted && computed.checksum == checksum.checksum, "ipv4_header_checksum");
    if (below(2) == 0)
        fields->header_checksum = wanted.header_checksum = checksum.checksum;
    uint8_t time_to_live = (uint8_t)below(256);
    bool is_set = etherparse_ipv4_set_time_to_live(fields, time_to_live);
    expect(is_set == reference_ipv4_set_time_to_live(&wanted, time_to_live) && same_ipv4_fields(fields, &wanted),
        "ipv4_set_time_to_live");
    struct etherparse_ipv4_lengths_answer told = etherparse_ipv4_lengths(wanted.total_len, wanted.options_len);
    struct etherparse_ipv4_lengths_answer lengths = reference_ipv4_lengths(wanted.total_len, wanted.options_len);
    expect(told.payload_len == lengths.payload_len && told.max_payload_len == lengths.max_payload_len
        && told.header_len == lengths.header_len && told.ihl == lengths.ihl && same_error(&told.error, &lengths.error),
        "ipv4_lengths");
    uint16_t payload_len = (uint16_t)(below(4) == 0 ? 65500 + below(36) : next_random() >> 40);
    uint8_t *addresses = page_end - 8;
    memcpy(addresses, wanted.options, 8);
    struct etherparse_ipv4_new_answer made = etherparse_ipv4_new(payload_len, time_to_live, wanted.protocol, addresses,
        addresses + 4);
    struct etherparse_ipv4_new_answer header = reference_ipv4_new(payload_len, time_to_live, wanted.protocol, addresses,
        addresses + 4);
    expect(same_ipv4_fields(&made.fields, &header.fields) && same_error(&made.error, &header.error), "ipv4_new");
    struct etherparse_ipv4_fields given = etherparse_ipv4_default(), none = reference_ipv4_default();
    expect(same_ipv4_fields(&given, &none), "ipv4_default");
}

static void check_ipv6_fields(void)
{
    struct etherparse_ipv6_fields *fields = (struct etherparse_ipv6_fields *)(page_end - sizeof *fields);
    fill_words((uint8_t *)fields, sizeof *fields);
    fields->flow_label = (uint32_t)(below(8) == 0 ? some_number(UINT32_MAX) : some_number(0xfffff));
    struct etherparse_ipv6_bytes written = etherparse_ipv6_write(fields), bytes = reference_ipv6_write(fields);
    expect(written.len == bytes.len && memcmp(written.bytes, bytes.bytes, 40) == 0, "ipv6_write");
    struct etherparse_ipv6_fields given = etherparse_ipv6_default(), none = reference_ipv6_default();
    expect(same_ipv6_fields(&given, &none), "ipv6_default");
}

/* The text of the numbers of an error, or of any numbers, in a buffer of any size at the end of the page. */
static void check_text(void)
{
    char text[ETHERPARSE_ERROR_TEXT_SIZE];
    struct etherparse_error *error = (struct etherparse_error *)(page_end - sizeof *error);
    memset(error, 0, sizeof *error);
    error->kind = (uint32_t)(below(16) == 0 ? next_random() : below(10));
    error->number = (uint16_t)(below(16) == 0 ? next_random() : below(below(2) == 0 ? 3 : 16));
    error->layer = (uint16_t)(below(16) == 0 ? next_random() : below(16));
    error->required_len = below(4) == 0 ? (size_t)some_number(UINT64_MAX) : below(2000);
    error->len = below(4) == 0 ? (size_t)some_number(UINT64_MAX) : below(2000);
    error->layer_start_offset = below(2) == 0 ? 0 : (size_t)some_number(UINT64_MAX);
    error->limit = below(4) == 0 ? (size_t)some_number(UINT64_MAX) : below(2000);
    struct etherparse_error copy = *error;
    size_t len = reference_text(&copy, text);
    expect(etherparse_error_text(error, NULL, 0) == len, "error_text: its length");
    size_t room = below(ETHERPARSE_ERROR_TEXT_SIZE + 20);
    uint8_t *at = page_end - room;
    uint8_t before[ETHERPARSE_ERROR_TEXT_SIZE + 20];
    fill(at, room);
    memcpy(before, at, room);
    expect(etherparse_error_text(&copy, room == 0 ? NULL : (char *)at, room) == len, "error_text: its length with a room");
    if (room == 0)
        return;
    size_t shown = len < room ? len : room - 1;
    expect(memcmp(at, text, shown) == 0 && at[shown] == 0, "error_text");
    expect(memcmp(at + shown + 1, before + shown + 1, room - shown - 1) == 0, "error_text: what stands behind");
}

/* The same calls and results, for the comparison with the Rust crate. */

static FILE *cases;
static FILE *answers;

static void tell(FILE *file, const char *form, ...)
{
    va_list arguments;
    va_start(arguments, form);
    vfprintf(file, form, arguments);
    va_end(arguments);
}

static void tell_bytes(FILE *file, const char *name, const uint8_t *at, size_t len)
{
    tell(file, "%s", name);
    for (size_t i = 0; i < len; i++)
        tell(file, "%02x", at[i]);
    if (len == 0)
        tell(file, "-");
}

static const char *true_or_false(bool is)
{
    return is ? "true" : "false";
}

static void tell_len_error(const struct etherparse_error *error, const char *layer)
{
    static const char *const sources[3] = {"Slice", "Ipv4HeaderTotalLen", "Ipv6HeaderPayloadLen"};
    expect(error->number <= 2, "a source of no number");
    tell(answers, "err len required=%zu len=%zu source=%s layer=%s offset=%zu",
        error->required_len, error->len, sources[error->number], layer, error->layer_start_offset);
}

static void tell_error(const struct etherparse_error *error, const char *layer)
{
    if (error->kind == ETHERPARSE_LEN)
        tell_len_error(error, layer);
    else if (error->kind == ETHERPARSE_UNEXPECTED_VERSION)
        tell(answers, "err version number=%u", error->number);
    else if (error->kind == ETHERPARSE_TOO_MANY)
        tell(answers, "err too_many limit=%zu next=%u offset=%zu", error->limit, error->number, error->layer_start_offset);
    else if (error->kind == ETHERPARSE_HEADER_LENGTH_SMALLER_THAN_HEADER)
        tell(answers, "err ihl ihl=%u", error->number);
    else
        expect(false, "an error of no kind");
    tell(answers, "\n");
}

static void tell_payload_len(uint16_t total_len, uint8_t options_len)
{
    struct etherparse_ipv4_lengths_answer lengths = etherparse_ipv4_lengths(total_len, options_len);
    tell(answers, " payload_len=");
    if (lengths.error.kind == ETHERPARSE_OK)
        tell(answers, "ok %u", lengths.payload_len);
    else
        tell_len_error(&lengths.error, "Ipv4Packet");
}

static void tell_ipv4_view(void)
{
    tell_bytes(cases, "v4.view ", packet, packet_len);
    tell(cases, "\n");
    struct etherparse_ipv4_view_answer seen = etherparse_ipv4_view(packet, packet_len);
    if (seen.error.kind != ETHERPARSE_OK) {
        tell_error(&seen.error, "Ipv4Header");
        return;
    }
    const struct etherparse_ipv4_view_fields *view = &seen.view;
    tell_bytes(answers, "ok slice=", packet, seen.rest.offset);
    tell(answers, " version=4 ihl=%u dscp=%u ecn=%u total_len=%u identification=%u dont_fragment=%s more_fragments=%s",
        view->ihl, view->dscp, view->ecn, view->total_len, view->identification, true_or_false(view->dont_fragment),
        true_or_false(view->more_fragments));
    tell(answers, " fragment_offset=%u time_to_live=%u protocol=%u header_checksum=%u",
        view->fragment_offset, view->time_to_live, view->protocol, view->header_checksum);
    tell_bytes(answers, " source=", view->source, 4);
    tell_bytes(answers, " destination=", view->destination, 4);
    tell_bytes(answers, " options=", packet + 20, seen.rest.offset - 20);
    tell(answers, " fragmenting=%s", true_or_false(view->is_fragmenting_payload));
    tell_payload_len(view->total_len, (uint8_t)(seen.rest.offset - 20));
    tell(answers, "\n");
}

static void tell_ipv4_fields(const struct etherparse_ipv4_fields *fields)
{
    tell(answers, " dscp=%u ecn=%u total_len=%u identification=%u dont_fragment=%s more_fragments=%s",
        fields->dscp, fields->ecn, fields->total_len, fields->identification, true_or_false(fields->dont_fragment),
        true_or_false(fields->more_fragments));
    tell(answers, " fragment_offset=%u time_to_live=%u protocol=%u header_checksum=%u",
        fields->fragment_offset, fields->time_to_live, fields->protocol, fields->header_checksum);
    tell_bytes(answers, " source=", fields->source, 4);
    tell_bytes(answers, " destination=", fields->destination, 4);
    tell_bytes(answers, " options=", fields->options, fields->options_len);
}

static void tell_ipv4_read(void)
{
    tell_bytes(cases, "v4.head ", packet, packet_len);
    tell(cases, "\n");
    struct etherparse_ipv4_read_answer read = etherparse_ipv4_read(packet, packet_len);
    if (read.error.kind != ETHERPARSE_OK) {
        tell_error(&read.error, "Ipv4Header");
        return;
    }
    struct etherparse_ipv4_bytes written = etherparse_ipv4_write(&read.fields);
    tell(answers, "ok");
    tell_ipv4_fields(&read.fields);
    tell_bytes(answers, " rest=", packet + read.rest.offset, read.rest.len);
    tell_bytes(answers, " bytes=", written.bytes, written.len);
    tell(answers, "\n");
}

/* The fields as the arguments of a case. */
static void tell_case_fields(const struct etherparse_ipv4_fields *fields)
{
    tell(cases, " %u %u %u %u %d %d %u %u %u %u", fields->dscp, fields->ecn, fields->total_len, fields->identification,
        fields->dont_fragment, fields->more_fragments, fields->fragment_offset, fields->time_to_live, fields->protocol,
        fields->header_checksum);
    tell_bytes(cases, " ", fields->source, 4);
    tell_bytes(cases, " ", fields->destination, 4);
    tell_bytes(cases, " ", fields->options, fields->options_len);
    tell(cases, "\n");
}

/* A header of random fields. */
static void tell_ipv4_write(void)
{
    struct etherparse_ipv4_fields fields = {
        .dscp = (uint8_t)below(64),
        .ecn = (uint8_t)below(4),
        .total_len = (uint16_t)(below(4) == 0 ? below(80) : next_random() >> 40),
        .identification = (uint16_t)(next_random() >> 40),
        .dont_fragment = below(2) == 1,
        .more_fragments = below(2) == 1,
        .fragment_offset = (uint16_t)below(8192),
        .time_to_live = (uint8_t)below(256),
        .protocol = (uint8_t)below(256),
        .header_checksum = (uint16_t)(next_random() >> 40),
        .options_len = (uint8_t)(4 * below(11)),
    };
    fill(fields.source, 4);
    fill(fields.destination, 4);
    fill(fields.options, 40);
    tell(cases, "v4.info");
    tell_case_fields(&fields);
    struct etherparse_ipv4_lengths_answer lengths = etherparse_ipv4_lengths(fields.total_len, fields.options_len);
    struct etherparse_ipv4_bytes written = etherparse_ipv4_write(&fields);
    uint16_t computed = etherparse_ipv4_header_checksum(&fields).checksum;
    struct etherparse_ipv4_view_answer seen = etherparse_ipv4_view(written.bytes, written.len);
    tell(answers, "ihl=%u header_len=%u max_payload_len=%u fragmenting=%s calc=%u", lengths.ihl, lengths.header_len,
        lengths.max_payload_len, true_or_false(seen.view.is_fragmenting_payload), computed);
    tell_bytes(answers, " options=", fields.options, fields.options_len);
    tell_bytes(answers, " bytes=", written.bytes, written.len);
    tell_payload_len(fields.total_len, fields.options_len);
    tell(answers, "\n");
    uint8_t time_to_live = (uint8_t)below(256);
    tell(cases, "v4.set_ttl %u", time_to_live);
    tell_case_fields(&fields);
    expect(etherparse_ipv4_set_time_to_live(&fields, time_to_live), "a time to live");
    tell(answers, "ok ;");
    tell_ipv4_fields(&fields);
    tell(answers, "\n");
}

static void tell_ipv6_view(void)
{
    tell_bytes(cases, "v6.view ", packet, packet_len);
    tell(cases, "\n");
    struct etherparse_ipv6_view_answer seen = etherparse_ipv6_view(packet, packet_len);
    if (seen.error.kind != ETHERPARSE_OK) {
        tell_error(&seen.error, "Ipv6Header");
        return;
    }
    const struct etherparse_ipv6_view_fields *view = &seen.view;
    tell_bytes(answers, "ok slice=", packet, seen.rest.offset);
    tell(answers, " version=6 traffic_class=%u dscp=%u ecn=%u flow_label=%" PRIu32, view->traffic_class, view->dscp,
        view->ecn, view->flow_label);
    tell(answers, " payload_length=%u next_header=%u hop_limit=%u", view->payload_length, view->next_header, view->hop_limit);
    tell_bytes(answers, " source=", view->source, 16);
    tell_bytes(answers, " destination=", view->destination, 16);
    tell(answers, " header_len=%zu\n", seen.rest.offset);
}

static void tell_ipv6_read(void)
{
    tell_bytes(cases, "v6.head ", packet, packet_len);
    tell(cases, "\n");
    struct etherparse_ipv6_read_answer read = etherparse_ipv6_read(packet, packet_len);
    if (read.error.kind != ETHERPARSE_OK) {
        tell_error(&read.error, "Ipv6Header");
        return;
    }
    const struct etherparse_ipv6_fields *fields = &read.fields;
    struct etherparse_ipv6_bytes written = etherparse_ipv6_write(fields);
    tell(answers, "ok traffic_class=%u flow_label=%" PRIu32 " payload_length=%u next_header=%u hop_limit=%u",
        fields->traffic_class, fields->flow_label, fields->payload_length, fields->next_header, fields->hop_limit);
    tell_bytes(answers, " source=", fields->source, 16);
    tell_bytes(answers, " destination=", fields->destination, 16);
    tell_bytes(answers, " rest=", packet + read.rest.offset, read.rest.len);
    tell_bytes(answers, " bytes=", written.bytes, written.len);
    tell(answers, "\n");
}

static void tell_walked(struct etherparse_ipv6_walk_answer walk)
{
    if (walk.error.kind != ETHERPARSE_OK) {
        tell_error(&walk.error, "Ipv6ExtHeader");
        return;
    }
    tell(answers, "ok next=%u", walk.next_header);
    tell_bytes(answers, " rest=", from(walk.rest.offset), walk.rest.len);
    tell(answers, "\n");
}

static void tell_walks(uint8_t number)
{
    tell_bytes(cases, "walk ", packet, packet_len);
    tell(cases, " %u\n", number);
    tell_walked(etherparse_ipv6_walk(packet, packet_len, number));
    size_t limit = below(5);
    tell_bytes(cases, "walk.limit ", packet, packet_len);
    tell(cases, " %u %zu\n", number, limit);
    tell_walked(etherparse_ipv6_walk_up_to(packet, packet_len, number, limit));
}

static void tell_update(void)
{
    uint16_t words[3];
    for (size_t i = 0; i < 3; i++)
        words[i] = (uint16_t)(below(4) == 0 ? 65535 * below(2) : next_random() >> 40);
    tell(cases, "upd %u %04x %04x\n", words[0], words[1], words[2]);
    tell(answers, "%u\n", etherparse_update_2bytes(words[0], words[1], words[2]));
}

static void tell_sums(void)
{
    uint64_t start = next_random();
    tell(cases, "c64.slice %" PRIu64 " ", start);
    tell_bytes(cases, "", packet, packet_len);
    uint64_t wide = etherparse_u64_16bit_word_add_slice(start, packet, packet_len);
    tell(answers, "oc=%u nz=%u\n", etherparse_u64_16bit_word_ones_complement(wide),
        etherparse_u64_16bit_word_ones_complement_with_no_zero(wide));
    tell(cases, "\nc32.slice %" PRIu32 " ", (uint32_t)start);
    tell_bytes(cases, "", packet, packet_len);
    tell(cases, "\n");
    uint32_t narrow = etherparse_u32_16bit_word_add_slice((uint32_t)start, packet, packet_len);
    tell(answers, "oc=%u nz=%u\n", etherparse_u32_16bit_word_ones_complement(narrow),
        etherparse_u32_16bit_word_ones_complement_with_no_zero(narrow));
}

static void tell_all(uint8_t number)
{
    tell_ipv4_view();
    tell_ipv4_read();
    tell_ipv4_write();
    tell_ipv6_view();
    tell_ipv6_read();
    tell_walks(number);
    tell_sums();
    tell_update();
}

static FILE *opened(const char *name)
{
    FILE *file = fopen(name, "w");
    if (file == NULL) {
        perror(name);
        exit(2);
    }
    return file;
}

int main(int argc, char **argv)
{
    if (argc != 6 && argc != 7) {
        fprintf(stderr, "usage: fuzz COUNT SECONDS EVERY CASES ANSWERS [SEED]\n");
        return 2;
    }
    if (argc == 7)
        seed_random(strtoull(argv[6], NULL, 10));
    unsigned long long count = strtoull(argv[1], NULL, 10);
    unsigned long long every = strtoull(argv[3], NULL, 10);
    time_t end = time(NULL) + atoi(argv[2]);
    cases = opened(argv[4]);
    answers = opened(argv[5]);
    size_t page_len = (size_t)sysconf(_SC_PAGESIZE);
    uint8_t *page = guarded_page(page_len);
    page_end = guarded_page(page_len) + page_len;
    uint8_t made[MAX_LEN];
    unsigned long long done = 0;
    while (done < count && (done % 4096 != 0 || time(NULL) < end)) {
        uint8_t number;
        size_t len = make_packet(made, &number);
        uint8_t *at = below(2) == 0 ? page : page + page_len - len;
        memcpy(at, made, len);
        packet = len == 0 ? NULL : at;
        packet_len = len;
        check_ipv4();
        check_ipv6();
        check_walk(number);
        check_sums();
        check_updates();
        check_ipv4_fields();
        check_ipv6_fields();
        check_text();
        if (done % every == 0)
            tell_all(number);
        expect(len == 0 || memcmp(at, made, len) == 0, "bytes that stay");
        packet_len = make_frame(made);
        at = below(2) == 0 ? page : page + page_len - packet_len;
        memcpy(at, made, packet_len);
        packet = packet_len == 0 ? NULL : at;
        check_packets(packet, packet_len, page_end);
        expect(memcmp(at, made, packet_len) == 0, "bytes of a frame that stay");
        done++;
    }
    if (fclose(cases) != 0 || fclose(answers) != 0)
        return 2;
    printf("%llu inputs, and nothing differs.\n", done);
    return 0;
}
