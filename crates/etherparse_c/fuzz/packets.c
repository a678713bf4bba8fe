/* What the calls on packets say of frames. */

#include "fuzz.h"

#include <string.h>

enum { ROOM = 4 };

static bool same_part(struct etherparse_part a, struct etherparse_part b)
{
    return a.offset == b.offset && a.len == b.len;
}

static bool same_tag(struct etherparse_vlan_tag a, struct etherparse_vlan_tag b)
{
    return a.identifier == b.identifier && a.priority == b.priority && a.drop_eligible == b.drop_eligible;
}

static bool same_link(const struct etherparse_packet_link *a, const struct etherparse_packet_link *b)
{
    return same_part(a->header, b->header) && same_part(a->payload, b->payload) && a->family == b->family
        && a->ether_type == b->ether_type && same_tag(a->outer_vlan, b->outer_vlan) && same_tag(a->inner_vlan, b->inner_vlan)
        && a->kind == b->kind && a->vlan_count == b->vlan_count && a->has_ether_type == b->has_ether_type;
}

static bool same_ip(const struct etherparse_packet_ip *a, const struct etherparse_packet_ip *b)
{
    return same_part(a->header, b->header) && same_part(a->extensions, b->extensions) && same_part(a->payload, b->payload)
        && a->packet_len == b->packet_len && a->identification == b->identification && a->fragment_offset == b->fragment_offset
        && a->version == b->version && a->upper == b->upper && a->is_fragment == b->is_fragment
        && a->more_fragments == b->more_fragments && a->is_later_fragment == b->is_later_fragment
        && a->is_truncated == b->is_truncated;
}

static bool same_transport(const struct etherparse_packet_transport *a, const struct etherparse_packet_transport *b)
{
    return same_part(a->header, b->header) && same_part(a->payload, b->payload) && a->source_port == b->source_port
        && a->destination_port == b->destination_port && a->kind == b->kind && a->has_ports == b->has_ports
        && a->tcp_flags == b->tcp_flags && a->icmp_type == b->icmp_type && a->icmp_code == b->icmp_code;
}

static void expect_same(const struct etherparse_packet *a, const struct etherparse_packet *b, const char *what)
{
    expect(same_error(&a->stop, &b->stop), what);
    expect(same_link(&a->link, &b->link), what);
    expect(same_ip(&a->ip, &b->ip), what);
    expect(same_transport(&a->transport, &b->transport), what);
    expect(a->header_checksum == b->header_checksum && a->payload_checksum == b->payload_checksum, what);
}

/* Some frames in one call: this one, nothing, the first half and the rest. */
static void check_batch(const uint8_t *frame, size_t len, bool checksums, uint8_t *page_end)
{
    const struct etherparse_frame frames[ROOM] = {{frame, len, len}, {NULL, 0, 0}, {frame, len / 2, 1500},
        {len == 0 ? NULL : frame + len / 2, len - len / 2, 0}};
    size_t frame_count = below(ROOM + 1), room = below(ROOM + 1), count = frame_count < room ? frame_count : room;
    struct etherparse_packet *answers = (struct etherparse_packet *)(page_end - room * sizeof *answers), wanted, kept;
    memset(&kept, 0, sizeof kept);
    kept.ip.packet_len = 12345;
    for (size_t i = 0; i < room; i++)
        answers[i] = kept;
    expect(etherparse_packet_lax_batch(link_type, frames, frame_count, checksums, answers, room) == count, "lax_batch: count");
    for (size_t i = 0; i < room; i++) {
        wanted = kept;
        if (i < count)
            reference_lax_from_link_type(link_type, frames[i].at, frames[i].len, checksums, &wanted);
        expect_same(&answers[i], &wanted, "lax_batch");
    }
}

/* A lax answer, and a strict one after it. */
static void expect_both(const struct etherparse_packet answers[2], struct etherparse_packet *wanted, const char *what)
{
    expect_same(&answers[0], wanted, what);
    reference_strict(wanted);
    expect_same(&answers[1], wanted, what);
}

void check_packets(const uint8_t *frame, size_t len, uint8_t *page_end)
{
    struct etherparse_packet *answers = (struct etherparse_packet *)(page_end - 2 * sizeof *answers), wanted;
    bool checksums = below(4) != 0;
    etherparse_packet_strict_from_link_type(link_type, frame, len, checksums, &answers[1]);
    etherparse_packet_lax_from_link_type(link_type, frame, len, checksums, &answers[0]);
    reference_lax_from_link_type(link_type, frame, len, checksums, &wanted);
    expect_both(answers, &wanted, "from_link_type");
    etherparse_packet_strict_from_ether_type(first_ether_type, frame, len, checksums, &answers[1]);
    etherparse_packet_lax_from_ether_type(first_ether_type, frame, len, checksums, &answers[0]);
    reference_lax_from_ether_type(first_ether_type, frame, len, checksums, &wanted);
    expect_both(answers, &wanted, "from_ether_type");
    check_batch(frame, len, checksums, page_end);
}
