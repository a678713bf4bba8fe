/* Packets, IP headers and their checksums: the proved library for C.
 *
 * A slice is a pointer and a length in bytes, which is at most half of the address space. A null
 * pointer with the length 0 is the empty slice. No call keeps a pointer, allocates memory or makes
 * a system call.
 *
 * Threads: the library has no state, so any number of threads may call it at once, as long as no
 * thread writes what a call of another reads or writes.
 *
 * Systems: x86-64 with the System V calling convention, as Linux has it. The library is built
 * for the processor level x86-64-v2 (SSE4.2 and SSSE3, which nearly every processor in use has)
 * unless it was built for another; on an older processor a call ends the process with an illegal
 * instruction. The file etherparse.pc names the level of the installed library.
 *
 * Byte order: a field of a struct, except family, is a number whose high byte comes first in the
 * packet. In a sum, and in a checksum made from a sum, the low byte comes first;
 * etherparse_swap_bytes converts one form into the other. Each call says which form it takes and
 * returns. */

#ifndef ETHERPARSE_H
#define ETHERPARSE_H

#include <stdbool.h>
#include <stddef.h>
#include <stdint.h>

/* The version of this file and of the library that it belongs to. */
#define ETHERPARSE_VERSION_MAJOR 0
#define ETHERPARSE_VERSION_MINOR 1
#define ETHERPARSE_VERSION_PATCH 0
#define ETHERPARSE_VERSION "0.1.0"

/* The layout of the structs, which the compiler checks in C11, C++11 and later. */
#if defined(__cplusplus) && __cplusplus >= 201103L
#define ETHERPARSE_STATIC_ASSERT(holds) static_assert(holds, #holds)
#elif !defined(__cplusplus) && defined(__STDC_VERSION__) && __STDC_VERSION__ >= 201112L
#define ETHERPARSE_STATIC_ASSERT(holds) _Static_assert(holds, #holds)
#endif

#ifdef ETHERPARSE_STATIC_ASSERT
#define ETHERPARSE_SIZE(type, bytes) ETHERPARSE_STATIC_ASSERT(sizeof(struct type) == (bytes))
#define ETHERPARSE_FIELD(type, field, offset, bytes) \
    ETHERPARSE_STATIC_ASSERT( \
        offsetof(struct type, field) == (offset) && sizeof(((struct type *)0)->field) == (bytes))
#endif

#ifdef __cplusplus
extern "C" {
#endif

/* Checksums of the internet protocols (RFC 1071).
 *
 * A sum starts at 0 or at an earlier sum. So a checksum over a pseudo-header, a header and a
 * payload takes three calls of add_slice and one of ones_complement. A slice with an odd number
 * of bytes is padded with a byte 0, so of slices that belong together only the last may have an
 * odd number.
 *
 * Two sums of the same words may be different numbers; their complements are the same.
 *
 * Byte order: in a sum, in its complement and in the checksum of a slice, the low byte comes
 * first in the packet. So memcpy puts a complement into a packet; etherparse_swap_bytes makes it
 * a number like header_checksum. */

/* A piece of a list. */
struct etherparse_slice {
    const uint8_t *at;
    size_t len;
};

/* Adds the words of a slice to a sum. Both widths take about the same time. */
uint64_t etherparse_u64_16bit_word_add_slice(uint64_t start_sum, const uint8_t *at, size_t len);
uint32_t etherparse_u32_16bit_word_add_slice(uint32_t start_sum, const uint8_t *at, size_t len);

/* The sum of all pieces, from 0. Each odd piece is padded by itself. */
uint64_t etherparse_u64_16bit_word_add_slices(const struct etherparse_slice *pieces, size_t count);
uint32_t etherparse_u32_16bit_word_add_slices(const struct etherparse_slice *pieces, size_t count);

/* The checksum of what was summed, the low byte first. It is 0 exactly if the words sum to all
 * ones, as those of a correct packet do, its checksum included. */
uint16_t etherparse_u64_16bit_word_ones_complement(uint64_t sum);
uint16_t etherparse_u32_16bit_word_ones_complement(uint32_t sum);

/* The same, also low byte first, with 0xffff in place of 0, for UDP: there 0 says that there is
 * no checksum (RFC 768). */
uint16_t etherparse_u64_16bit_word_ones_complement_with_no_zero(uint64_t sum);
uint16_t etherparse_u32_16bit_word_ones_complement_with_no_zero(uint32_t sum);

/* The checksum of a slice after an earlier sum, low byte first: add_slice and ones_complement in
 * one call. It is 0 exactly if all the words together sum to all ones. */
uint16_t etherparse_u64_16bit_word_checksum(uint64_t start_sum, const uint8_t *at, size_t len);
uint16_t etherparse_u32_16bit_word_checksum(uint32_t start_sum, const uint8_t *at, size_t len);

/* A checksum in the other byte order: converts what a call above returns into a number like
 * header_checksum, and back. */
uint16_t etherparse_swap_bytes(uint16_t checksum);

/* The checksum after one of the words that it covers was changed from old_word to new_word (RFC
 * 1624, equation 3). All three, and the result, are numbers whose high byte comes first in the
 * packet, like header_checksum. An incorrect checksum is not repaired. */
uint16_t etherparse_update_2bytes(uint16_t checksum, uint16_t old_word, uint16_t new_word);

/* The same after four bytes (such as an IPv4 address) or sixteen (an IPv6 address) were changed
 * at an even offset. The bytes are those of the packet; the high byte of the checksum comes
 * first. */
uint16_t etherparse_update_4bytes(uint16_t checksum, const uint8_t old_bytes[4],
    const uint8_t new_bytes[4]);
uint16_t etherparse_update_16bytes(uint16_t checksum, const uint8_t old_bytes[16],
    const uint8_t new_bytes[16]);

/* Why a call refused, as numbers. Each number that a kind does not have is 0. */
struct etherparse_error {
    uint32_t kind; /* one of the kinds below; 0 if nothing was refused */
    /* of LEN: a source below, from which len comes; of other kinds the version, the IHL, the number
     * of the header that is one too many, which value it is, or the data offset */
    uint16_t number;
    /* of LEN, UNEXPECTED_VERSION, HEADER_LENGTH_SMALLER_THAN_HEADER, TOO_MANY and DATA_OFFSET: a
     * layer below */
    uint16_t layer;
    size_t required_len; /* of LEN: the length in bytes that is required */
    /* of LEN and BAD_OPTIONS_LEN: the actual length in bytes; of VALUE_TOO_BIG: the value; of
     * LINK_TYPE: the number of the link type */
    size_t len;
    /* of LEN and TOO_MANY: where the layer starts, in bytes from the start of the slice */
    size_t layer_start_offset;
    /* of TOO_MANY: how many headers were allowed; of VALUE_TOO_BIG: the greatest value that is
     * allowed */
    size_t limit;
};

/* The kinds of errors. */
enum {
    ETHERPARSE_OK = 0,
    ETHERPARSE_LEN = 1, /* a length is below the required one */
    ETHERPARSE_UNEXPECTED_VERSION = 2, /* the version field has another number */
    ETHERPARSE_HEADER_LENGTH_SMALLER_THAN_HEADER = 3, /* the IHL field is below 5 */
    ETHERPARSE_TOO_MANY = 4, /* there are more extension headers than are allowed */
    ETHERPARSE_VALUE_TOO_BIG = 5, /* a value does not fit its field */
    ETHERPARSE_BAD_OPTIONS_LEN = 6, /* options cannot have this length */
    ETHERPARSE_DATA_OFFSET = 7, /* the data offset of a TCP header is below 5 */
    ETHERPARSE_LINK_TYPE = 8 /* frames of this link type are not read */
};

/* The layers that an error is about; and, of a LEN, what its len is the length of. */
enum {
    ETHERPARSE_IPV4_HEADER = 1, /* the slice, or the rest of the frame */
    ETHERPARSE_IPV4_PACKET = 2, /* len is the total_len of the header */
    ETHERPARSE_IPV6_HEADER = 3, /* the slice, or the rest of the frame */
    ETHERPARSE_IPV6_EXT_HEADER = 4, /* what is left of the slice, or of the IP packet in a frame */
    ETHERPARSE_LINK_HEADER = 5, /* the frame */
    ETHERPARSE_VLAN_HEADER = 6, /* what is left of the frame */
    ETHERPARSE_IP_HEADER = 7, /* its version is not 4 or 6, or len is 0 */
    ETHERPARSE_IPV4_PACKET_BYTES = 8, /* what is left of the frame */
    ETHERPARSE_IPV6_PACKET = 9, /* what is left of the frame */
    ETHERPARSE_UDP_HEADER = 10, /* the payload of the IP packet */
    ETHERPARSE_TCP_HEADER = 11, /* likewise */
    ETHERPARSE_ICMPV4 = 12, /* likewise */
    ETHERPARSE_ICMPV6 = 13 /* likewise */
};

/* Where the len of a LEN comes from. That of IPV4_PACKET is the total length itself. In a frame,
 * UDP_HEADER, TCP_HEADER, ICMPV4, ICMPV6 and IPV6_EXT_HEADER have it from the length field of the IP
 * header. All others are FROM_SLICE. */
enum {
    ETHERPARSE_FROM_SLICE = 0, /* the end of the bytes that were passed */
    ETHERPARSE_FROM_IPV4_TOTAL_LEN = 1, /* the total length field of the IPv4 header */
    ETHERPARSE_FROM_IPV6_PAYLOAD_LENGTH = 2 /* the payload length field of the IPv6 header */
};

/* The values that can be too big. */
enum {
    ETHERPARSE_IP_FRAGMENT_OFFSET = 1,
    ETHERPARSE_IP_DSCP = 2,
    ETHERPARSE_IP_ECN = 3,
    ETHERPARSE_IPV6_FLOW_LABEL = 4,
    ETHERPARSE_IPV4_PAYLOAD_LENGTH = 5,
    ETHERPARSE_IPV6_PAYLOAD_LENGTH = 6
};

/* Room in bytes for the longest text and the 0 after it. */
#define ETHERPARSE_ERROR_TEXT_SIZE 333

/* Writes the text of an error, in English and with no newline. As snprintf does, it writes as much
 * of the text as fits into len bytes with a 0 after it, and returns how many bytes the whole text
 * has, without that 0; so len may be 0. The pointer to the error is not null; text may be null only
 * if len is 0.
 *
 * It is empty for ETHERPARSE_OK and a kind that is not listed above; for an UNEXPECTED_VERSION of
 * another layer than IPV4_HEADER, IPV6_HEADER and IP_HEADER; for a VALUE_TOO_BIG with a value that is
 * not listed; and for a LEN whose len is not below its required_len, whose layer is not listed, whose
 * source is not listed (for LINK_HEADER it does not matter), or whose source is not FROM_SLICE where
 * the layer is IPV4_PACKET_BYTES. */
size_t etherparse_error_text(const struct etherparse_error *error, char *text, size_t len);

/* The bytes after a header, or after extension headers: the slice from this offset on. */
struct etherparse_rest {
    size_t offset;
    size_t len;
};

/* IPv4 headers (RFC 791 section 3.1). */

/* The fields of a header. */
struct etherparse_ipv4_fields {
    uint8_t dscp; /* the differentiated services code point, at most 63 */
    uint8_t ecn; /* the explicit congestion notification, at most 3 */
    uint16_t total_len; /* of the header and what follows it, in bytes */
    uint16_t identification;
    bool dont_fragment;
    bool more_fragments;
    uint16_t fragment_offset; /* in units of 8 bytes, at most 8191 */
    uint8_t time_to_live;
    uint8_t protocol;
    uint16_t header_checksum; /* bytes 10 and 11 as a number, the high byte first */
    uint8_t source[4];
    uint8_t destination[4];
    uint8_t options_len; /* how many bytes of options: at most 40, a multiple of 4 */
    uint8_t options[40]; /* what follows the options in the array does not matter */
};

/* What the getters of a view return. */
struct etherparse_ipv4_view_fields {
    uint8_t source[4];
    uint8_t destination[4];
    uint16_t total_len; /* of the header and what follows it, in bytes */
    uint16_t identification;
    uint16_t fragment_offset; /* in units of 8 bytes, at most 8191 */
    /* the one that the header has, correct or not: a number, the high byte first */
    uint16_t header_checksum;
    uint8_t ihl; /* the length of the header in words of 4 bytes, 5 to 15 */
    uint8_t dscp; /* at most 63 */
    uint8_t ecn; /* at most 3 */
    bool dont_fragment;
    bool more_fragments;
    bool is_fragmenting_payload; /* more fragments follow, or the offset is not 0 */
    uint8_t time_to_live;
    uint8_t protocol;
};

/* The header at the front of a slice, as a view. Its bytes are those of the slice up to
 * rest.offset, and its options those from byte 20 up to there. If error.kind is not
 * ETHERPARSE_OK, there is no header and all else is 0. */
struct etherparse_ipv4_view_answer {
    struct etherparse_ipv4_view_fields view;
    struct etherparse_error error;
    struct etherparse_rest rest;
};

/* The header at the front of a slice, with a copy of its options, and 0 after them in their array.
 * The fields are within their bounds, so they can be written again. If error.kind is not
 * ETHERPARSE_OK, there is no header and all else is 0. */
struct etherparse_ipv4_read_answer {
    struct etherparse_ipv4_fields fields;
    struct etherparse_error error;
    struct etherparse_rest rest;
};

/* The bytes of a header, and 0 after them. If a field is out of its bounds, all is 0. */
struct etherparse_ipv4_bytes {
    uint8_t bytes[60];
    uint8_t len; /* 20 to 60, or 0 */
};

/* A header without options. If error.kind is not ETHERPARSE_OK, there is none and all else is 0. */
struct etherparse_ipv4_new_answer {
    struct etherparse_ipv4_fields fields;
    struct etherparse_error error;
};

/* The checksum that a header should have. */
struct etherparse_ipv4_header_checksum_answer {
    /* the high byte first, like header_checksum; 0 if accepted is false */
    uint16_t checksum;
    bool accepted; /* the fields are within their bounds */
};

/* The lengths of a header and of its payload. */
struct etherparse_ipv4_lengths_answer {
    uint16_t payload_len; /* what total_len counts beyond the header, in bytes */
    /* of the longest payload that fits after the header, in bytes: 65475 to 65515 */
    uint16_t max_payload_len;
    uint8_t header_len; /* with the options, in bytes: 20 to 60 */
    uint8_t ihl; /* the same in words of 4 bytes */
    struct etherparse_error error; /* why there is no payload_len */
};

/* The header at the front of a slice, and where the bytes after it are: all of them, whatever
 * total_len says.
 *
 * The error is the first of these: LEN if the slice has fewer than 20 bytes; UNEXPECTED_VERSION
 * if the version is not 4; HEADER_LENGTH_SMALLER_THAN_HEADER if the IHL is below 5; LEN if the
 * slice has fewer bytes than the IHL says. */
struct etherparse_ipv4_view_answer etherparse_ipv4_view(const uint8_t *at, size_t len);
struct etherparse_ipv4_read_answer etherparse_ipv4_read(const uint8_t *at, size_t len);

/* The bytes of the header with these fields, with the reserved bit 0 and the stored checksum. The
 * len of the result is 0 if a field is out of its bounds. The pointer is not null, and each bool
 * is 0 or 1. */
struct etherparse_ipv4_bytes etherparse_ipv4_write(const struct etherparse_ipv4_fields *fields);

/* The default header, as in the Rust crate: dont_fragment is true, the protocol 255, which is
 * reserved, and all else is 0. */
struct etherparse_ipv4_fields etherparse_ipv4_default(void);

/* The fields of a header without options for a payload of this length in bytes. All else is as
 * in the default, so the checksum is 0: etherparse_ipv4_header_checksum gives the correct one.
 *
 * The error is VALUE_TOO_BIG if the payload is longer than 65515 bytes. Neither pointer is
 * null. */
struct etherparse_ipv4_new_answer etherparse_ipv4_new(uint16_t payload_len, uint8_t time_to_live,
    uint8_t protocol, const uint8_t source[4], const uint8_t destination[4]);

/* The lengths of a header with this total length and this many bytes of options; for a view pass
 * rest.offset - 20 as options_len.
 *
 * The error is BAD_OPTIONS_LEN if options cannot have this length; all else is then 0. Otherwise
 * it is LEN if total_len is below the length of the header; payload_len is then 0. */
struct etherparse_ipv4_lengths_answer etherparse_ipv4_lengths(uint16_t total_len,
    uint8_t options_len);

/* The checksum that a header with these fields should have, a number whose high byte comes first
 * in the header. It does not depend on the stored header_checksum, so
 *
 *     fields.header_checksum = etherparse_ipv4_header_checksum(&fields).checksum;
 *
 * makes it correct. The pointer is not null, and each bool is 0 or 1. */
struct etherparse_ipv4_header_checksum_answer etherparse_ipv4_header_checksum(
    const struct etherparse_ipv4_fields *fields);

/* Sets the time to live, updates the stored header_checksum for it as etherparse_update_2bytes
 * does, and returns true. If a field is out of its bounds, it returns false and changes nothing.
 * The pointer is not null, and each bool is 0 or 1.
 *
 * In a packet that begins with this header, time_to_live is byte 8, and header_checksum is bytes
 * 10 and 11, the high byte first. Write these three bytes, and the packet begins with the new
 * header. */
bool etherparse_ipv4_set_time_to_live(struct etherparse_ipv4_fields *fields, uint8_t time_to_live);

/* IPv6 headers (RFC 8200 sections 3 and 4). */

/* The fields of a header, which has 40 bytes. */
struct etherparse_ipv6_fields {
    uint8_t source[16];
    uint8_t destination[16];
    uint32_t flow_label; /* at most 1048575 */
    uint16_t payload_length; /* of all that follows the header, in bytes */
    uint8_t traffic_class; /* four times the DSCP plus the ECN */
    /* the number of what follows: an extension header or an upper-layer protocol */
    uint8_t next_header;
    uint8_t hop_limit;
};

/* What the getters of a view return. */
struct etherparse_ipv6_view_fields {
    uint8_t source[16];
    uint8_t destination[16];
    uint32_t flow_label; /* at most 1048575 */
    uint16_t payload_length; /* of all that follows the header, in bytes */
    uint8_t traffic_class;
    /* the differentiated services code point: the upper 6 bits of the traffic class */
    uint8_t dscp;
    uint8_t ecn; /* the explicit congestion notification: its lower 2 bits */
    uint8_t next_header;
    uint8_t hop_limit;
};

/* The header at the front of a slice. If error.kind is not ETHERPARSE_OK, there is no header and
 * all else is 0. */
struct etherparse_ipv6_view_answer {
    struct etherparse_ipv6_view_fields view;
    struct etherparse_error error;
    struct etherparse_rest rest;
};

struct etherparse_ipv6_read_answer {
    struct etherparse_ipv6_fields fields;
    struct etherparse_error error;
    struct etherparse_rest rest;
};

/* The bytes of a header. If the flow label is too great, all is 0. */
struct etherparse_ipv6_bytes {
    uint8_t bytes[40];
    uint8_t len; /* 40, or 0 */
};

/* Where a walk past extension headers, or past one of them, ended. If error.kind is not
 * ETHERPARSE_OK, all else is 0. */
struct etherparse_ipv6_walk_answer {
    /* the number of what follows them; after a whole walk the first number that cannot be
     * skipped */
    uint8_t next_header;
    struct etherparse_error error;
    struct etherparse_rest rest; /* the bytes after the headers that were skipped */
};

/* The header at the front of a slice, and where the bytes after it are: all of them, whatever
 * payload_length says.
 *
 * The error is LEN if the slice has fewer than 40 bytes; otherwise UNEXPECTED_VERSION if the
 * version is not 6. */
struct etherparse_ipv6_view_answer etherparse_ipv6_view(const uint8_t *at, size_t len);
struct etherparse_ipv6_read_answer etherparse_ipv6_read(const uint8_t *at, size_t len);

/* The default header, as in the Rust crate: next_header is 255, which is reserved, and all else
 * is 0. */
struct etherparse_ipv6_fields etherparse_ipv6_default(void);

/* The bytes of the header with these fields. The len of the result is 0 if the flow label is
 * above 1048575. The pointer is not null. */
struct etherparse_ipv6_bytes etherparse_ipv6_write(const struct etherparse_ipv6_fields *fields);

/* Skips the extension header of this number at the front of a slice; next_header is then the
 * number of what follows it. For a number that cannot be skipped, next_header is that number and
 * the rest is the whole slice. With this call a program can look at each header of a chain, such
 * as the offset in a fragment header (44).
 *
 * The error is LEN if the slice is shorter than the header says. If it has fewer than 2 bytes, 2
 * are required. */
struct etherparse_ipv6_walk_answer etherparse_ipv6_skip(const uint8_t *at, size_t len,
    uint8_t next_header);

/* Skips all extension headers at the front of a slice; the first has the number next_header. The
 * numbers 0, 43, 44, 51, 60, 135, 139 and 140 can be skipped; for any other the rest is the
 * whole slice. In a packet, pass the rest after the IPv6 header and the next_header of that
 * header; offsets then count from the start of that rest. A fragment header is skipped whatever
 * its offset: after one with an offset above 0 come bytes from the middle of a payload.
 *
 * The error is LEN, for the first header that is incomplete. If fewer than 2 bytes are left, 2
 * are required. */
struct etherparse_ipv6_walk_answer etherparse_ipv6_walk(const uint8_t *at, size_t len,
    uint8_t next_header);

/* The same past at most limit headers. The error is TOO_MANY if that many were skipped and the
 * number after them is that of one more, whatever bytes are left; otherwise LEN, as above. */
struct etherparse_ipv6_walk_answer etherparse_ipv6_walk_up_to(const uint8_t *at, size_t len,
    uint8_t next_header, size_t limit);

/* Packets.
 *
 * One call takes a frame apart: link header, VLAN tags, IP packet with its extension headers, and
 * transport header. It copies none of it: each part is an offset from the start of the frame and a
 * length in bytes. The lax calls read as far as the frame goes and say why they stop; the strict
 * ones give nothing but the error if they have to stop. A call writes all fields of the answer that
 * it is given, which is not null and does not overlap the frame. */

/* A part of a frame. Of one that is not there len is 0. */
struct etherparse_part {
    size_t offset;
    size_t len;
};

/* A VLAN tag (IEEE 802.1Q section 9.6). */
struct etherparse_vlan_tag {
    uint16_t identifier; /* at most 4095 */
    uint8_t priority; /* at most 7 */
    bool drop_eligible;
};

/* The link headers. */
enum {
    ETHERPARSE_NO_LINK = 0, /* an IP packet alone, or after an EtherType */
    ETHERPARSE_ETHERNET = 1,
    ETHERPARSE_LINUX_SLL = 2, /* of a Linux cooked capture */
    ETHERPARSE_LINUX_SLL2 = 3, /* of one of version 2 */
    ETHERPARSE_LOOPBACK = 4, /* four bytes with the family */
    ETHERPARSE_FRAMED = 5 /* PPP, Cisco's HDLC, frame relay, SLIP or IEEE 802.11 */
};

/* The link header of a frame and its VLAN tags. */
struct etherparse_packet_link {
    struct etherparse_part header;
    struct etherparse_part payload; /* all bytes after the link header and the tags */
    uint32_t family; /* of LOOPBACK: what the frame carries, by the numbers of its system */
    uint16_t ether_type; /* of what follows the tags, if has_ether_type */
    struct etherparse_vlan_tag outer_vlan; /* if vlan_count is 1 or 2 */
    struct etherparse_vlan_tag inner_vlan; /* if vlan_count is 2 */
    uint8_t kind; /* a link header above */
    uint8_t vlan_count; /* at most 2: a third tag is another protocol */
    /* false of LOOPBACK, of an IP packet alone, of LINUX_SLL and LINUX_SLL2 with the ARPHRD type 770,
     * 803 or 824, and of some FRAMED */
    bool has_ether_type;
};

/* The IP packet of a frame, if version is not 0. */
struct etherparse_packet_ip {
    struct etherparse_part header; /* with the options of IPv4, without extension headers */
    /* the extension headers of IPv6, with a fragment header; len is 0 if there are none */
    struct etherparse_part extensions;
    /* what follows them, as far as it is there and the packet goes: without Ethernet's padding, if
     * packet_len is not 0 */
    struct etherparse_part payload;
    /* how long the packet says it is, in bytes and with the header; 0 if it does not say it: by a
     * total length of 0, or a payload length of 0 before hop-by-hop options, as in a jumbogram (RFC
     * 2675 section 3), whose length in these is not read */
    size_t packet_len;
    uint32_t identification; /* of a fragment */
    uint32_t fragment_offset; /* of a fragment, in bytes */
    uint8_t version; /* 4 or 6 */
    uint8_t upper; /* the number of the payload */
    bool is_fragment; /* more fragments follow, or the offset is not 0 */
    bool more_fragments; /* of a fragment: more follow */
    bool is_later_fragment; /* the payload begins with no header of an upper layer */
    bool is_truncated; /* fewer bytes are there than packet_len; false if that is 0 */
};

/* The transport header of an IP packet: UDP, TCP, ICMP over IPv4 or ICMPv6 over IPv6. */
struct etherparse_packet_transport {
    struct etherparse_part header; /* of ICMP and ICMPv6: type, code and checksum */
    struct etherparse_part payload; /* all bytes of the packet after it */
    uint16_t source_port; /* of UDP and TCP, if has_ports */
    uint16_t destination_port;
    /* 17, 6, 1 or 58 if the header is there whole, that of TCP with a data offset above 4; else 0 */
    uint8_t kind;
    bool has_ports; /* also in a first fragment or a truncated packet without the whole header */
    uint8_t tcp_flags; /* of TCP: FIN is bit 0, SYN 1, RST 2, PSH 3, ACK 4, URG 5, ECE 6, CWR 7 */
    uint8_t icmp_type; /* of ICMP and ICMPv6 */
    uint8_t icmp_code;
};

/* What the receiver at the final destination (RFC 791 section 3.1, RFC 8200 section 8.1) finds of
 * a checksum. The source is the original one: over IPv6 the home address, if destination options
 * have a Home Address option (RFC 6275 section 11.3.1). */
enum {
    ETHERPARSE_NOT_JUDGED = 0, /* it was not asked for, or there is no such header or packet */
    ETHERPARSE_RIGHT = 1,
    ETHERPARSE_WRONG = 2,
    ETHERPARSE_FRAGMENT = 3, /* it covers other fragments too */
    ETHERPARSE_OTHER_PROTOCOL = 4, /* none of UDP, TCP, ICMP over IPv4 and ICMPv6 over IPv6 */
    ETHERPARSE_INCOMPLETE = 5, /* not all that it covers is there, or the IP packet is not whole */
    ETHERPARSE_NOT_COMPUTED = 6, /* the field of UDP over IPv4 is 0 (RFC 768) */
    /* it covers the final destination, which is unknown: a routing header with segments left has a
     * type other than 0, 2, 3 and 4, or numbers that do not fit its length; or Shim6 hides it */
    ETHERPARSE_UNKNOWN_DESTINATION = 7
};

/* A frame in its layers. */
struct etherparse_packet {
    struct etherparse_packet_link link;
    struct etherparse_packet_ip ip;
    struct etherparse_packet_transport transport;
    /* why a strict call refuses the frame; each layer_start_offset counts from the start of the
     * frame. ETHERPARSE_OK if it does not */
    struct etherparse_error stop;
    uint8_t header_checksum; /* of an IPv4 header: NOT_JUDGED, RIGHT or WRONG */
    uint8_t payload_checksum; /* of UDP, TCP, ICMP or ICMPv6: one of the numbers above */
};

/* Link types, by their numbers in the registry of tcpdump.org, which pcap_datalink returns, with 12
 * or 14 for RAW on some systems. These are read too, and 228 and 229 (RAW of one IP version); and
 * as FRAMED 8 (SLIP), 9 and 50 (PPP), 104 (Cisco's HDLC), 105 and 127 (IEEE 802.11) and 107 (frame
 * relay). */
enum {
    ETHERPARSE_LINKTYPE_NULL = 0,
    ETHERPARSE_LINKTYPE_ETHERNET = 1,
    ETHERPARSE_LINKTYPE_RAW = 101, /* an IP packet without a link header */
    ETHERPARSE_LINKTYPE_LOOP = 108,
    ETHERPARSE_LINKTYPE_LINUX_SLL = 113,
    ETHERPARSE_LINKTYPE_LINUX_SLL2 = 276
};

/* The layers of a frame of a link type, as far as they can be read: also if a capture cut it, if it
 * is damaged, or if the sender of its packet left the length to the network card, and of a
 * jumbogram. If checksums is true, the checksums are judged, which reads all bytes of the packet.
 *
 * If stop.kind is LINK_TYPE, or LEN with the layer LINK_HEADER, there are no layers and all else
 * is 0. Otherwise what was read is there: if the frame ends within the IP packet, after its header,
 * ip has its parts, and transport the header if that is whole. */
void etherparse_packet_lax_from_link_type(uint32_t link_type, const uint8_t *at, size_t len,
    bool checksums, struct etherparse_packet *answer);

/* The same of a frame that is read whole. If stop.kind is not ETHERPARSE_OK, all else is 0. The
 * error is the first of these: LINK_TYPE; of the link header; of a VLAN tag; of the IP packet; of
 * the transport header. */
void etherparse_packet_strict_from_link_type(uint32_t link_type, const uint8_t *at, size_t len,
    bool checksums, struct etherparse_packet *answer);

/* The same of bytes that an EtherType names, which is a plain number, without htons: a VLAN tag and
 * what it tags, an IP packet (0x0800, 0x86dd), or another protocol. */
void etherparse_packet_lax_from_ether_type(uint16_t ether_type, const uint8_t *at, size_t len,
    bool checksums, struct etherparse_packet *answer);
void etherparse_packet_strict_from_ether_type(uint16_t ether_type, const uint8_t *at, size_t len,
    bool checksums, struct etherparse_packet *answer);

/* A frame of a list. */
struct etherparse_frame {
    const uint8_t *at;
    size_t len; /* of what there is of it, in bytes */
    size_t original_len; /* on the wire, in bytes: layers do not depend on it */
};

/* etherparse_packet_lax_from_link_type of each frame of a list: answers[i] is that of frames[i]. It
 * returns how many answers it wrote, the smaller of both counts; those after them stay as they are.
 * The lists do not overlap. */
size_t etherparse_packet_lax_batch(uint32_t link_type, const struct etherparse_frame *frames,
    size_t frame_count, bool checksums, struct etherparse_packet *answers, size_t answer_count);

/* The layout, as the library has it. */
#ifdef ETHERPARSE_STATIC_ASSERT
ETHERPARSE_SIZE(etherparse_slice, 16);
ETHERPARSE_FIELD(etherparse_slice, at, 0, 8);
ETHERPARSE_FIELD(etherparse_slice, len, 8, 8);
ETHERPARSE_SIZE(etherparse_error, 40);
ETHERPARSE_FIELD(etherparse_error, kind, 0, 4);
ETHERPARSE_FIELD(etherparse_error, number, 4, 2);
ETHERPARSE_FIELD(etherparse_error, layer, 6, 2);
ETHERPARSE_FIELD(etherparse_error, required_len, 8, 8);
ETHERPARSE_FIELD(etherparse_error, len, 16, 8);
ETHERPARSE_FIELD(etherparse_error, layer_start_offset, 24, 8);
ETHERPARSE_FIELD(etherparse_error, limit, 32, 8);
ETHERPARSE_SIZE(etherparse_rest, 16);
ETHERPARSE_FIELD(etherparse_rest, offset, 0, 8);
ETHERPARSE_FIELD(etherparse_rest, len, 8, 8);
ETHERPARSE_SIZE(etherparse_ipv4_fields, 64);
ETHERPARSE_FIELD(etherparse_ipv4_fields, dscp, 0, 1);
ETHERPARSE_FIELD(etherparse_ipv4_fields, ecn, 1, 1);
ETHERPARSE_FIELD(etherparse_ipv4_fields, total_len, 2, 2);
ETHERPARSE_FIELD(etherparse_ipv4_fields, identification, 4, 2);
ETHERPARSE_FIELD(etherparse_ipv4_fields, dont_fragment, 6, 1);
ETHERPARSE_FIELD(etherparse_ipv4_fields, more_fragments, 7, 1);
ETHERPARSE_FIELD(etherparse_ipv4_fields, fragment_offset, 8, 2);
ETHERPARSE_FIELD(etherparse_ipv4_fields, time_to_live, 10, 1);
ETHERPARSE_FIELD(etherparse_ipv4_fields, protocol, 11, 1);
ETHERPARSE_FIELD(etherparse_ipv4_fields, header_checksum, 12, 2);
ETHERPARSE_FIELD(etherparse_ipv4_fields, source, 14, 4);
ETHERPARSE_FIELD(etherparse_ipv4_fields, destination, 18, 4);
ETHERPARSE_FIELD(etherparse_ipv4_fields, options_len, 22, 1);
ETHERPARSE_FIELD(etherparse_ipv4_fields, options, 23, 40);
ETHERPARSE_SIZE(etherparse_ipv4_view_fields, 24);
ETHERPARSE_FIELD(etherparse_ipv4_view_fields, source, 0, 4);
ETHERPARSE_FIELD(etherparse_ipv4_view_fields, destination, 4, 4);
ETHERPARSE_FIELD(etherparse_ipv4_view_fields, total_len, 8, 2);
ETHERPARSE_FIELD(etherparse_ipv4_view_fields, identification, 10, 2);
ETHERPARSE_FIELD(etherparse_ipv4_view_fields, fragment_offset, 12, 2);
ETHERPARSE_FIELD(etherparse_ipv4_view_fields, header_checksum, 14, 2);
ETHERPARSE_FIELD(etherparse_ipv4_view_fields, ihl, 16, 1);
ETHERPARSE_FIELD(etherparse_ipv4_view_fields, dscp, 17, 1);
ETHERPARSE_FIELD(etherparse_ipv4_view_fields, ecn, 18, 1);
ETHERPARSE_FIELD(etherparse_ipv4_view_fields, dont_fragment, 19, 1);
ETHERPARSE_FIELD(etherparse_ipv4_view_fields, more_fragments, 20, 1);
ETHERPARSE_FIELD(etherparse_ipv4_view_fields, is_fragmenting_payload, 21, 1);
ETHERPARSE_FIELD(etherparse_ipv4_view_fields, time_to_live, 22, 1);
ETHERPARSE_FIELD(etherparse_ipv4_view_fields, protocol, 23, 1);
ETHERPARSE_SIZE(etherparse_ipv4_view_answer, 80);
ETHERPARSE_FIELD(etherparse_ipv4_view_answer, view, 0, 24);
ETHERPARSE_FIELD(etherparse_ipv4_view_answer, error, 24, 40);
ETHERPARSE_FIELD(etherparse_ipv4_view_answer, rest, 64, 16);
ETHERPARSE_SIZE(etherparse_ipv4_read_answer, 120);
ETHERPARSE_FIELD(etherparse_ipv4_read_answer, fields, 0, 64);
ETHERPARSE_FIELD(etherparse_ipv4_read_answer, error, 64, 40);
ETHERPARSE_FIELD(etherparse_ipv4_read_answer, rest, 104, 16);
ETHERPARSE_SIZE(etherparse_ipv4_bytes, 61);
ETHERPARSE_FIELD(etherparse_ipv4_bytes, bytes, 0, 60);
ETHERPARSE_FIELD(etherparse_ipv4_bytes, len, 60, 1);
ETHERPARSE_SIZE(etherparse_ipv4_new_answer, 104);
ETHERPARSE_FIELD(etherparse_ipv4_new_answer, fields, 0, 64);
ETHERPARSE_FIELD(etherparse_ipv4_new_answer, error, 64, 40);
ETHERPARSE_SIZE(etherparse_ipv4_header_checksum_answer, 4);
ETHERPARSE_FIELD(etherparse_ipv4_header_checksum_answer, checksum, 0, 2);
ETHERPARSE_FIELD(etherparse_ipv4_header_checksum_answer, accepted, 2, 1);
ETHERPARSE_SIZE(etherparse_ipv4_lengths_answer, 48);
ETHERPARSE_FIELD(etherparse_ipv4_lengths_answer, payload_len, 0, 2);
ETHERPARSE_FIELD(etherparse_ipv4_lengths_answer, max_payload_len, 2, 2);
ETHERPARSE_FIELD(etherparse_ipv4_lengths_answer, header_len, 4, 1);
ETHERPARSE_FIELD(etherparse_ipv4_lengths_answer, ihl, 5, 1);
ETHERPARSE_FIELD(etherparse_ipv4_lengths_answer, error, 8, 40);
ETHERPARSE_SIZE(etherparse_ipv6_fields, 44);
ETHERPARSE_FIELD(etherparse_ipv6_fields, source, 0, 16);
ETHERPARSE_FIELD(etherparse_ipv6_fields, destination, 16, 16);
ETHERPARSE_FIELD(etherparse_ipv6_fields, flow_label, 32, 4);
ETHERPARSE_FIELD(etherparse_ipv6_fields, payload_length, 36, 2);
ETHERPARSE_FIELD(etherparse_ipv6_fields, traffic_class, 38, 1);
ETHERPARSE_FIELD(etherparse_ipv6_fields, next_header, 39, 1);
ETHERPARSE_FIELD(etherparse_ipv6_fields, hop_limit, 40, 1);
ETHERPARSE_SIZE(etherparse_ipv6_view_fields, 44);
ETHERPARSE_FIELD(etherparse_ipv6_view_fields, source, 0, 16);
ETHERPARSE_FIELD(etherparse_ipv6_view_fields, destination, 16, 16);
ETHERPARSE_FIELD(etherparse_ipv6_view_fields, flow_label, 32, 4);
ETHERPARSE_FIELD(etherparse_ipv6_view_fields, payload_length, 36, 2);
ETHERPARSE_FIELD(etherparse_ipv6_view_fields, traffic_class, 38, 1);
ETHERPARSE_FIELD(etherparse_ipv6_view_fields, dscp, 39, 1);
ETHERPARSE_FIELD(etherparse_ipv6_view_fields, ecn, 40, 1);
ETHERPARSE_FIELD(etherparse_ipv6_view_fields, next_header, 41, 1);
ETHERPARSE_FIELD(etherparse_ipv6_view_fields, hop_limit, 42, 1);
ETHERPARSE_SIZE(etherparse_ipv6_view_answer, 104);
ETHERPARSE_FIELD(etherparse_ipv6_view_answer, view, 0, 44);
ETHERPARSE_FIELD(etherparse_ipv6_view_answer, error, 48, 40);
ETHERPARSE_FIELD(etherparse_ipv6_view_answer, rest, 88, 16);
ETHERPARSE_SIZE(etherparse_ipv6_read_answer, 104);
ETHERPARSE_FIELD(etherparse_ipv6_read_answer, fields, 0, 44);
ETHERPARSE_FIELD(etherparse_ipv6_read_answer, error, 48, 40);
ETHERPARSE_FIELD(etherparse_ipv6_read_answer, rest, 88, 16);
ETHERPARSE_SIZE(etherparse_ipv6_bytes, 41);
ETHERPARSE_FIELD(etherparse_ipv6_bytes, bytes, 0, 40);
ETHERPARSE_FIELD(etherparse_ipv6_bytes, len, 40, 1);
ETHERPARSE_SIZE(etherparse_ipv6_walk_answer, 64);
ETHERPARSE_FIELD(etherparse_ipv6_walk_answer, next_header, 0, 1);
ETHERPARSE_FIELD(etherparse_ipv6_walk_answer, error, 8, 40);
ETHERPARSE_FIELD(etherparse_ipv6_walk_answer, rest, 48, 16);
ETHERPARSE_SIZE(etherparse_part, 16);
ETHERPARSE_FIELD(etherparse_part, offset, 0, 8);
ETHERPARSE_FIELD(etherparse_part, len, 8, 8);
ETHERPARSE_SIZE(etherparse_vlan_tag, 4);
ETHERPARSE_FIELD(etherparse_vlan_tag, identifier, 0, 2);
ETHERPARSE_FIELD(etherparse_vlan_tag, priority, 2, 1);
ETHERPARSE_FIELD(etherparse_vlan_tag, drop_eligible, 3, 1);
ETHERPARSE_SIZE(etherparse_packet_link, 56);
ETHERPARSE_FIELD(etherparse_packet_link, header, 0, 16);
ETHERPARSE_FIELD(etherparse_packet_link, payload, 16, 16);
ETHERPARSE_FIELD(etherparse_packet_link, family, 32, 4);
ETHERPARSE_FIELD(etherparse_packet_link, ether_type, 36, 2);
ETHERPARSE_FIELD(etherparse_packet_link, outer_vlan, 38, 4);
ETHERPARSE_FIELD(etherparse_packet_link, inner_vlan, 42, 4);
ETHERPARSE_FIELD(etherparse_packet_link, kind, 46, 1);
ETHERPARSE_FIELD(etherparse_packet_link, vlan_count, 47, 1);
ETHERPARSE_FIELD(etherparse_packet_link, has_ether_type, 48, 1);
ETHERPARSE_SIZE(etherparse_packet_ip, 72);
ETHERPARSE_FIELD(etherparse_packet_ip, header, 0, 16);
ETHERPARSE_FIELD(etherparse_packet_ip, extensions, 16, 16);
ETHERPARSE_FIELD(etherparse_packet_ip, payload, 32, 16);
ETHERPARSE_FIELD(etherparse_packet_ip, packet_len, 48, 8);
ETHERPARSE_FIELD(etherparse_packet_ip, identification, 56, 4);
ETHERPARSE_FIELD(etherparse_packet_ip, fragment_offset, 60, 4);
ETHERPARSE_FIELD(etherparse_packet_ip, version, 64, 1);
ETHERPARSE_FIELD(etherparse_packet_ip, upper, 65, 1);
ETHERPARSE_FIELD(etherparse_packet_ip, is_fragment, 66, 1);
ETHERPARSE_FIELD(etherparse_packet_ip, more_fragments, 67, 1);
ETHERPARSE_FIELD(etherparse_packet_ip, is_later_fragment, 68, 1);
ETHERPARSE_FIELD(etherparse_packet_ip, is_truncated, 69, 1);
ETHERPARSE_SIZE(etherparse_packet_transport, 48);
ETHERPARSE_FIELD(etherparse_packet_transport, header, 0, 16);
ETHERPARSE_FIELD(etherparse_packet_transport, payload, 16, 16);
ETHERPARSE_FIELD(etherparse_packet_transport, source_port, 32, 2);
ETHERPARSE_FIELD(etherparse_packet_transport, destination_port, 34, 2);
ETHERPARSE_FIELD(etherparse_packet_transport, kind, 36, 1);
ETHERPARSE_FIELD(etherparse_packet_transport, has_ports, 37, 1);
ETHERPARSE_FIELD(etherparse_packet_transport, tcp_flags, 38, 1);
ETHERPARSE_FIELD(etherparse_packet_transport, icmp_type, 39, 1);
ETHERPARSE_FIELD(etherparse_packet_transport, icmp_code, 40, 1);
ETHERPARSE_SIZE(etherparse_packet, 224);
ETHERPARSE_FIELD(etherparse_packet, link, 0, 56);
ETHERPARSE_FIELD(etherparse_packet, ip, 56, 72);
ETHERPARSE_FIELD(etherparse_packet, transport, 128, 48);
ETHERPARSE_FIELD(etherparse_packet, stop, 176, 40);
ETHERPARSE_FIELD(etherparse_packet, header_checksum, 216, 1);
ETHERPARSE_FIELD(etherparse_packet, payload_checksum, 217, 1);
ETHERPARSE_SIZE(etherparse_frame, 24);
ETHERPARSE_FIELD(etherparse_frame, at, 0, 8);
ETHERPARSE_FIELD(etherparse_frame, len, 8, 8);
ETHERPARSE_FIELD(etherparse_frame, original_len, 16, 8);
#undef ETHERPARSE_SIZE
#undef ETHERPARSE_FIELD
#undef ETHERPARSE_STATIC_ASSERT
#endif

#ifdef __cplusplus
}
#endif

#endif
