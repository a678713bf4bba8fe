/* What each call of the library has to return, written in C from the RFCs, bit by bit as their figures show and without regard to
 * speed. None of it calls the library. */

#ifndef REFERENCE_H
#define REFERENCE_H

#include "etherparse.h"

/* The number in so many bits, starting at a bit of a figure. As in the RFCs, bit 0 is the highest bit of the first byte. */
uint32_t bits_at(const uint8_t *at, size_t first, size_t count);

struct etherparse_ipv4_view_answer reference_ipv4_view(const uint8_t *at, size_t len);
struct etherparse_ipv4_read_answer reference_ipv4_read(const uint8_t *at, size_t len);
struct etherparse_ipv4_bytes reference_ipv4_write(const struct etherparse_ipv4_fields *fields);
struct etherparse_ipv4_new_answer reference_ipv4_new(uint16_t payload_len, uint8_t time_to_live, uint8_t protocol,
    const uint8_t source[4], const uint8_t destination[4]);
struct etherparse_ipv4_fields reference_ipv4_default(void);
struct etherparse_ipv4_lengths_answer reference_ipv4_lengths(uint16_t total_len, uint8_t options_len);
struct etherparse_ipv4_header_checksum_answer reference_ipv4_header_checksum(const struct etherparse_ipv4_fields *fields);
bool reference_ipv4_set_time_to_live(struct etherparse_ipv4_fields *fields, uint8_t time_to_live);

struct etherparse_ipv6_view_answer reference_ipv6_view(const uint8_t *at, size_t len);
struct etherparse_ipv6_read_answer reference_ipv6_read(const uint8_t *at, size_t len);
struct etherparse_ipv6_bytes reference_ipv6_write(const struct etherparse_ipv6_fields *fields);
struct etherparse_ipv6_fields reference_ipv6_default(void);
/* The final destination of an IPv4 packet by its options, in place of its destination (RFC 791 section 3.1). */
void reference_source_route(const uint8_t *options, size_t len, uint8_t *destination);
/* The final destination of an IPv6 packet by whole extension headers, of which the first has this number, in place of its
 * destination (RFC 8200 section 8.1); whether it is known. */
bool reference_final_destination(uint8_t number, const uint8_t *headers, size_t len, uint8_t *destination);
/* Its original source by the same headers, in place of its source (RFC 6275 section 11.3.1); whether it is known. */
bool reference_original_source(uint8_t number, const uint8_t *headers, size_t len, uint8_t *source);
struct etherparse_ipv6_walk_answer reference_ipv6_skip(const uint8_t *at, size_t len, uint8_t next_header);
struct etherparse_ipv6_walk_answer reference_ipv6_walk(const uint8_t *at, size_t len, uint8_t next_header);
struct etherparse_ipv6_walk_answer reference_ipv6_walk_up_to(const uint8_t *at, size_t len, uint8_t next_header, size_t limit);

/* The ones-complement sum of sixteen bits of a number, and of the words of a slice, the low byte first (RFC 1071). */
uint16_t reference_fold(uint64_t sum);
uint16_t reference_sum(const uint8_t *at, size_t len);
/* The ones-complement sum of two such sums. */
uint16_t reference_add(uint16_t a, uint16_t b);
/* The checksum after words were changed (RFC 1624, equation 3), all high byte first. */
uint16_t reference_update(uint16_t checksum, const uint8_t *old_bytes, const uint8_t *new_bytes, size_t len);

/* The text of an error, with a 0 after it, and its length. */
size_t reference_text(const struct etherparse_error *error, char text[ETHERPARSE_ERROR_TEXT_SIZE]);

/* The layers of a frame as far as they can be read, of a link type whose header has one length, or after an EtherType; the header
 * file says what each part is. And what a strict call says for the answer of a lax one. */
void reference_lax_from_link_type(uint32_t link_type, const uint8_t *at, size_t len, bool checksums,
    struct etherparse_packet *packet);
void reference_lax_from_ether_type(uint16_t ether_type, const uint8_t *at, size_t len, bool checksums,
    struct etherparse_packet *packet);
void reference_strict(struct etherparse_packet *packet);

#endif
