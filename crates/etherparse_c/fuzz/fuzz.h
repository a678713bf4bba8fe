/* What the programs that compare the library for C with a reference have in common (inputs.c), and what fuzz.c and packets.c
 * have. */

#ifndef FUZZ_H
#define FUZZ_H

#include "reference.h"

enum { MAX_LEN = 700 };

/* Numbers that look random, and are the same in each run with a seed; one that is often the most, or 0; one below a bound; as many
 * random bytes. */
void seed_random(uint64_t seed);
uint64_t next_random(void);
uint64_t some_number(uint64_t most);
size_t below(size_t bound);
void fill(uint8_t *at, size_t len);

/* An IPv4 header, an IPv6 header, and extension headers, of which the first has this number. Each returns its length. */
size_t make_ipv4(uint8_t *at);
size_t make_ipv6(uint8_t *at, uint8_t next_header);
size_t make_chain(uint8_t *at, uint8_t number, uint8_t upper);

/* A number in so many bytes, the high byte first. */
void put(uint8_t *at, size_t len, uint64_t number);

/* An IP packet with its headers, often with the right lengths and checksums; returns its length. */
size_t make_ip(uint8_t *at, uint8_t version);

/* A page that can be read and written, between two that cannot. */
uint8_t *guarded_page(size_t page_len);

/* The current packet. */
extern const uint8_t *packet;
extern size_t packet_len;

/* Ends the program with the current packet, unless the condition holds. */
void expect(bool holds, const char *what);
bool same_error(const struct etherparse_error *a, const struct etherparse_error *b);

/* A frame, and its length; its link type, and an EtherType that can stand before it. */
extern uint32_t link_type;
extern uint16_t first_ether_type;
size_t make_frame(uint8_t *frame);

/* Compares the calls on packets with the reference, of a frame. The answers stand at the end of a page. */
void check_packets(const uint8_t *frame, size_t len, uint8_t *page_end);

#endif
