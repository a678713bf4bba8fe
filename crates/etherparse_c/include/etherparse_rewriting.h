/* Checksums of UDP, TCP, ICMP and ICMPv6, and packets that are rewritten in place: the proved
 * library for C.
 *
 * A slice is a pointer and a length in bytes, which is at most half of the address space. A null
 * pointer with the length 0 is the empty slice. No call keeps a pointer, allocates memory or makes
 * a system call. What a call writes must not overlap what it reads by another pointer.
 *
 * Threads: the library has no state, so any number of threads may call it at once, as long as no
 * thread writes what a call of another reads or writes.
 *
 * Systems: x86-64 with the System V calling convention, as Linux has it, built for the processor
 * level x86-64-v2 unless it was built for another.
 *
 * Byte order: a checksum and a port are numbers whose high byte comes first in the packet. */

#ifndef ETHERPARSE_REWRITING_H
#define ETHERPARSE_REWRITING_H

#include <stddef.h>
#include <stdint.h>

/* The layout of the structs, which the compiler checks in C11, C++11 and later. */
#if defined(__cplusplus) && __cplusplus >= 201103L
#define ETHERPARSE_REWRITING_STATIC_ASSERT(holds) static_assert(holds, #holds)
#elif !defined(__cplusplus) && defined(__STDC_VERSION__) && __STDC_VERSION__ >= 201112L
#define ETHERPARSE_REWRITING_STATIC_ASSERT(holds) _Static_assert(holds, #holds)
#endif

#ifdef __cplusplus
extern "C" {
#endif

/* The numbers of errors. A call that returns one has changed nothing. */
enum {
    ETHERPARSE_REWRITING_OK = 0,
    ETHERPARSE_REWRITING_EMPTY = 1, /* the packet has no bytes */
    ETHERPARSE_REWRITING_UNEXPECTED_VERSION = 2, /* the IP version is neither 4 nor 6 */
    ETHERPARSE_REWRITING_IPV4_HEADER = 3, /* there is no whole IPv4 header, or its IHL is below 5 */
    ETHERPARSE_REWRITING_IPV6_HEADER = 4, /* there is no whole IPv6 header */
    /* the packet has fewer bytes than its length field says, or that says less than the header */
    ETHERPARSE_REWRITING_PACKET = 5,
    ETHERPARSE_REWRITING_EXTENSIONS = 6, /* the packet ends within an IPv6 extension header */
    ETHERPARSE_REWRITING_OTHER_VERSION = 7, /* the address is one of the other IP version */
    /* fewer bytes are there than 8 of UDP, 20 of TCP or 4 of ICMP and ICMPv6, as in a first
     * fragment; for a checksum also: than UDP's length field says, or that field is below 8 */
    ETHERPARSE_REWRITING_INCOMPLETE = 8,
    ETHERPARSE_REWRITING_LATER_FRAGMENT = 9, /* the payload is a later fragment, without ports */
    /* the protocol has no ports, or no checksum, that are known here */
    ETHERPARSE_REWRITING_OTHER_PROTOCOL = 10,
    ETHERPARSE_REWRITING_TOO_LONG = 11, /* the pseudo-header has no room for the length */
    ETHERPARSE_REWRITING_VALUE_TOO_BIG = 12 /* a DSCP above 63, or an ECN above 3 */
};

/* Room in bytes for the longest text of an error and the 0 after it. */
#define ETHERPARSE_REWRITING_ERROR_TEXT_SIZE 64

/* Writes the text of an error to the front of a buffer, as much of it as there is room for, and a
 * byte 0 after it. Returns how many bytes the whole text has, without that 0; of a number that no
 * error has it is 0. */
size_t etherparse_rewriting_error_text(uint32_t error, char *text, size_t room);

/* A checksum, or why there is none. */
struct etherparse_checksum_answer {
    uint32_t error; /* the number of the error, or 0 */
    uint16_t checksum; /* the high byte comes first in the segment; 0 if there is an error */
};

/* The checksum that a segment should have, whatever it has: of UDP (17) or TCP (6), with the
 * pseudo-header, of ICMP (1) over IPv4, which has none, and of ICMPv6 (58) over IPv6 (RFC 768, RFC
 * 9293 section 3.1, RFC 792, RFC 4443 section 2.3, RFC 8200 section 8.1). That of UDP is never 0,
 * since 0 says that there is none.
 *
 * The segment has to end where the packet's length field says; a UDP datagram ends where its own
 * length field says: set that first. The source is the original one, the destination the final.
 *
 * Errors: OTHER_PROTOCOL, INCOMPLETE, TOO_LONG. */
struct etherparse_checksum_answer etherparse_checksum_ipv4(const uint8_t source[4],
    const uint8_t destination[4], uint8_t protocol, const uint8_t *segment, size_t len);
struct etherparse_checksum_answer etherparse_checksum_ipv6(const uint8_t source[16],
    const uint8_t destination[16], uint8_t number, const uint8_t *segment, size_t len);

/* Writes that checksum into the segment, and returns the number of the error, or 0. */
uint32_t etherparse_set_checksum_ipv4(const uint8_t source[4], const uint8_t destination[4],
    uint8_t protocol, uint8_t *segment, size_t len);
uint32_t etherparse_set_checksum_ipv6(const uint8_t source[16], const uint8_t destination[16],
    uint8_t number, uint8_t *segment, size_t len);

/* Fields of a whole IP packet, changed in place. The checksums that cover a field are updated for
 * it (RFC 1624): a right one stays right, and a wrong one is not repaired. A UDP checksum of 0,
 * which says that there is none, stays 0. What comes after the packet stays.
 *
 * A new destination updates a checksum for the final one (RFC 791 section 3.1, RFC 8200 section
 * 8.1), unless a source route or a routing header keeps that, or it is unknown. A new IPv6 source
 * updates it for the original one, unless a Home Address option keeps that (RFC 6275 section
 * 11.3.1) or Shim6 hides it. Checksums other than those of UDP, TCP and ICMPv6, also of mobility
 * headers (135) and the Host Identity Protocol (139), stay as they are, and can become wrong. */

/* How far the change of an address reaches. */
enum {
    /* the checksum of UDP, TCP or, over IPv6, ICMPv6 is updated too, unless the address that it
     * covers stays the same or is unknown */
    ETHERPARSE_REACH_UPPER = 1,
    /* the payload is a later fragment: no checksum in it is updated, though that of TCP can be
     * there if the first fragment is short */
    ETHERPARSE_REACH_LATER_FRAGMENT = 2,
    /* the checksum of the protocol covers no addresses, or the protocol is not known here */
    ETHERPARSE_REACH_OTHER_PROTOCOL = 3
};

struct etherparse_reach_answer {
    uint32_t error; /* the number of the error, or 0 */
    uint32_t reach; /* one of the above; 0 if there is an error */
};

/* Gives an IPv4 packet another source or destination address, with the header checksum and that of
 * UDP or TCP. Errors, in this order: EMPTY to EXTENSIONS, OTHER_VERSION, INCOMPLETE. */
struct etherparse_reach_answer etherparse_set_source_ipv4(uint8_t *packet, size_t len,
    const uint8_t source[4]);
struct etherparse_reach_answer etherparse_set_destination_ipv4(uint8_t *packet, size_t len,
    const uint8_t destination[4]);

/* The same of an IPv6 packet, with the checksum of UDP, TCP or ICMPv6. */
struct etherparse_reach_answer etherparse_set_source_ipv6(uint8_t *packet, size_t len,
    const uint8_t source[16]);
struct etherparse_reach_answer etherparse_set_destination_ipv6(uint8_t *packet, size_t len,
    const uint8_t destination[16]);

/* Gives a packet of either version with UDP or TCP another port, with the checksum. Errors, in this
 * order: EMPTY to EXTENSIONS, LATER_FRAGMENT, OTHER_PROTOCOL, INCOMPLETE. */
uint32_t etherparse_set_source_port(uint8_t *packet, size_t len, uint16_t port);
uint32_t etherparse_set_destination_port(uint8_t *packet, size_t len, uint16_t port);

/* Gives a packet of either version another DSCP, at most 63 (RFC 2474 section 3), or ECN, at most 3
 * (RFC 3168 section 5), with the header checksum of IPv4. Only the header is read. Errors, in this
 * order: VALUE_TOO_BIG, EMPTY, UNEXPECTED_VERSION, IPV4_HEADER, IPV6_HEADER. */
uint32_t etherparse_set_dscp(uint8_t *packet, size_t len, uint8_t dscp);
uint32_t etherparse_set_ecn(uint8_t *packet, size_t len, uint8_t ecn);

/* The layout, as the library has it. */
#ifdef ETHERPARSE_REWRITING_STATIC_ASSERT
ETHERPARSE_REWRITING_STATIC_ASSERT(sizeof(struct etherparse_checksum_answer) == 8);
ETHERPARSE_REWRITING_STATIC_ASSERT(offsetof(struct etherparse_checksum_answer, error) == 0);
ETHERPARSE_REWRITING_STATIC_ASSERT(offsetof(struct etherparse_checksum_answer, checksum) == 4);
ETHERPARSE_REWRITING_STATIC_ASSERT(sizeof(struct etherparse_reach_answer) == 8);
ETHERPARSE_REWRITING_STATIC_ASSERT(offsetof(struct etherparse_reach_answer, error) == 0);
ETHERPARSE_REWRITING_STATIC_ASSERT(offsetof(struct etherparse_reach_answer, reach) == 4);
#undef ETHERPARSE_REWRITING_STATIC_ASSERT
#endif

#ifdef __cplusplus
}
#endif

#endif
