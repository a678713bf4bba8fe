/* Fragments of IP packets put together: the proved library for C.
 *
 * The datagram that fragments give does not depend on the order in which they come, nor on
 * repetitions. Two that contradict each other discard the datagram (RFC 5722, RFC 8200 section 4.5;
 * of IPv4 too, by choice).
 *
 * A slice is a pointer and a length in bytes, which is at most half of the address space. A null
 * pointer with the length 0 is the empty slice. No call allocates memory or makes a system call.
 *
 * Memory: the caller lends it, and the library keeps its state there. What a call named _new is
 * given belongs to what it makes: read and write it by the calls below alone. It is the caller's
 * again once no more call is made with what was made of it; nothing has to be ended. Neither a state
 * nor a slot may be copied or moved.
 *
 * Threads: the library has no state of its own, so any number of threads may call it at once, as
 * long as no two calls at once are given the same state.
 *
 * Systems: x86-64 with the System V calling convention, as Linux has it, and the processor level
 * that the library was built for: x86-64-v2 unless another was asked for. It calls memmove, memset
 * and memcpy of the C library and nothing else, or not even these if the archive has its own. */

#ifndef ETHERPARSE_REASSEMBLY_H
#define ETHERPARSE_REASSEMBLY_H

#include <stdbool.h>
#include <stddef.h>
#include <stdint.h>

/* The layout of the structs, which the compiler checks in C11, C++11 and later. */
#if defined(__cplusplus) && __cplusplus >= 201103L
#define ETHERPARSE_STATIC_ASSERT(holds) static_assert(holds, #holds)
#elif !defined(__cplusplus) && defined(__STDC_VERSION__) && __STDC_VERSION__ >= 201112L
#define ETHERPARSE_STATIC_ASSERT(holds) _Static_assert(holds, #holds)
#endif

#ifdef ETHERPARSE_STATIC_ASSERT
#define ETHERPARSE_SIZE(type, bytes) ETHERPARSE_STATIC_ASSERT(sizeof(struct type) == (bytes))
#define ETHERPARSE_FIELD(type, field, offset, bytes) \
    ETHERPARSE_STATIC_ASSERT( \
        offsetof(struct type, field) == (offset) && sizeof(((struct type *)0)->field) == (bytes))
#endif

#ifdef __cplusplus
extern "C" {
#endif

/* Why a call refused, as numbers. Each number that a kind does not have is 0. */
struct etherparse_defrag_error {
    uint32_t kind; /* one of the kinds below; 0 if nothing was refused */
    /* of EMPTY, UNALIGNED_LEN, TOO_BIG and OFFSET: the offset of the fragment, in units of 8 bytes */
    uint16_t offset;
    /* of UNALIGNED_LEN and TOO_BIG: the length of its payload; of HEADERS_TOO_LONG: that of the
     * headers before it; in bytes */
    size_t len;
};

/* The kinds of errors. */
enum {
    ETHERPARSE_DEFRAG_OK = 0,
    ETHERPARSE_DEFRAG_EMPTY = 1, /* the fragment has no bytes */
    /* more fragments follow, and its length is no multiple of 8 bytes */
    ETHERPARSE_DEFRAG_UNALIGNED_LEN = 2,
    ETHERPARSE_DEFRAG_TOO_BIG = 3, /* it ends past byte 65535 */
    /* the bytes are no IP packet, or not all of it is there, or it is one of IPv6 that ends within an
     * extension header before which there is no fragment header, or only atomic ones */
    ETHERPARSE_DEFRAG_PACKET = 4,
    /* the first fragment of an IPv6 packet lacks a part of the header chain (RFC 7112): after its
     * fragment header it ends within a header, or has the fragment header of a later fragment */
    ETHERPARSE_DEFRAG_HEADER_CHAIN = 5,
    /* the headers of a first fragment have more than 1280 bytes */
    ETHERPARSE_DEFRAG_HEADERS_TOO_LONG = 6,
    ETHERPARSE_DEFRAG_OFFSET = 7, /* no fragment has this offset: it is greater than 8191 */
    /* the datagram is complete, and its packet would be longer than its length field can say */
    ETHERPARSE_DEFRAG_PACKET_TOO_LONG = 8
};

/* What is known of a datagram. */
enum {
    ETHERPARSE_DEFRAG_INCOMPLETE = 0, /* not all of it has come */
    ETHERPARSE_DEFRAG_COMPLETE = 1, /* all of it has come */
    /* two of its fragments contradict each other, or one has the ECN codepoint CE and another
     * Not-ECT */
    ETHERPARSE_DEFRAG_DISCARDED = 2,
    ETHERPARSE_DEFRAG_NO_FRAGMENT = 3 /* of a packet that was not added */
};

/* Room in bytes for the longest text and the 0 after it. */
#define ETHERPARSE_DEFRAG_ERROR_TEXT_SIZE 122

/* Writes the text of an error, in English and with no newline. As snprintf does, it writes as much
 * of the text as fits into len bytes with a 0 after it, and returns how many bytes the whole text
 * has, without that 0; so len may be 0. A kind that is not listed above, and OK, have the empty
 * text. The pointer to the error is not null; text may be null only if len is 0. */
size_t etherparse_defrag_error_text(const struct etherparse_defrag_error *error, char *text,
    size_t len);

/* One datagram. */

/* The memory that a datagram takes: 65535 bytes for its bytes, and 8192 for a table. */
#define ETHERPARSE_DEFRAG_BUF_MEMORY 73727

/* The state of one. What is in it is the library's. */
struct etherparse_defrag_buf_state {
    uint64_t words[8];
};

/* The fragments that have come of a datagram: the state that etherparse_defrag_buf_new made. */
struct etherparse_defrag_buf {
    struct etherparse_defrag_buf_state *state;
};

/* Makes the state of a datagram of which nothing has come. The length is at least
 * ETHERPARSE_DEFRAG_BUF_MEMORY; what is in the memory makes no difference. Neither pointer is null.
 *
 *     struct etherparse_defrag_buf_state state;
 *     uint8_t memory[ETHERPARSE_DEFRAG_BUF_MEMORY];
 *     struct etherparse_defrag_buf buf = {&state};
 *     etherparse_defrag_buf_new(&state, memory, sizeof memory);
 */
void etherparse_defrag_buf_new(struct etherparse_defrag_buf_state *state, uint8_t *memory,
    size_t len);

/* Takes a fragment: its offset in units of 8 bytes, whether more fragments follow, and its bytes. An
 * exact duplicate of one that has come changes nothing. The datagram is discarded for good if the
 * fragment contradicts one that has come: they overlap and are not the same, or one goes past the
 * end that the other tells.
 *
 * The error is the first of these, and nothing changes then: OFFSET if the offset is above 8191;
 * EMPTY; UNALIGNED_LEN; TOO_BIG. */
struct etherparse_defrag_error etherparse_defrag_buf_add(struct etherparse_defrag_buf *buf,
    uint16_t offset, bool more_fragments, const uint8_t *payload, size_t len);

/* INCOMPLETE, COMPLETE or DISCARDED. */
uint32_t etherparse_defrag_buf_datagram_state(struct etherparse_defrag_buf *buf);

/* Writes the datagram to the front of a buffer, if it is complete and fits into len bytes; what
 * follows in the buffer stays. Returns the length of the datagram, also if it does not fit; 0 if it
 * is not complete. So out may be null if len is 0. */
size_t etherparse_defrag_buf_datagram(struct etherparse_defrag_buf *buf, uint8_t *out, size_t len);

/* Forgets all that has come. */
void etherparse_defrag_buf_clear(struct etherparse_defrag_buf *buf);

/* Many datagrams at once. */

/* The memory that a slot takes: that of a datagram, and 1280 bytes for the headers of its first
 * fragment. */
#define ETHERPARSE_DEFRAG_SLOT_MEMORY 75007

/* The longest packet: an IPv6 header, and the longest payload. */
#define ETHERPARSE_DEFRAG_PACKET_SIZE 65575

/* How long RFC 8200 section 4.5 has a datagram kept, in seconds. */
#define ETHERPARSE_DEFRAG_TIMEOUT_SECONDS 60

/* In the place of a VLAN identifier: there is no tag. */
#define ETHERPARSE_DEFRAG_NO_VLAN 65536

/* The memory of one datagram, and which one has it. What is in it is the library's. */
struct etherparse_defrag_slot {
    uint64_t words[21];
};

/* The state of a pool. What is in it is the library's. */
struct etherparse_defrag_pool_state {
    uint64_t words[3];
};

/* Many datagrams, in slots: the state that etherparse_defrag_pool_new made. */
struct etherparse_defrag_pool {
    struct etherparse_defrag_pool_state *state;
};

/* What all fragments of one packet have in common. */
struct etherparse_frag_id {
    /* the VLAN identifiers of the outer and the inner tag; ETHERPARSE_DEFRAG_NO_VLAN for none */
    uint32_t outer_vlan_id;
    uint32_t inner_vlan_id;
    uint32_t identification;
    uint8_t version; /* 4 or 6; 0 if there is no packet, and all else is 0 */
    uint8_t protocol; /* of IPv4; 0 of IPv6 */
    uint8_t source[16]; /* of IPv4 the first 4 bytes, and 0 after them */
    uint8_t destination[16];
};

/* What became of a packet. */
struct etherparse_defrag_added {
    struct etherparse_defrag_error error; /* why it was not added; OK if it is no fragment */
    size_t slot; /* the slot of its datagram, from 0; also 0 if there is none */
    uint32_t state; /* of the datagram; NO_FRAGMENT if the packet was not added */
    /* the datagram that was given up for it: the oldest, if no slot was left, or an older one with
     * the same id, after the timeout */
    struct etherparse_frag_id given_up;
};

/* A packet that was written. */
struct etherparse_defrag_written {
    size_t len; /* in bytes; 0 if there is none */
    struct etherparse_defrag_error error; /* PACKET_TOO_LONG, or OK */
};

/* Makes a slot that no datagram has. The length is at least ETHERPARSE_DEFRAG_SLOT_MEMORY; what is
 * in the memory makes no difference. Neither pointer is null. */
void etherparse_defrag_slot_new(struct etherparse_defrag_slot *slot, uint8_t *memory, size_t len);

/* Makes the state of a pool with count slots, at least one, which etherparse_defrag_slot_new made. A
 * datagram is kept for timeout ticks of the caller's clock after its first-arriving fragment:
 * ETHERPARSE_DEFRAG_TIMEOUT_SECONDS, if those are seconds. Neither pointer is null. */
void etherparse_defrag_pool_new(struct etherparse_defrag_pool_state *state,
    struct etherparse_defrag_slot *slots, size_t count, uint64_t timeout);

/* Adds the fragment that an IP packet is, without the link header, to its datagram. If there is none
 * with its id, one begins, in a free slot, or else in that of the oldest. A datagram as old as the
 * timeout, or older, is given up when a fragment with its id comes. The other slots do not change. A
 * VLAN identifier above 65535 says that there is no such tag. What follows the packet does not count.
 *
 * The ECN codepoint of each fragment counts, also of an exact duplicate: if one has CE and another
 * Not-ECT, the datagram is discarded for good (RFC 3168 section 5.3).
 *
 * A packet that is whole is no fragment: then the state is NO_FRAGMENT, the error OK, and nothing
 * changes.
 *
 * The error is the first of these, and nothing changes then: PACKET; HEADER_CHAIN; HEADERS_TOO_LONG;
 * those of etherparse_defrag_buf_add. Each depends on the packet alone. */
struct etherparse_defrag_added etherparse_defrag_pool_add_packet(
    struct etherparse_defrag_pool *pool, const uint8_t *packet, size_t len, uint32_t outer_vlan_id,
    uint32_t inner_vlan_id, uint64_t now);

/* Writes the packet of the datagram in a slot to the front of a buffer of at least
 * ETHERPARSE_DEFRAG_PACKET_SIZE bytes, with the headers of the first copy of the fragment at offset
 * 0 that came: with the new length, with the ECN codepoint CE if any fragment had it, and in IPv4
 * the new checksum; in IPv6 without the fragment header. The len of the result is 0 if the datagram
 * is not complete. The slot is one of the pool. Nothing changes: release the slot once the packet is
 * done with. */
struct etherparse_defrag_written etherparse_defrag_pool_write_packet(
    struct etherparse_defrag_pool *pool, size_t slot, uint8_t *out, size_t len);

/* Takes a slot of the pool from its datagram. The slot keeps what has come of that until another
 * datagram takes it: etherparse_defrag_pool_write_packet still writes the packet of a slot that was
 * released while it was complete. */
void etherparse_defrag_pool_release(struct etherparse_defrag_pool *pool, size_t slot);

#ifdef ETHERPARSE_STATIC_ASSERT
ETHERPARSE_SIZE(etherparse_defrag_error, 16);
ETHERPARSE_FIELD(etherparse_defrag_error, kind, 0, 4);
ETHERPARSE_FIELD(etherparse_defrag_error, offset, 4, 2);
ETHERPARSE_FIELD(etherparse_defrag_error, len, 8, 8);
ETHERPARSE_SIZE(etherparse_defrag_buf_state, 64);
ETHERPARSE_SIZE(etherparse_defrag_buf, 8);
ETHERPARSE_FIELD(etherparse_defrag_buf, state, 0, 8);
ETHERPARSE_SIZE(etherparse_defrag_slot, 168);
ETHERPARSE_SIZE(etherparse_defrag_pool_state, 24);
ETHERPARSE_SIZE(etherparse_defrag_pool, 8);
ETHERPARSE_FIELD(etherparse_defrag_pool, state, 0, 8);
ETHERPARSE_SIZE(etherparse_frag_id, 48);
ETHERPARSE_FIELD(etherparse_frag_id, outer_vlan_id, 0, 4);
ETHERPARSE_FIELD(etherparse_frag_id, inner_vlan_id, 4, 4);
ETHERPARSE_FIELD(etherparse_frag_id, identification, 8, 4);
ETHERPARSE_FIELD(etherparse_frag_id, version, 12, 1);
ETHERPARSE_FIELD(etherparse_frag_id, protocol, 13, 1);
ETHERPARSE_FIELD(etherparse_frag_id, source, 14, 16);
ETHERPARSE_FIELD(etherparse_frag_id, destination, 30, 16);
ETHERPARSE_SIZE(etherparse_defrag_added, 80);
ETHERPARSE_FIELD(etherparse_defrag_added, error, 0, 16);
ETHERPARSE_FIELD(etherparse_defrag_added, slot, 16, 8);
ETHERPARSE_FIELD(etherparse_defrag_added, state, 24, 4);
ETHERPARSE_FIELD(etherparse_defrag_added, given_up, 28, 48);
ETHERPARSE_SIZE(etherparse_defrag_written, 24);
ETHERPARSE_FIELD(etherparse_defrag_written, len, 0, 8);
ETHERPARSE_FIELD(etherparse_defrag_written, error, 8, 16);
#undef ETHERPARSE_SIZE
#undef ETHERPARSE_FIELD
#undef ETHERPARSE_STATIC_ASSERT
#endif

#ifdef __cplusplus
}
#endif

#endif
