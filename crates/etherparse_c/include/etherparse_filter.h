/* Filters of packets: an expression in the words of pcap-filter(7), such as "tcp port 80 or udp
 * port 53", compiled once and then asked for frames. The proved library for C.
 *
 * What the header etherparse.h says of slices, threads, systems and byte order holds here too. A
 * filter lies in memory of the caller, and no call keeps a pointer, allocates memory or makes a
 * system call. */

#ifndef ETHERPARSE_FILTER_H
#define ETHERPARSE_FILTER_H

#include "etherparse.h"

#ifdef __cplusplus
extern "C" {
#endif

/* The memory of a filter: its size and its alignment in bytes. */
#define ETHERPARSE_FILTER_SIZE 6176
#define ETHERPARSE_FILTER_ALIGN 16

/* A filter. Only the calls below look into it. It has no pointer in it, so it can be copied as a
 * struct.
 *
 * Threads: a filter is given to one call at a time. Threads that filter at once have a copy each. */
struct etherparse_filter {
    union {
        long double aligned; /* to 16 bytes */
        unsigned char memory[ETHERPARSE_FILTER_SIZE];
    } room;
};

/* The most words that an expression can have. A bracket and an operator are words too. */
#define ETHERPARSE_FILTER_MAX_WORDS 64

/* Why a text is no filter, as numbers. Each number that a kind does not have is 0. */
struct etherparse_filter_refusal {
    /* where the word begins that the refusal is about, in bytes from the start of the text; of
     * INCOMPLETE the length of the text */
    size_t place;
    uint32_t kind; /* one of the kinds below; 0 if the text is a filter */
    uint16_t expected; /* of UNEXPECTED and INCOMPLETE: what could stand at the place */
    uint16_t found; /* of MIXED: the operator at the place, FOUND_AND or FOUND_OR below */
};

enum etherparse_filter_kind {
    ETHERPARSE_FILTER_OK = 0,
    ETHERPARSE_FILTER_UNEXPECTED = 1, /* a word that cannot stand at the place */
    /* an operator where the other could stand: parentheses have to say which comes first */
    ETHERPARSE_FILTER_MIXED = 2,
    ETHERPARSE_FILTER_UNSUPPORTED = 3, /* a word of pcap-filter(7) that the language lacks */
    ETHERPARSE_FILTER_INCOMPLETE = 4, /* the text ends where more words have to follow */
    ETHERPARSE_FILTER_TOO_LONG = 5 /* the word after the first ETHERPARSE_FILTER_MAX_WORDS */
};

/* The operator at the place. */
enum etherparse_filter_found {
    ETHERPARSE_FILTER_FOUND_AND = 1,
    ETHERPARSE_FILTER_FOUND_OR = 2
};

/* What could stand at the place. */
enum etherparse_filter_expected {
    ETHERPARSE_FILTER_OPERAND = 1, /* "not", "(" or a primitive */
    ETHERPARSE_FILTER_AND_OR = 2,
    ETHERPARSE_FILTER_AND_OR_CLOSE = 3, /* "and", "or" or ")" */
    ETHERPARSE_FILTER_AND = 4,
    ETHERPARSE_FILTER_AND_CLOSE = 5, /* "and" or ")" */
    ETHERPARSE_FILTER_OR = 6,
    ETHERPARSE_FILTER_OR_CLOSE = 7, /* "or" or ")" */
    ETHERPARSE_FILTER_AFTER_IP = 8, /* after "ip" or "ip6": a word such as "host", or an operator */
    ETHERPARSE_FILTER_AFTER_ARP = 9, /* after "arp" or "rarp" */
    ETHERPARSE_FILTER_AFTER_TRANSPORT = 10, /* after "tcp", "udp" or "sctp" */
    ETHERPARSE_FILTER_AFTER_VLAN = 11, /* an identifier, up to 4095, or an operator */
    ETHERPARSE_FILTER_AFTER_DIRECTION = 12, /* after "src" or "dst" */
    ETHERPARSE_FILTER_AFTER_TRANSPORT_DIRECTION = 13, /* "port" or "portrange" */
    ETHERPARSE_FILTER_AFTER_ETHER = 14,
    ETHERPARSE_FILTER_DESTINATION = 15, /* "dst" */
    ETHERPARSE_FILTER_ADDRESS = 16,
    ETHERPARSE_FILTER_IPV4_ADDRESS = 17,
    ETHERPARSE_FILTER_IPV6_ADDRESS = 18,
    ETHERPARSE_FILTER_NETWORK = 19,
    ETHERPARSE_FILTER_IPV4_NETWORK = 20,
    ETHERPARSE_FILTER_IPV6_NETWORK = 21,
    ETHERPARSE_FILTER_AFTER_ADDRESS = 22, /* "mask" or an operator */
    ETHERPARSE_FILTER_MASK = 23,
    ETHERPARSE_FILTER_PORT = 24, /* by number or name */
    ETHERPARSE_FILTER_PORT_RANGE = 25,
    ETHERPARSE_FILTER_PROTOCOL = 26, /* one that IP carries, by number or name */
    ETHERPARSE_FILTER_ETHERNET_ADDRESS = 27,
    ETHERPARSE_FILTER_ETHER_TYPE = 28,
    ETHERPARSE_FILTER_FRAGMENT = 29, /* "fragment" */
    ETHERPARSE_FILTER_WRONG = 30, /* "wrong" */
    ETHERPARSE_FILTER_PLACE = 31, /* after "[": which bytes are loaded */
    ETHERPARSE_FILTER_CLOSE_BRACKET = 32, /* "]" */
    ETHERPARSE_FILTER_RELATION = 33, /* "=", "!=", "<", "<=", ">" or ">=" */
    ETHERPARSE_FILTER_NUMBER = 34,
    ETHERPARSE_FILTER_BITS = 35 /* "|" or ")" */
};

/* Compiles a text of len bytes to a filter. If the text is wrong, it returns false, the refusal says
 * why, and the filter is one that chooses no frame. Otherwise the refusal is all 0.
 *
 * The text may be null only if len is 0; the other pointers are not null, and what they point to
 * does not overlap. The filter need not be initialised. */
bool etherparse_filter_from_text(const char *text, size_t len, struct etherparse_filter *filter,
    struct etherparse_filter_refusal *refusal);

/* Whether a filter chooses a frame. The link type is a number of the registry of tcpdump.org, and
 * original_len the length of the frame on the wire: "less" and "greater" go by it. A frame of a link
 * type that is not read is not chosen, whatever the expression says. Of a frame that ends within its
 * link header no primitive about a header, an address or a port is true.
 *
 * The filter was compiled by the call above, or is a copy of one that was. */
bool etherparse_filter_matches(struct etherparse_filter *filter, uint32_t link_type,
    const uint8_t *at, size_t len, size_t original_len);

/* etherparse_filter_matches of each frame of a list: answers[i] is that for frames[i]. It returns how
 * many answers it wrote, the smaller of both counts; those after them stay as they are. The lists and
 * the filter do not overlap. */
size_t etherparse_filter_matches_batch(struct etherparse_filter *filter, uint32_t link_type,
    const struct etherparse_frame *frames, size_t frame_count, bool *answers, size_t answer_count);

/* Room in bytes for the longest text of a refusal and the 0 after it. */
#define ETHERPARSE_FILTER_ERROR_TEXT_SIZE 165

/* Writes the text of a refusal, in English and with no newline, as etherparse_error_text does that of
 * an error. Numbers that no refusal has, and ETHERPARSE_FILTER_OK, have the empty text. */
size_t etherparse_filter_error_text(const struct etherparse_filter_refusal *refusal, char *text,
    size_t len);

/* The layout, as the library has it. */
#if defined(__cplusplus) && __cplusplus >= 201103L
#define ETHERPARSE_STATIC_ASSERT(holds) static_assert(holds, #holds)
#define ETHERPARSE_ALIGN(type) alignof(struct type)
#elif !defined(__cplusplus) && defined(__STDC_VERSION__) && __STDC_VERSION__ >= 201112L
#define ETHERPARSE_STATIC_ASSERT(holds) _Static_assert(holds, #holds)
#define ETHERPARSE_ALIGN(type) _Alignof(struct type)
#endif

#ifdef ETHERPARSE_STATIC_ASSERT
ETHERPARSE_STATIC_ASSERT(sizeof(struct etherparse_filter) == ETHERPARSE_FILTER_SIZE);
ETHERPARSE_STATIC_ASSERT(ETHERPARSE_ALIGN(etherparse_filter) == ETHERPARSE_FILTER_ALIGN);
ETHERPARSE_STATIC_ASSERT(sizeof(struct etherparse_filter_refusal) == 16);
ETHERPARSE_STATIC_ASSERT(offsetof(struct etherparse_filter_refusal, place) == 0);
ETHERPARSE_STATIC_ASSERT(offsetof(struct etherparse_filter_refusal, kind) == 8);
ETHERPARSE_STATIC_ASSERT(offsetof(struct etherparse_filter_refusal, expected) == 12);
ETHERPARSE_STATIC_ASSERT(offsetof(struct etherparse_filter_refusal, found) == 14);
#undef ETHERPARSE_STATIC_ASSERT
#undef ETHERPARSE_ALIGN
#endif

#ifdef __cplusplus
}
#endif

#endif
