/* What each call of the library has to do, written in C from the RFCs, with a map that says of each byte of a datagram which fragment
 * it came in. None of it calls the library. */

#ifndef REFERENCE_REASSEMBLY_H
#define REFERENCE_REASSEMBLY_H

#include "etherparse_reassembly.h"
#include "reference.h"

enum { MOST_BYTES = 65535, MOST_PIECES = MOST_BYTES / 8 + 1, MOST_HEADERS = 1280 };

/* A fragment that has come, and the place after its last byte. */
struct piece {
    size_t start;
    size_t end;
    bool more;
};

/* The map of a datagram. */
struct map {
    bool is_discarded;
    bool is_ended; /* the last fragment has come */
    bool has_codepoint[4]; /* a fragment has come with this ECN codepoint */
    size_t end; /* where it ends */
    size_t reach; /* the greatest end of a fragment */
    size_t covered; /* how many bytes have come */
    size_t piece_count;
    struct piece pieces[MOST_PIECES];
    uint16_t piece_of[MOST_BYTES]; /* of each byte the number of its piece, from 1 on; 0 if it has not come */
    uint8_t bytes[MOST_BYTES];
};

/* Forgets what has come. */
void map_clear(struct map *map);

/* Takes a fragment. */
struct etherparse_defrag_error map_add(struct map *map, size_t offset, bool more, const uint8_t *payload, size_t len);

/* Notes the ECN codepoint of a fragment that is taken. */
void map_mark(struct map *map, uint32_t codepoint);

/* What is known of the datagram. */
uint32_t map_state(const struct map *map);

/* A packet that is a fragment. */
struct fragment {
    struct etherparse_frag_id id; /* with no VLAN */
    uint16_t offset;
    bool more;
    uint8_t next_header;
    uint32_t codepoint; /* the ECN of its IP header */
    size_t headers_len; /* all bytes before the payload */
    size_t unfragmentable_len; /* of those, of IPv6, the bytes before the fragment header */
    size_t naming; /* of IPv6 the place of the byte that names the fragment header */
    size_t len; /* of the payload */
};

/* Reads a packet; whether it is a fragment. If not, the error says why, or is OK if it is whole. */
bool read_fragment(const uint8_t *packet, size_t len, struct fragment *fragment, struct etherparse_defrag_error *error);

/* Writes the packet of a complete datagram, with the headers of its first fragment. */
struct etherparse_defrag_written write_datagram(const struct map *map, const uint8_t *headers, const struct fragment *first,
    uint8_t *out);

#endif
