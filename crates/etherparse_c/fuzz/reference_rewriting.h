/* What each call of the library has to do, written in C from the RFCs and without regard to speed. None of it calls the library. */

#ifndef REFERENCE_REWRITING_H
#define REFERENCE_REWRITING_H

#include "etherparse_rewriting.h"
#include "reference.h"

/* How many checksums were computed anew from all that they cover, and how many updated, since they were not right before or not all
 * bytes are there. */
extern unsigned long long computed_anew;
extern unsigned long long updated;

/* The checksum of a segment over IP of a version. */
struct etherparse_checksum_answer reference_checksum(uint8_t version, const uint8_t *source, const uint8_t *destination,
    uint8_t number, const uint8_t *segment, size_t len);

/* Writes it, if there is one; returns the number of the error. */
uint32_t reference_set_checksum(uint8_t version, const uint8_t *source, const uint8_t *destination, uint8_t number,
    uint8_t *segment, size_t len);

/* Gives a packet of a version another address. */
struct etherparse_reach_answer reference_set_address(uint8_t version, bool is_source, uint8_t *packet, size_t len,
    const uint8_t *address);

/* Gives a packet another port. */
uint32_t reference_set_port(bool is_source, uint8_t *packet, size_t len, uint16_t port);

/* Gives a packet another DSCP or ECN. */
uint32_t reference_set_mark(bool is_dscp, uint8_t *packet, size_t len, uint8_t value);

#endif
