/* packets compare | time | library|same|own|dpdk: Ethernet frames in memory, taken apart by the library for C in batches, by hand into
   the library's struct (`same`) and into a struct of half its size (`own`), and by rte_net_get_ptype of DPDK if the program is built
   with it. `compare` wants the same fields of the library and by hand, `time` prints the least time of all rounds for one frame and
   the median of the rounds' ratios, and the other words are for a program that counts instructions. */
#define _DEFAULT_SOURCE
#include "etherparse.h"

#include <net/ethernet.h>
#include <netinet/ip.h>
#include <netinet/ip6.h>
#include <netinet/tcp.h>
#include <netinet/udp.h>
#include <stdio.h>
#include <stdlib.h>
#include <string.h>
#include <time.h>
#ifdef WITH_DPDK
#include <rte_mbuf.h>
#include <rte_net.h>
#endif

enum { FRAMES = 4096, BATCH = 64, ROUNDS = 301, SEEDS = 256, ROOM = 1600 };

/* What frames have. */

static uint64_t state;

static uint64_t below(uint64_t n) {
  state = state * 6364136223846793005u + 1442695040888963407u;
  return (state >> 33) % n;
}

static void random_bytes(uint8_t *at, size_t len) {
  while (len > 0) at[--len] = (uint8_t)below(256);
}

static void number(uint8_t *at, size_t n) {
  at[0] = (uint8_t)(n >> 8);
  at[1] = (uint8_t)n;
}

/* A payload of UDP, TCP, ICMP or another protocol. */
static size_t make_payload(uint8_t *at, bool is_ipv4, uint8_t *protocol) {
  uint64_t kind = below(100), size = below(4);
  size_t data = size == 0 ? below(64) : size == 1 ? 64 + below(512) : 1000 + below(400), header_len = 8;
  if (kind < 60) header_len = 20 + 4 * below(4) * below(2);
  random_bytes(at, header_len + data);
  *protocol = kind < 60 ? IPPROTO_TCP : kind < 90 ? IPPROTO_UDP : kind < 98 ? (is_ipv4 ? IPPROTO_ICMP : IPPROTO_ICMPV6) : 89;
  if (kind < 60) at[12] = (uint8_t)(header_len / 4 << 4);
  if (kind >= 60 && kind < 90) number(at + 4, header_len + data);
  return header_len + data;
}

static size_t make_ipv4(uint8_t *at) {
  size_t header_len = 20 + (below(20) == 0 ? 4 * below(11) : 0);
  random_bytes(at, header_len);
  size_t len = header_len + make_payload(at + header_len, true, at + 9);
  at[0] = (uint8_t)(0x40 + header_len / 4);
  number(at + 2, len);
  number(at + 6, below(50) == 0 ? 0x2000 + below(100) : 0x4000);
  return len;
}

/* One in seven has extension headers: hop by hop and destination options, a fragment header or rarely two, or a
   routing header. */
static size_t make_ipv6(uint8_t *at) {
  uint8_t protocol, *body = at + 40;
  uint64_t kind = below(20);
  size_t extensions = kind == 0 ? 24 : kind < 3 ? 8 : 0;
  random_bytes(at, 40 + extensions);
  size_t len = extensions + make_payload(body + extensions, false, &protocol);
  at[0] = 0x60;
  number(at + 4, len);
  at[6] = kind == 0 ? 0 : kind == 1 ? 44 : kind == 2 ? 43 : protocol;
  if (kind == 0) number(body, 60 * 256);
  if (kind == 0) number(body + 8, protocol * 256 + 1);
  if (kind == 1) number(body + 2, 8 * below(2) * below(100) + 1);
  if (kind == 1 || kind == 2) number(body, (kind == 1 && below(16) == 0 ? 44 : protocol) * 256);
  return 40 + len;
}

/* A third has one tag or two, a third of the packets is IPv6, and one frame in fifty is ARP. */
static size_t make_frame(uint8_t *at) {
  size_t len = 12;
  random_bytes(at, 12);
  if (below(3) == 0) {
    for (uint64_t tags = below(3) == 0 ? 2 : 1; tags > 0; tags--) {
      number(at + len, tags == 2 ? 0x88a8 : 0x8100);
      random_bytes(at + len + 2, 2);
      len += 4;
    }
  }
  if (below(50) == 0) {
    number(at + len, ETHERTYPE_ARP);
    memset(at + len + 2, 7, 28);
    len += 30;
  } else if (below(3) == 0) {
    number(at + len, ETHERTYPE_IPV6);
    len += 2 + make_ipv6(at + len + 2);
  } else {
    number(at + len, ETHERTYPE_IP);
    len += 2 + make_ipv4(at + len + 2);
  }
  while (len < 60) at[len++] = 0;
  return len;
}

static struct etherparse_frame frames[FRAMES];
#ifdef WITH_DPDK
static struct rte_mbuf buffers[FRAMES];
#endif

/* Cuts a frame, anywhere or among its headers, and makes up to four bytes of its headers another number, often one of a header. */
static size_t damage(uint8_t *at, size_t len) {
  static const uint8_t numbers[] = { 0, 1, 4, 6, 17, 43, 44, 50, 51, 58, 59, 60, 135, 139, 140, 0x45, 0x60, 0x81, 0x91 };
  uint64_t cut = below(4);
  if (cut == 0) len = below(len);
  if (cut == 1) len = below(len < 110 ? len : 110);
  for (uint64_t bytes = below(5); len > 0 && bytes > 0; bytes--) {
    at[below(len < 90 ? len : 90)] = below(4) == 0 ? (uint8_t)below(256) : numbers[below(sizeof numbers)];
  }
  return len;
}

/* One frame in so many is damaged, or none if that is 0. */
static void make_frames(uint64_t seed, uint64_t damaged) {
  static uint8_t room[FRAMES][ROOM];
  state = seed;
  for (size_t i = 0; i < FRAMES; i++) {
    size_t len = make_frame(room[i]);
    if (damaged > 0 && below(damaged) == 0) len = damage(room[i], len);
    frames[i] = (struct etherparse_frame){ room[i], len, len };
#ifdef WITH_DPDK
    buffers[i] = (struct rte_mbuf){ .buf_addr = room[i], .buf_len = ROOM, .data_len = (uint16_t)len, .pkt_len = (uint32_t)len, .nb_segs = 1 };
#endif
  }
}

/* By hand. */

struct tag {
  uint16_t control;
  uint16_t ether_type;
};

static inline bool is_tag(uint16_t ether_type) {
  return ether_type == 0x8100 || ether_type == 0x88a8 || ether_type == 0x9100;
}

static inline struct etherparse_vlan_tag vlan_of(const struct tag *tag) {
  uint16_t control = ntohs(tag->control);
  return (struct etherparse_vlan_tag){ control & 0xfff, (uint8_t)(control >> 13), control >> 12 & 1 };
}

static inline bool is_extension(uint8_t number) {
  switch (number) {
  case IPPROTO_HOPOPTS:
  case IPPROTO_ROUTING:
  case IPPROTO_FRAGMENT:
  case IPPROTO_AH:
  case IPPROTO_DSTOPTS:
  case IPPROTO_MH:
  case 139:
  case 140:
    return true;
  default:
    return false;
  }
}

#define PACKET struct etherparse_packet
#define PART struct etherparse_part
#define STOP struct etherparse_error
#define BY_HAND into_same
#include "by_hand.h"
#undef PACKET
#undef PART
#undef STOP
#undef BY_HAND

/* The same fields in 32 bits where the library has 64. */
struct own_part {
  uint32_t offset;
  uint32_t len;
};

struct own_stop {
  uint32_t kind;
  uint16_t number;
  uint16_t layer;
  uint32_t required_len;
  uint32_t len;
  uint32_t layer_start_offset;
  uint32_t limit;
};

struct own_packet {
  struct {
    struct own_part header, payload;
    uint32_t family;
    uint16_t ether_type;
    struct etherparse_vlan_tag outer_vlan, inner_vlan;
    uint8_t kind, vlan_count;
    bool has_ether_type;
  } link;
  struct {
    struct own_part header, extensions, payload;
    uint32_t packet_len, identification, fragment_offset;
    uint8_t version, upper;
    bool is_fragment, more_fragments, is_later_fragment, is_truncated;
  } ip;
  struct {
    struct own_part header, payload;
    uint16_t source_port, destination_port;
    uint8_t kind;
    bool has_ports;
    uint8_t tcp_flags, icmp_type, icmp_code;
  } transport;
  struct own_stop stop;
};

#define PACKET struct own_packet
#define PART struct own_part
#define STOP struct own_stop
#define BY_HAND into_own
#include "by_hand.h"

/* The ways, each for a batch. The answers stay in the cache, as those of a program that looks at them before its next batch. */

static struct etherparse_packet answers[BATCH], same_answers[BATCH];
static struct own_packet own_answers[BATCH];

__attribute__((noinline)) static void by_library(size_t first) {
  etherparse_packet_lax_batch(ETHERPARSE_LINKTYPE_ETHERNET, frames + first, BATCH, false, answers, BATCH);
}

__attribute__((noinline)) static void by_hand_same(size_t first) {
  for (size_t i = 0; i < BATCH; i++) into_same(frames[first + i].at, frames[first + i].len, &same_answers[i]);
}

__attribute__((noinline)) static void by_hand_own(size_t first) {
  for (size_t i = 0; i < BATCH; i++) into_own(frames[first + i].at, frames[first + i].len, &own_answers[i]);
}

#ifdef WITH_DPDK
static struct rte_net_hdr_lens dpdk_lens[BATCH];
static uint32_t dpdk_types[BATCH];

__attribute__((noinline)) static void by_dpdk(size_t first) {
  for (size_t i = 0; i < BATCH; i++) dpdk_types[i] = rte_net_get_ptype(&buffers[first + i], &dpdk_lens[i], RTE_PTYPE_ALL_MASK);
}

#endif

static const struct {
  const char *word;
  const char *name;
  void (*batch)(size_t first);
} WAYS[] = {
  { "library", "the library", by_library },
  { "same", "by hand, the library's struct", by_hand_same },
  { "own", "by hand, a struct of its own", by_hand_own },
#ifdef WITH_DPDK
  { "dpdk", "rte_net_get_ptype", by_dpdk },
#endif
};

enum { COUNT = sizeof WAYS / sizeof WAYS[0] };

static void all_frames(size_t way) {
  for (size_t first = 0; first < FRAMES; first += BATCH) WAYS[way].batch(first);
}

/* Each field of the answers. */
#define FIELDS(each) \
  each(link.header.offset) each(link.header.len) each(link.payload.offset) each(link.payload.len) each(link.family) \
  each(link.ether_type) each(link.outer_vlan.identifier) each(link.outer_vlan.priority) each(link.outer_vlan.drop_eligible) \
  each(link.inner_vlan.identifier) each(link.inner_vlan.priority) each(link.inner_vlan.drop_eligible) each(link.kind) \
  each(link.vlan_count) each(link.has_ether_type) each(ip.header.offset) each(ip.header.len) each(ip.extensions.offset) \
  each(ip.extensions.len) each(ip.payload.offset) each(ip.payload.len) each(ip.packet_len) each(ip.identification) \
  each(ip.fragment_offset) each(ip.version) each(ip.upper) each(ip.is_fragment) each(ip.more_fragments) \
  each(ip.is_later_fragment) each(ip.is_truncated) each(transport.header.offset) each(transport.header.len) \
  each(transport.payload.offset) each(transport.payload.len) each(transport.source_port) each(transport.destination_port) \
  each(transport.kind) each(transport.has_ports) each(transport.tcp_flags) each(transport.icmp_type) each(transport.icmp_code) \
  each(stop.kind) each(stop.number) each(stop.layer) each(stop.required_len) each(stop.len) each(stop.layer_start_offset) \
  each(stop.limit)
#define WANT_SAME(field) \
  if (wanted->field != same->field || wanted->field != own->field) { \
    fprintf(stderr, "frame %zu: %s is %llu of the library, %llu and %llu by hand\n", number, #field, (unsigned long long)wanted->field, \
            (unsigned long long)same->field, (unsigned long long)own->field); \
    abort(); \
  }

static void want_same(size_t number, const struct etherparse_packet *wanted, const struct etherparse_packet *same, const struct own_packet *own) {
  FIELDS(WANT_SAME)
}

/* DPDK says of undamaged frames that are no fragments what the layer after IP is. */
#ifdef WITH_DPDK
static void want_same_layer(size_t number, const struct etherparse_packet *packet) {
  uint8_t kind = packet->transport.kind;
  uint32_t wanted = kind == IPPROTO_TCP ? RTE_PTYPE_L4_TCP : RTE_PTYPE_L4_UDP;
  uint32_t type = rte_net_get_ptype(&buffers[number], dpdk_lens, RTE_PTYPE_ALL_MASK);
  if ((kind == IPPROTO_TCP || kind == IPPROTO_UDP) && !packet->ip.is_fragment && (type & RTE_PTYPE_L4_MASK) != wanted) {
    fprintf(stderr, "frame %zu: protocol %u, the type of DPDK is %x\n", number, kind, type);
    abort();
  }
}
#endif

static void compare(void) {
  size_t stopped = 0, fragments = 0, tagged = 0;
  for (uint64_t seed = 0; seed < SEEDS; seed++) {
    make_frames(seed, seed % 4);
    for (size_t first = 0; first < FRAMES; first += BATCH) {
      memset(answers, 0xff, sizeof answers);
      memset(same_answers, 0xee, sizeof same_answers);
      memset(own_answers, 0xdd, sizeof own_answers);
      by_library(first);
      by_hand_same(first);
      by_hand_own(first);
      for (size_t i = 0; i < BATCH; i++) {
        want_same(first + i, &answers[i], &same_answers[i], &own_answers[i]);
#ifdef WITH_DPDK
        if (seed % 4 == 0) want_same_layer(first + i, &answers[i]);
#endif
        stopped += answers[i].stop.kind != ETHERPARSE_OK;
        fragments += answers[i].ip.is_fragment;
        tagged += answers[i].link.vlan_count > 0;
      }
    }
  }
  printf("%d frames give the same answers; %zu of them stop early, %zu are fragments, %zu have tags.\n", SEEDS * FRAMES, stopped, fragments,
         tagged);
}

static double now(void) {
  struct timespec time;
  clock_gettime(CLOCK_MONOTONIC, &time);
  return (double)time.tv_sec * 1e9 + (double)time.tv_nsec;
}

static int ascending(const void *a, const void *b) {
  double x = *(const double *)a, y = *(const double *)b;
  return (x > y) - (x < y);
}

/* From one round to the next another way is the first. */
static void time_all(void) {
  static double times[COUNT][ROUNDS], ratios[COUNT][ROUNDS];
  for (size_t round = 0; round < ROUNDS; round++) {
    for (size_t turn = 0; turn < COUNT; turn++) {
      size_t way = (round + turn) % COUNT;
      all_frames(way);
      double from = now();
      for (int pass = 0; pass < 4; pass++) all_frames(way);
      times[way][round] = (now() - from) / (4 * FRAMES);
    }
    for (size_t way = 0; way < COUNT; way++) ratios[way][round] = times[0][round] / times[way][round];
  }
  for (size_t way = 0; way < COUNT; way++) {
    qsort(times[way], ROUNDS, sizeof(double), ascending);
    qsort(ratios[way], ROUNDS, sizeof(double), ascending);
    printf("%-30s at least %6.2f ns a frame", WAYS[way].name, times[way][0]);
    if (way > 0) printf("; the library takes %.2f of its time", ratios[way][ROUNDS / 2]);
    putchar('\n');
  }
}

int main(int count, char **words) {
  if (count == 2 && strcmp(words[1], "compare") == 0) {
    compare();
    return 0;
  }
  make_frames(9, 50);
  if (count == 2 && strcmp(words[1], "time") == 0) {
    time_all();
    return 0;
  }
  for (size_t way = 0; count == 2 && way < COUNT; way++) {
    if (strcmp(words[1], WAYS[way].word) == 0) {
      all_frames(way);
      return 0;
    }
  }
  fprintf(stderr, "usage: packets compare | time | library | same | own | dpdk\n");
  return 2;
}
