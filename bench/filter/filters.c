/* filters frames | time EXPRESSION.. | call EXPRESSION: `frames` writes Ethernet frames, each after its length in four bytes; `time`
   reads them and prints for each round the number of an expression, how many nanoseconds libpcap's bpf_filter took over all frames,
   and how many it chose; `call` is for a program that counts instructions. `main.rt.txt` does the same with the proved filter. */
#include <pcap/pcap.h>
#include <stdbool.h>
#include <stdint.h>
#include <stdio.h>
#include <stdlib.h>
#include <string.h>
#include <time.h>

enum { FRAMES = 1024, ROUNDS = 21, TURNS = 16 };

static uint64_t state = 88172645463325252u;

static uint64_t below(uint64_t n) {
  state ^= state << 13;
  state ^= state >> 7;
  state ^= state << 17;
  return (state >> 11) % n;
}

static void put16(uint8_t *at, uint64_t n) {
  at[0] = (uint8_t)(n >> 8);
  at[1] = (uint8_t)n;
}

static uint64_t port(void) {
  static const uint16_t known[] = { 80, 443, 53, 22, 8080 };
  return below(2) ? known[below(5)] : 1024 + below(60000);
}

static void address4(uint8_t *at) {
  static const uint8_t front[][2] = { { 10, 0 }, { 192, 168 }, { 172, 16 }, { 93, 184 } };
  memcpy(at, front[below(4)], 2);
  at[2] = (uint8_t)below(2);
  at[3] = (uint8_t)(1 + below(8));
}

static void address6(uint8_t *at) {
  static const uint8_t front[] = { 0x20, 0x01, 0x0d, 0xb8 };
  memset(at, 0, 16);
  memcpy(at, front, 4);
  at[15] = (uint8_t)(1 + below(8));
}

/* The protocol of a segment that is written here, and its length. */
static uint8_t segment(uint8_t *at, bool is_ipv4, size_t *len) {
  static const uint8_t flags[] = { 2, 0x12, 0x10, 0x18, 0x11, 4 };
  size_t data = below(4) ? below(64) : below(1400);
  uint64_t kind = below(100);
  for (size_t i = 0; i < 20 + data; i++) at[i] = (uint8_t)below(256);
  *len = (kind < 65 ? 20 : 8) + data;
  if (kind >= 92) return is_ipv4 ? 1 : 58;
  put16(at, port());
  put16(at + 2, port());
  if (kind >= 65) {
    put16(at + 4, *len);
    return 17;
  }
  at[12] = 0x50;
  at[13] = flags[below(6)];
  return 6;
}

/* A frame without tags, extension headers and padding: on these both have to agree. */
static size_t frame(uint8_t *at) {
  size_t len;
  for (size_t i = 0; i < 12; i++) at[i] = (uint8_t)below(256);
  uint64_t kind = below(100);
  if (kind < 3) {
    static const uint8_t arp[] = { 8, 6, 0, 1, 8, 0, 6, 4, 0, 1 };
    memcpy(at + 12, arp, sizeof arp);
    for (size_t i = 22; i < 42; i++) at[i] = (uint8_t)below(256);
    address4(at + 28);
    address4(at + 38);
    return 42;
  }
  if (kind < 25) {
    uint8_t *ip = at + 14;
    put16(at + 12, 0x86dd);
    memset(ip, 0, 40);
    ip[0] = 0x60;
    ip[6] = segment(ip + 40, false, &len);
    ip[7] = (uint8_t)(30 + below(100));
    put16(ip + 4, len);
    address6(ip + 8);
    address6(ip + 24);
    return 54 + len;
  }
  uint8_t *ip = at + 14;
  put16(at + 12, 0x0800);
  memset(ip, 0, 20);
  ip[0] = 0x45;
  ip[9] = segment(ip + 20, true, &len);
  put16(ip + 2, 20 + len);
  put16(ip + 6, below(100) ? 0x4000 : 0x2000 + below(100));
  ip[8] = (uint8_t)(30 + below(100));
  address4(ip + 12);
  address4(ip + 16);
  return 34 + len;
}

struct slice {
  const uint8_t *at;
  u_int len;
};

static struct slice frames[FRAMES];

static void write_frames(void) {
  static uint8_t at[2000];
  for (int i = 0; i < FRAMES; i++) {
    size_t len = frame(at);
    uint8_t front[4] = { (uint8_t)len, (uint8_t)(len >> 8), 0, 0 };
    fwrite(front, 1, sizeof front, stdout);
    fwrite(at, 1, len, stdout);
  }
}

static void read_frames(void) {
  static uint8_t room[FRAMES * 1600];
  uint8_t *at = room;
  uint8_t front[4];
  for (int i = 0; i < FRAMES && fread(front, 1, sizeof front, stdin) == sizeof front; i++) {
    u_int len = front[0] + 256u * front[1];
    if (fread(at, 1, len, stdin) != len) abort();
    frames[i] = (struct slice){ at, len };
    at += len;
  }
}

/* How many frames a program chooses, TURNS times over. */
__attribute__((noinline)) static uint64_t matching(const struct bpf_program *program) {
  uint64_t chosen = 0;
  for (int turn = 0; turn < TURNS; turn++) {
    for (int i = 0; i < FRAMES; i++) {
      chosen += bpf_filter(program->bf_insns, frames[i].at, frames[i].len, frames[i].len) != 0;
    }
  }
  return chosen;
}

static struct bpf_program compiled(const char *expression) {
  struct bpf_program program;
  pcap_t *dead = pcap_open_dead(DLT_EN10MB, 65535);
  if (pcap_compile(dead, &program, expression, 1, PCAP_NETMASK_UNKNOWN) != 0) {
    pcap_perror(dead, "pcap_compile");
    exit(1);
  }
  return program;
}

static void time_all(int count, char **expressions) {
  for (int e = 0; e < count; e++) {
    struct bpf_program program = compiled(expressions[e]);
    for (int round = 0; round < ROUNDS; round++) {
      struct timespec from, to;
      clock_gettime(CLOCK_MONOTONIC, &from);
      uint64_t chosen = matching(&program);
      clock_gettime(CLOCK_MONOTONIC, &to);
      printf("%d %lld %llu\n", e + 1, (to.tv_sec - from.tv_sec) * 1000000000ll + to.tv_nsec - from.tv_nsec,
             (unsigned long long)chosen);
    }
  }
}

int main(int count, char **words) {
  if (count == 2 && strcmp(words[1], "frames") == 0) {
    write_frames();
    return 0;
  }
  read_frames();
  if (count > 2 && strcmp(words[1], "time") == 0) {
    time_all(count - 2, words + 2);
  } else if (count == 3 && strcmp(words[1], "call") == 0) {
    struct bpf_program program = compiled(words[2]);
    printf("%llu\n", (unsigned long long)matching(&program));
  } else {
    fprintf(stderr, "usage: filters frames | time EXPRESSION.. | call EXPRESSION\n");
    return 2;
  }
  return 0;
}
