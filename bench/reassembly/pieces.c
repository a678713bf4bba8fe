/* Puts the fragments of one datagram together by a bitmap with a bit for each 8 bytes, as RFC 815
 * says what has come by its holes, and times it. What comes in, and what it writes, is as in
 * main.rt.txt; "pieces copy N" copies the bytes of each fragment to their place, and does nothing
 * else. A fragment that has bytes which have come ends the datagram, a duplicate too. */
#include <stdint.h>
#include <stdio.h>
#include <stdlib.h>
#include <string.h>
#include <time.h>

enum { ROUNDS = 201, MOST = 65535, WORDS = 8192 / 64 };

struct fragment {
  uint32_t start;
  int more;
  uint32_t len;
  const uint8_t *bytes;
};

static const uint8_t *fragments[8192];
static size_t lengths[8192];
static int count;
static uint8_t input[1 << 20];

static struct {
  uint64_t come[WORDS];
  uint32_t units, reach;
  int ended, dead;
  uint8_t bytes[MOST + 9];
} buffer;

static void read_fragments(void) {
  size_t len = fread(input, 1, sizeof input, stdin);
  const uint8_t *at = len < 2 ? input : input + 2 + input[0] + 256u * input[1];
  while (input + len - at >= 5 && count < 8192) {
    fragments[count] = at;
    lengths[count] = 5 + at[3] + 256u * at[4];
    at += lengths[count++];
  }
}

static struct fragment fragment_of(int i) {
  const uint8_t *at = fragments[i];
  struct fragment f = { 8 * (at[0] + 256u * at[1]), at[2], (uint32_t)lengths[i] - 5, at + 5 };
  return f;
}

static void clear(void) {
  memset(buffer.come, 0, sizeof buffer.come);
  buffer.units = buffer.reach = 0;
  buffer.ended = buffer.dead = 0;
}

/* The bits of the units from this one on, up to that one, in the word of the first. */
static uint64_t mask(uint32_t from, uint32_t to) {
  uint64_t low = ~0ull << from % 64;
  return to / 64 > from / 64 ? low : low & ((1ull << to % 64) - 1);
}

/* 0 if the fragment is refused. */
static int add(struct fragment f) {
  uint32_t end = f.start + f.len;
  if (f.len == 0 || (f.more && f.len % 8 != 0) || end > MOST) return 0;
  if (buffer.dead) return 1;
  if ((buffer.ended && end > buffer.reach) || (!f.more && end < buffer.reach)) {
    buffer.dead = 1;
    return 1;
  }
  uint32_t first = f.start / 8, past = (end + 7) / 8;
  for (uint32_t unit = first; unit < past; unit = (unit / 64 + 1) * 64) {
    if (buffer.come[unit / 64] & mask(unit, past)) {
      buffer.dead = 1;
      return 1;
    }
  }
  for (uint32_t unit = first; unit < past; unit = (unit / 64 + 1) * 64) {
    buffer.come[unit / 64] |= mask(unit, past);
  }
  memcpy(buffer.bytes + f.start, f.bytes, f.len);
  buffer.units += past - first;
  buffer.ended |= !f.more;
  if (end > buffer.reach) buffer.reach = end;
  return 1;
}

/* How long the datagram is; 0 if it is not whole. */
static size_t datagram(void) {
  return !buffer.dead && buffer.ended && buffer.units == (buffer.reach + 7) / 8 ? buffer.reach : 0;
}

__attribute__((noinline)) static size_t put_together(uint32_t times) {
  size_t total = 0;
  for (uint32_t time = 0; time < times; time++) {
    clear();
    for (int i = 0; i < count; i++) {
      if (!add(fragment_of(i))) return 0;
    }
    total += datagram();
  }
  return total;
}

__attribute__((noinline)) static size_t copy(uint32_t times) {
  for (uint32_t time = 0; time < times; time++) {
    for (int i = 0; i < count; i++) {
      struct fragment f = fragment_of(i);
      memcpy(buffer.bytes + f.start, f.bytes, f.len);
    }
    __asm__ volatile("" : : : "memory");
  }
  return times;
}

int main(int words, char **word) {
  read_fragments();
  if (words == 1) {
    put_together(1);
    return fwrite(buffer.bytes, 1, datagram(), stdout) != datagram();
  }
  int only_copy = words == 3 && strcmp(word[1], "copy") == 0;
  uint32_t times = (uint32_t)strtoul(word[words - 1], NULL, 10);
  for (int round = 0; round < ROUNDS; round++) {
    struct timespec from, to;
    clock_gettime(CLOCK_MONOTONIC, &from);
    size_t total = only_copy ? copy(times) : put_together(times);
    clock_gettime(CLOCK_MONOTONIC, &to);
    printf("%lld %zu\n", (to.tv_sec - from.tv_sec) * 1000000000ll + to.tv_nsec - from.tv_nsec, total);
  }
  return 0;
}
