/* batch time|bpf|batch|each EXPRESSION.. < FRAMES: asks filters about Ethernet frames, each after its length in four bytes, by libpcap's
   bpf_filter, and by the library for C in one call for all frames and frame by frame. `time` prints for each expression the least of all
   rounds for one frame, in nanoseconds, and the median of the rounds' ratios; the other words are for a program that counts instructions. */
#define _DEFAULT_SOURCE
#include "etherparse_filter.h"

#include <pcap/pcap.h>
#include <stdio.h>
#include <stdlib.h>
#include <string.h>
#include <time.h>

enum { FRAMES = 1024, ROUNDS = 63, TURNS = 16 };

static struct etherparse_frame frames[FRAMES];
static bool answers[FRAMES];

static void read_frames(void) {
  static uint8_t room[FRAMES * 1600];
  uint8_t *at = room;
  uint8_t front[4];
  for (int i = 0; i < FRAMES && fread(front, 1, sizeof front, stdin) == sizeof front; i++) {
    size_t len = front[0] + 256u * front[1];
    if (fread(at, 1, len, stdin) != len) abort();
    frames[i] = (struct etherparse_frame){ at, len, len };
    at += len;
  }
}

__attribute__((noinline)) static void by_peer(const struct bpf_program *program) {
  for (int turn = 0; turn < TURNS; turn++) {
    for (int i = 0; i < FRAMES; i++) {
      answers[i] = bpf_filter(program->bf_insns, frames[i].at, (u_int)frames[i].original_len, (u_int)frames[i].len) != 0;
    }
  }
}

__attribute__((noinline)) static void in_batches(struct etherparse_filter *filter) {
  for (int turn = 0; turn < TURNS; turn++) {
    etherparse_filter_matches_batch(filter, ETHERPARSE_LINKTYPE_ETHERNET, frames, FRAMES, answers, FRAMES);
  }
}

__attribute__((noinline)) static void one_by_one(struct etherparse_filter *filter) {
  for (int turn = 0; turn < TURNS; turn++) {
    for (int i = 0; i < FRAMES; i++) {
      answers[i] = etherparse_filter_matches(filter, ETHERPARSE_LINKTYPE_ETHERNET, frames[i].at, frames[i].len, frames[i].original_len);
    }
  }
}

static double now(void) {
  struct timespec time;
  clock_gettime(CLOCK_MONOTONIC, &time);
  return (double)time.tv_sec * 1e9 + (double)time.tv_nsec;
}

static size_t chosen(void) {
  size_t count = 0;
  for (int i = 0; i < FRAMES; i++) count += answers[i];
  return count;
}

static int ascending(const void *a, const void *b) {
  double x = *(const double *)a, y = *(const double *)b;
  return (x > y) - (x < y);
}

static void time_all(struct bpf_program *program, struct etherparse_filter *filter) {
  static double ratios[3][ROUNDS];
  double least[3] = { 1e18, 1e18, 1e18 };
  for (int round = 0; round < ROUNDS; round++) {
    double took[3];
    size_t counts[3];
    for (int way = 0; way < 3; way++) {
      double from = now();
      if (way == 0) by_peer(program);
      if (way == 1) in_batches(filter);
      if (way == 2) one_by_one(filter);
      took[way] = (now() - from) / (FRAMES * TURNS);
      if (took[way] < least[way]) least[way] = took[way];
      ratios[way][round] = took[way] / took[0];
      counts[way] = chosen();
    }
    if (counts[0] != counts[1] || counts[0] != counts[2]) abort();
  }
  for (int way = 1; way < 3; way++) qsort(ratios[way], ROUNDS, sizeof(double), ascending);
  printf("bpf_filter %.1f ns, in one call %.1f ns (%.2f), frame by frame %.1f ns (%.2f)\n", least[0], least[1], ratios[1][ROUNDS / 2], least[2],
         ratios[2][ROUNDS / 2]);
}

int main(int count, char **words) {
  read_frames();
  for (int e = 2; e < count; e++) {
    struct bpf_program program;
    struct etherparse_filter filter;
    struct etherparse_filter_refusal refusal;
    pcap_t *dead = pcap_open_dead(DLT_EN10MB, 65535);
    if (pcap_compile(dead, &program, words[e], 1, PCAP_NETMASK_UNKNOWN)) return 1;
    if (!etherparse_filter_from_text(words[e], strlen(words[e]), &filter, &refusal)) return 1;
    if (strcmp(words[1], "time") == 0) time_all(&program, &filter);
    if (strcmp(words[1], "bpf") == 0) by_peer(&program);
    if (strcmp(words[1], "batch") == 0) in_batches(&filter);
    if (strcmp(words[1], "each") == 0) one_by_one(&filter);
  }
  return 0;
}
