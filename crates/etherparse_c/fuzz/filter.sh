#!/bin/sh
# filter.sh [COUNT [SEED]]: compiles COUNT random expressions, by default 100,000, and asks each for 64 random frames, from a program in C
# under gcc's address and undefined-behaviour sanitizers, and compares each answer with that of libpcap's bpf_filter; and compiles as
# many texts of random words. Then it asks ten times as many expressions for 16 random frames, and compares each answer with what the
# words say of the frame (meaning.c). Frames and texts end at a page that faults. Without libpcap and its header it does the latter alone.
set -eu
here=$(CDPATH= cd -- "$(dirname -- "$0")" && pwd)
. "$here/library.sh"
count=${1:-100000}
if echo '#include <pcap/pcap.h>' | gcc -E - > "$out/header.txt" 2>&1; then
  build filter "$here/filter.c" -lpcap
  "$out/filter" "$count" "${2:-0}"
else
  echo "left out: libpcap's header is not there"
fi
build meaning "$here/meaning.c" "$here/inputs.c" "$here/reference.c" "$here/reference_packets.c"
"$out/meaning" "$((10 * count))" 86400 "${2:-0}"
