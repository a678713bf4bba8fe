#!/bin/sh
# fuzz.sh [REFERENCE [COUNT [SEED]]]: calls every function of etherparse.h on COUNT inputs, by default 10,000,000, from a program in
# C under gcc's address and undefined-behaviour sanitizers, and compares each result with that of a reference in C written from the
# RFCs (reference.c). Each buffer begins or ends at a page that faults. With REFERENCE, the program of comparison/ over the Rust
# crate, the results for a sample of the packets are compared with the crate's too; an empty REFERENCE is none.
set -eu
here=$(CDPATH= cd -- "$(dirname -- "$0")" && pwd)
. "$here/library.sh"
reference=${1:-}
count=${2:-10000000}
seed=${3:-0}
build fuzz "$here/fuzz.c" "$here/inputs.c" "$here/packets.c" "$here/reference.c" "$here/reference_packets.c"
"$out/fuzz" "$count" 86400 500 "$out/cases.txt" "$out/answers.txt" "$seed"
[ -n "$reference" ] || exit 0
"$reference" < "$out/cases.txt" > "$out/expected.txt"
cmp "$out/expected.txt" "$out/answers.txt"
echo "$(wc -l < "$out/cases.txt") answers are the Rust crate's."
