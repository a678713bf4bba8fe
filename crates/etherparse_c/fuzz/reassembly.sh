#!/bin/sh
# reassembly.sh [COUNT [SEED]]: calls every function of etherparse_reassembly.h on COUNT fragments and packets, by default 10,000,000,
# from a program in C under gcc's address and undefined-behaviour sanitizers, and compares each answer and each datagram with a
# reference in C written from the RFCs (reference_reassembly.c). Each buffer ends at a page that faults.
set -eu
here=$(CDPATH= cd -- "$(dirname -- "$0")" && pwd)
. "$here/library.sh"
build reassembly "$here/reassembly.c" "$here/reference_reassembly.c" "$here/inputs.c" "$here/reference.c" \
  "$here/reference_packets.c"
"$out/reassembly" "${1:-10000000}" 86400 "${2:-0}"
