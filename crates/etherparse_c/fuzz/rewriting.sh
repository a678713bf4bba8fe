#!/bin/sh
# rewriting.sh [COUNT [SEED]]: calls every function of etherparse_rewriting.h on COUNT packets and segments, by default 10,000,000, from
# a program in C under gcc's address and undefined-behaviour sanitizers, and compares each answer, and each packet after it, with a
# reference in C written from the RFCs (reference_rewriting.c). Each buffer begins or ends at a page that faults.
set -eu
here=$(CDPATH= cd -- "$(dirname -- "$0")" && pwd)
. "$here/library.sh"
build rewriting "$here/rewriting.c" "$here/reference_rewriting.c" "$here/inputs.c" "$here/reference.c" \
  "$here/reference_packets.c"
"$out/rewriting" "${1:-10000000}" 86400 "${2:-0}"
