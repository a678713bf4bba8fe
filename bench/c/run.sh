#!/bin/sh
# run.sh: times packets taken apart by the library for C, in batches without checksums, beside the same in C by hand and beside DPDK's
# rte_net_get_ptype. It needs `rt` (without it the archive of crates/etherparse_c is taken as it is), `cc` or clang, and taskset; with
# libdpdk-dev it has the row of DPDK, and with valgrind it counts instructions and mispredicted branches too.
set -eu
[ $# -eq 0 ] || {
  echo "usage: [COMPILERS='cc clang'] [LAYOUTS='16 32 48 64'] [CPU=n] run.sh" >&2
  exit 2
}
here=$(CDPATH= cd -- "$(dirname -- "$0")" && pwd)
out=$here/../out/c
library=$here/../../crates/etherparse_c
level=x86-64-v2
mkdir -p "$out"
if command -v rt > /dev/null; then
  (cd "$library" && rt lib "--cpu=$level") > "$out/library.txt" 2>&1 || {
    cat "$out/library.txt" >&2
    exit 1
  }
fi
flags= libraries=
if pkg-config --exists libdpdk 2> /dev/null; then
  flags="-DWITH_DPDK $(pkg-config --cflags libdpdk)"
  libraries='-lrte_net -lrte_mbuf -lrte_eal'
  echo "DPDK $(pkg-config --modversion libdpdk)"
else
  echo 'no row of DPDK: there is no libdpdk-dev'
fi

# One processor: the last of those that this process may use, or the one that CPU names.
cpu=${CPU:-$(taskset -cp $$ | sed 's/.*[ ,-]//')}
sed -n 's/^model name[^:]*: /processor: /p' /proc/cpuinfo | head -n 1
for compiler in ${COMPILERS:-cc clang}; do
  command -v "$compiler" > /dev/null || continue
  echo "by hand: $("$compiler" --version | head -n 1), -O3 -march=$level"
  for layout in ${LAYOUTS:-16 32 48 64}; do
    # What comes after these bytes begins so much further on, as in ../run.sh.
    printf '.text\n.skip %s\n.section .note.GNU-stack\n' "$layout" > "$out/offset.s"
    # shellcheck disable=SC2086 # lists of words
    "$compiler" -std=gnu11 -O3 $flags "-march=$level" -I "$library/include" -o "$out/packets-$layout" "$out/offset.s" "$here/packets.c" \
      "$library/out/libetherparse_c.a" $libraries
    "$out/packets-$layout" compare
    echo "layout $layout:"
    taskset -c "$cpu" "$out/packets-$layout" time
  done
  command -v valgrind > /dev/null || continue
  for way in library same own ${flags:+dpdk}; do
    valgrind --tool=callgrind --branch-sim=yes --callgrind-out-file=/dev/null --toggle-collect=by_library --toggle-collect=by_hand_same \
      --toggle-collect=by_hand_own --toggle-collect=by_dpdk "$out/packets-$layout" "$way" 2>&1 |
      awk -v way="$way" '/Collected/ { instructions = $4 } /Mispredicts:/ { gsub(",", "", $3); missed = $3 }
        END { printf "%-8s %6.1f instructions a frame, %.2f mispredicted branches by a simple model\n", way, instructions / 4096, missed / 4096 }'
  done
done
