#!/bin/sh
# run.sh: times filters over Ethernet frames in memory, beside libpcap's bpf_filter with its optimised program over the same frames.
# It needs `rt`, `cc`, `taskset`, python3 and libpcap with its header; with valgrind it counts instructions too.
set -eu
[ $# -eq 0 ] || {
  echo "usage: [RUNS=15] [CPU=n] run.sh" >&2
  exit 2
}
here=$(CDPATH= cd -- "$(dirname -- "$0")" && pwd)
out=$here/../out/filter
runs=${RUNS:-15}
mkdir -p "$out"

# The libraries and the program in Rattle, in a repository of their own, since no proof of a library needs the program. What was
# proved here before is taken over, and kept for the next time.
room=$out/room
mkdir -p "$room"
for crate in etherparse_base etherparse_fields etherparse etherparse_net packet_parts etherparse_transport etherparse_link packet_links packet packet_filter; do
  mkdir -p "$room/crates/$crate"
  for part in src specs proofs; do
    rm -rf "$room/crates/$crate/$part"
    cp -r "$here/../../crates/$crate/$part" "$room/crates/$crate/$part"
  done
  if [ -d "$here/../../crates/$crate/out" ] && [ ! -d "$room/crates/$crate/out" ]; then
    cp -r "$here/../../crates/$crate/out" "$room/crates/$crate/out"
  fi
  grep "^$crate[: ]" "$here/../../crates.txt"
done > "$room/crates.txt"
echo 'filters: packet packet_filter' >> "$room/crates.txt"
mkdir -p "$room/crates/filters/src" "$room/crates/filters/proofs/main"
cp "$here/main.rt.txt" "$room/crates/filters/src/main.rt" # the gate wants no other Rattle file beside the crates
cp "$here/Invariants.antt.txt" "$room/crates/filters/proofs/main/Invariants.antt"
(cd "$room/crates/filters" && rt run < /dev/null) > "$out/filters.txt" 2>&1 || {
  cat "$out/filters.txt" >&2
  exit 1
}
cc -O2 -o "$out/peer" "$here/filters.c" -lpcap
"$out/peer" frames > "$out/frames"

# One processor: the last of those that this process may use, or the one that CPU names.
cpu=${CPU:-$(taskset -cp $$ | sed 's/.*[ ,-]//')}
sed -n 's/^model name[^:]*: /processor: /p' /proc/cpuinfo | head -n 1
echo "compilers: $(cc --version | head -n 1), $(rt version | head -n 1); $(pcap-config --version 2> /dev/null || :)"
python3 "$here/table.py" "$out/peer" "$room/crates/filters/out/filters" "$out/frames" "$runs" "$cpu"
