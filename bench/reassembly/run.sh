#!/bin/sh
# run.sh: times fragments that are put together, beside the same in C by a bitmap and beside copying their bytes alone.
# It needs `rt`, `cc`, `taskset` and python3.
set -eu
[ $# -eq 0 ] || {
  echo "usage: [RUNS=5] [CPU=n] run.sh" >&2
  exit 2
}
here=$(CDPATH= cd -- "$(dirname -- "$0")" && pwd)
out=$here/../out/reassembly
runs=${RUNS:-5}
mkdir -p "$out"

# The libraries and the program in Rattle, in a repository of their own, since no proof of a library needs the program. What was
# proved here before is taken over, and kept for the next time.
room=$out/room
mkdir -p "$room"
for crate in etherparse_base etherparse_fields etherparse etherparse_net packet_parts packet_reassembly; do
  mkdir -p "$room/crates/$crate"
  for part in src specs proofs; do
    rm -rf "$room/crates/$crate/$part"
    cp -r "$here/../../crates/$crate/$part" "$room/crates/$crate/$part"
  done
  if [ -d "$here/../../crates/$crate/out" ] && [ ! -d "$room/crates/$crate/out" ]; then
    cp -r "$here/../../crates/$crate/out" "$room/crates/$crate/out"
  fi
  grep "^$crate[: ]" "$here/../../crates.txt"
done > "$room/crates.txt"
echo 'fragments: etherparse packet_reassembly' >> "$room/crates.txt"
mkdir -p "$room/crates/fragments/src" "$room/crates/fragments/proofs/main"
cp "$here/main.rt.txt" "$room/crates/fragments/src/main.rt" # the gate wants no other Rattle file beside the crates
cp "$here/Invariants.antt.txt" "$room/crates/fragments/proofs/main/Invariants.antt"
(cd "$room/crates/fragments" && rt run < /dev/null) > "$out/fragments.txt" 2>&1 || {
  cat "$out/fragments.txt" >&2
  exit 1
}
cc -O3 -march=x86-64-v2 -o "$out/peer" "$here/pieces.c"

# One processor: the last of those that this process may use, or the one that CPU names.
cpu=${CPU:-$(taskset -cp $$ | sed 's/.*[ ,-]//')}
sed -n 's/^model name[^:]*: /processor: /p' /proc/cpuinfo | head -n 1
echo "compilers: $(cc --version | head -n 1), $(rt version | head -n 1)"
python3 "$here/table.py" "$out/peer" "$room/crates/fragments/out/fragments" "$runs" "$cpu"
