#!/bin/sh
# run.sh: times packets that are built in memory, in a loop over plans, beside the same written by hand in Rust.
# README.md of bench/ says what it needs.
set -eu
[ $# -eq 0 ] || {
  echo "usage: [ROUNDS=301] [LAYOUTS='16 32 48 64'] [CPU=n] run.sh" >&2
  exit 2
}
here=$(CDPATH= cd -- "$(dirname -- "$0")" && pwd)
out=$here/../out/building
level=x86-64-v2
rounds=${ROUNDS:-301}
layouts=${LAYOUTS:-16 32 48 64}
mkdir -p "$out/room"

# The libraries and the loop in Rattle, in a repository of their own, as in ../packet/run.sh.
room=$out/room
for crate in etherparse_base etherparse_fields etherparse etherparse_net packet_parts etherparse_transport etherparse_icmp etherparse_link packet_links \
  packet packet_builder; do
  mkdir -p "$room/crates/$crate"
  for part in src specs proofs; do
    rm -rf "$room/crates/$crate/$part"
    cp -r "$here/../../crates/$crate/$part" "$room/crates/$crate/$part"
  done
  if [ -d "$here/../../crates/$crate/out" ] && [ ! -d "$room/crates/$crate/out" ]; then
    cp -r "$here/../../crates/$crate/out" "$room/crates/$crate/out"
  fi
  grep "^$crate[: ]" "$here/../../crates.txt"
done > "$room/crates.txt"
echo 'building staticlib: etherparse_link packet_builder' >> "$room/crates.txt"
mkdir -p "$room/crates/building/src"
cp "$here/building.rt.txt" "$room/crates/building/src/lib.rt" # the gate wants no other Rattle file beside the crates
(cd "$room/crates/building" && rt lib "--cpu=$level") > "$out/building.txt" 2>&1 || {
  cat "$out/building.txt" >&2
  exit 1
}

compile() {
  rustc -C opt-level=3 -C "target-cpu=$level" -C codegen-units=1 --edition 2021 -L "$out" --out-dir "$out" "$@"
}
compile --crate-type staticlib --crate-name building_in_rust -C lto=fat "$here/building.rs"

# Each loop as a shared object whose functions begin so many bytes further on, as in ../run.sh.
link() {
  printf '{ global: %s_packets; bench_offset; local: *; };\n' "$1" > "$out/$1.map"
  cc -shared -o "$folder/lib$1.so" "$folder/offset.o" "-Wl,--version-script=$out/$1.map" -Wl,--gc-sections \
    -Wl,--whole-archive "$2" -Wl,--no-whole-archive -lgcc_s -lpthread -lm -ldl
}
for layout in $layouts; do
  folder=$out/layout-$layout
  mkdir -p "$folder"
  printf '.text\n.globl bench_offset\nbench_offset:\n.skip %s\n.section .note.GNU-stack\n' "$layout" > "$folder/offset.s"
  cc -c -o "$folder/offset.o" "$folder/offset.s"
  link rust "$out/libbuilding_in_rust.a"
  link proved "$room/crates/building/out/libbuilding.a"
done
compile --crate-type bin --crate-name building_bench -L "$folder" -l dylib=rust -l dylib=proved "$here/main.rs"

# One processor: the last of those that this process may use, or the one that CPU names.
cpu=${CPU:-$(taskset -cp $$ | sed 's/.*[ ,-]//')}
sed -n 's/^model name[^:]*: /processor: /p' /proc/cpuinfo | head -n 1
echo "compilers: $(rustc --version), $(rt version | head -n 1); level: $level"
LD_LIBRARY_PATH=$folder taskset -c "$cpu" "$out/building_bench" compare
for layout in $layouts; do
  echo "$rounds rounds, layout $layout:"
  LD_LIBRARY_PATH=$out/layout-$layout taskset -c "$cpu" "$out/building_bench" time "$rounds"
done
command -v valgrind > /dev/null || exit 0
for column in 0 1; do
  LD_LIBRARY_PATH=$folder valgrind --tool=callgrind --callgrind-out-file=/dev/null --collect-atstart=no \
    --toggle-collect='*_packets' "$out/building_bench" call "$column" 8 2>&1 > /dev/null |
    awk -v column="$column" '/Collected/ { printf "%s %.1f instructions a packet\n", column ? "proved" : "in Rust, lto", $4 / 8 / 4096 }'
done
