#!/bin/sh
# run.sh UPSTREAM_FOLDER [ARRAYVEC_FOLDER]: times a packet taken apart in one call, in a loop over Ethernet frames in memory, beside
# the same written by hand in Rust on the Rust crate. README.md of bench/ says what it needs.
set -eu
[ $# -ge 1 ] && [ $# -le 2 ] || {
  echo "usage: [ROUNDS=301] [LAYOUTS='16 32 48 64'] [CPU=n] run.sh UPSTREAM_FOLDER [ARRAYVEC_FOLDER]" >&2
  exit 2
}
here=$(CDPATH= cd -- "$(dirname -- "$0")" && pwd)
upstream=$(CDPATH= cd -- "$1" && pwd)
out=$here/../out/packet
level=x86-64-v2
rounds=${ROUNDS:-301}
layouts=${LAYOUTS:-16 32 48 64}
mkdir -p "$out/room"
arrayvec=
for folder in ${2:+"$2"} "$upstream/vendor/arrayvec" "$upstream"/../arrayvec-0.7.*; do
  if [ -f "$folder/src/lib.rs" ]; then
    arrayvec=$folder
    break
  fi
done
[ -n "$arrayvec" ] || {
  echo "run.sh: no arrayvec 0.7 in or beside $upstream: name its folder" >&2
  exit 2
}

# The libraries and the loop in Rattle, in a repository of their own, since no proof of a library needs the loop. What was proved
# here before is taken over, and kept for the next time.
room=$out/room
for crate in etherparse_base etherparse_fields etherparse etherparse_net packet_parts etherparse_transport etherparse_link packet_links packet; do
  mkdir -p "$room/crates/$crate"
  for part in src specs proofs; do
    rm -rf "$room/crates/$crate/$part"
    cp -r "$here/../../crates/$crate/$part" "$room/crates/$crate/$part"
  done
  if [ -d "$here/../../crates/$crate/out" ] && [ ! -d "$room/crates/$crate/out" ]; then
    cp -r "$here/../../crates/$crate/out" "$room/crates/$crate/out"
  fi
  grep "^$crate[: ]" "$here/../../crates.txt"
done > "$room/crates.txt"
echo 'frames staticlib: etherparse etherparse_link packet_links packet_parts packet' >> "$room/crates.txt"
mkdir -p "$room/crates/frames/src"
cp "$here/frames.rt.txt" "$room/crates/frames/src/lib.rt" # the gate wants no other Rattle file beside the crates
(cd "$room/crates/frames" && rt lib "--cpu=$level") > "$out/frames.txt" 2>&1 || {
  cat "$out/frames.txt" >&2
  exit 1
}

compile() {
  rustc -C opt-level=3 -C "target-cpu=$level" -C codegen-units=1 --cap-lints allow -L "$out" --out-dir "$out" "$@"
}
compile --edition 2018 --crate-type rlib --crate-name arrayvec "$arrayvec/src/lib.rs"
compile --edition 2021 --crate-type rlib --crate-name etherparse "$upstream/src/lib.rs" \
  --extern arrayvec="$out/libarrayvec.rlib"
compile --edition 2021 --crate-type staticlib --crate-name frames_in_rust -C lto=fat "$here/frames.rs" \
  --extern etherparse="$out/libetherparse.rlib"

# Each loop as a shared object whose functions begin so many bytes further on, as in ../run.sh.
link() {
  printf '{ global: %s_frames; bench_offset; local: *; };\n' "$1" > "$out/$1.map"
  cc -shared -o "$folder/lib$1.so" "$folder/offset.o" "-Wl,--version-script=$out/$1.map" -Wl,--gc-sections \
    -Wl,--whole-archive "$2" -Wl,--no-whole-archive -lgcc_s -lpthread -lm -ldl
}
for layout in $layouts; do
  folder=$out/layout-$layout
  mkdir -p "$folder"
  printf '.text\n.globl bench_offset\nbench_offset:\n.skip %s\n.section .note.GNU-stack\n' "$layout" > "$folder/offset.s"
  cc -c -o "$folder/offset.o" "$folder/offset.s"
  link rust "$out/libframes_in_rust.a"
  link proved "$room/crates/frames/out/libframes.a"
done
compile --edition 2021 --crate-type bin --crate-name packet_bench -L "$folder" -l dylib=rust -l dylib=proved "$here/main.rs"

# One processor: the last of those that this process may use, or the one that CPU names.
cpu=${CPU:-$(taskset -cp $$ | sed 's/.*[ ,-]//')}
sed -n 's/^model name[^:]*: /processor: /p' /proc/cpuinfo | head -n 1
echo "compilers: $(rustc --version), $(rt version | head -n 1); level: $level"
LD_LIBRARY_PATH=$folder taskset -c "$cpu" "$out/packet_bench" compare
for layout in $layouts; do
  echo "$rounds rounds, layout $layout:"
  LD_LIBRARY_PATH=$out/layout-$layout taskset -c "$cpu" "$out/packet_bench" time "$rounds"
done
command -v valgrind > /dev/null || exit 0
for column in 0 1; do
  LD_LIBRARY_PATH=$folder valgrind --tool=callgrind --callgrind-out-file=/dev/null --collect-atstart=no \
    --toggle-collect='*_frames' "$out/packet_bench" call "$column" 8 2>&1 > /dev/null |
    awk -v column="$column" '/Collected/ { printf "%s %.1f instructions a frame\n", column ? "proved" : "in Rust, lto", $4 / 8 / 4096 }'
done
