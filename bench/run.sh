#!/bin/sh
# run.sh UPSTREAM_FOLDER [ARRAYVEC_FOLDER]: proves and builds the library, builds the Rust crate in two ways, links all in several
# layouts, compares their answers, times them, and prints a table. README.md says what it needs, and how to read what is printed.
set -eu
[ $# -ge 1 ] && [ $# -le 2 ] || {
  echo "usage: [LINUX_SUM=csum-partial_64.c] [ROUNDS=301] [LAYOUTS='16 32 48 64'] [LEVEL=x86-64-v2] [CPU=n] [FULL_SPEED=ns] run.sh UPSTREAM_FOLDER [ARRAYVEC_FOLDER]" >&2
  exit 2
}
here=$(CDPATH= cd -- "$(dirname -- "$0")" && pwd)
upstream=$(CDPATH= cd -- "$1" && pwd)
out=$here/out
level=${LEVEL:-x86-64-v2}
rounds=${ROUNDS:-301}
layouts=${LAYOUTS:-16 32 48 64}
mkdir -p "$out/room"

for tool in rt rustc cc taskset; do
  command -v "$tool" > /dev/null || {
    echo "run.sh: there is no $tool" >&2
    exit 2
  }
done

# The one crate that the Rust crate stands on: named, or in its folder, or beside it, where cargo unpacks both.
arrayvec=
for folder in ${2:+"$2"} "$upstream/vendor/arrayvec" "$upstream"/../arrayvec-0.7.*; do
  if [ -f "$folder/src/lib.rs" ]; then
    arrayvec=$folder
    break
  fi
done
[ -n "$arrayvec" ] || {
  echo "run.sh: no arrayvec 0.7 in or beside $upstream: name its folder" >&2
  exit 2
}

# The proved library, and the loops in Rattle: in a repository of their own, since no proof of the library needs the loops. What
# was proved here before is taken over, and kept for the next time.
room=$out/room
crates=$("$here/../crates/etherparse_c/below.sh")
for crate in $crates; do
  mkdir -p "$room/crates/$crate"
  for part in src specs proofs; do
    rm -rf "$room/crates/$crate/$part"
    cp -r "$here/../crates/$crate/$part" "$room/crates/$crate/$part"
  done
  if [ -d "$here/../crates/$crate/out" ] && [ ! -d "$room/crates/$crate/out" ]; then
    cp -r "$here/../crates/$crate/out" "$room/crates/$crate/out"
  fi
  grep "^$crate[: ]" "$here/../crates.txt"
done > "$room/crates.txt"
echo 'loops staticlib: etherparse arrayvec' >> "$room/crates.txt"
mkdir -p "$room/crates/loops/src"
cp "$here/src/loops.rt.txt" "$room/crates/loops/src/lib.rt" # the gate wants no other Rattle file beside the crates
for crate in etherparse_c loops; do
  (cd "$room/crates/$crate" && rt lib "--cpu=$level") > "$out/$crate.txt" 2>&1 || {
    cat "$out/$crate.txt" >&2
    exit 1
  }
done

# The Rust crate as a dependency is built, and with link-time optimisation over it, its callers and std.
compile() {
  rustc -C opt-level=3 -C "target-cpu=$level" -C codegen-units=1 --cap-lints allow -L "$out" --out-dir "$out" "$@"
}
compile --edition 2018 --crate-type rlib --crate-name arrayvec "$arrayvec/src/lib.rs"
compile --edition 2021 --crate-type rlib --crate-name etherparse "$upstream/src/lib.rs" \
  --extern arrayvec="$out/libarrayvec.rlib"
compile --edition 2021 --crate-type staticlib --crate-name upstream "$here/src/upstream.rs" \
  --extern etherparse="$out/libetherparse.rlib"
compile --edition 2021 --crate-type staticlib --crate-name upstream_lto -C lto=fat "$here/src/upstream.rs" \
  --extern etherparse="$out/libetherparse.rlib"
compile --edition 2021 --crate-type bin --crate-name bench "$here/src/main.rs"

# Each as a shared object whose functions begin so many bytes further on: so each layout has other functions across a boundary
# of 32 or 64 bytes.
link() {
  printf '{ global: %s; local: *; };\n' "$2_*; bench_offset" > "$out/$1.map"
  cc -shared -o "$folder/$1.so" "$folder/offset.o" "-Wl,--version-script=$out/$1.map" -Wl,--gc-sections \
    -Wl,--whole-archive $3 -Wl,--no-whole-archive -lgcc_s -lpthread -lm -ldl
}
for layout in $layouts; do
  folder=$out/layout-$layout
  mkdir -p "$folder"
  printf '.text\n.globl bench_offset\nbench_offset:\n.skip %s\n.section .note.GNU-stack\n' "$layout" > "$folder/offset.s"
  cc -c -o "$folder/offset.o" "$folder/offset.s"
  link upstream upstream "$out/libupstream.a"
  link upstream_lto upstream "$out/libupstream_lto.a"
  link proved etherparse "$room/crates/etherparse_c/out/libetherparse_c.a $room/crates/loops/out/libloops.a"
  rm -f "$folder/linux.so"
  if [ -n "${LINUX_SUM:-}" ]; then
    cc -O2 "-march=$level" -fPIC -c -o "$folder/linux.o" -I "$here/linux/include" -I "$here/linux" \
      "-DLINUX_SUM=\"$(realpath "$LINUX_SUM")\"" "$here/linux/sum.c"
    cc -shared -o "$folder/linux.so" "$folder/offset.o" "$folder/linux.o"
  fi
done
[ -n "${LINUX_SUM:-}" ] || echo "LINUX_SUM names no csum-partial_64.c of Linux, so its column is left out."

# One processor: the last of those that this process may use, or the one that CPU names.
cpu=${CPU:-$(taskset -cp $$ | sed 's/.*[ ,-]//')}
sed -n 's/^model name[^:]*: /processor: /p' /proc/cpuinfo | head -n 1
echo "compilers: $(rustc --version), $(rt version | head -n 1); level: $level"
set -- $layouts
taskset -c "$cpu" "$out/bench" compare "$out/layout-$1"
files=
for layout in $layouts; do
  taskset -c "$cpu" "$out/bench" time "$out/layout-$layout" "$rounds" > "$out/times-$layout.tsv"
  files="$files $out/times-$layout.tsv"
done
echo "$rounds rounds in each of $# layouts:"
echo
exec "$out/bench" table $files
