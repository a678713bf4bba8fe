#!/usr/bin/env bash
# callers.sh [--after-ci]: builds the static library for C, and callers of it in C, C++ and Rust, and
# runs these, as many at a time as there are processors: what it needs and what it exports; worked
# values through each header file; the examples in each dialect of each compiler, whose output has to
# be that of the file beside the example; the commands of the page in a fresh folder, each way to link,
# and the safe Rust crate. With --after-ci it takes the crates below as `rt ci` has just proved them,
# and proves the library alone. It names each compiler that is missing and leaves it out. The last line
# is 'N passed, M failed, K left out'.
set -euo pipefail
here=$(cd "$(dirname "$0")" && pwd)
crates=$(dirname "$here")
out=$here/out/callers
rm -rf "$out"
mkdir -p "$out"
processors=$(nproc)
tries=0
left_out=0
library=etherparse_c

# Runs a command under a name in a folder of its own, `$room`, beside others. What it says comes when
# all have ended, if it fails.
try() {
  local name=$1 room=$out/$((tries += 1))
  shift
  while (($(jobs -rp | wc -l) >= processors)); do wait -n || :; done
  mkdir "$room"
  {
    if "$@" > "$room/said.txt" 2>&1; then
      echo "ok: $name" > "$room/line.txt"
    else
      { echo "FAILED: $name"; sed 's/^/    /' "$room/said.txt" | head -40; } > "$room/line.txt"
    fi
  } &
}

leave_out() {
  left_out=$((left_out + 1))
  echo "left out: $1"
}

has() { command -v "$1" > /dev/null; }

# Builds the library on top of the proved crates that `rt ci` left. They have no stamp, so `rt lib` would
# prove them once more. Of a static library `rt ci` leaves nothing that a build can take, so it is proved
# here too; what was proved is kept for the next time, if no other run of this script uses that. A crate
# that crates.txt does not list is the kit's.
build_after_ci() {
  local kit below words=() kept=${XDG_CACHE_HOME:-${HOME-}/.cache}/$library
  kit=$(dirname "$(dirname "$(readlink -f "$(command -v rt)")")")
  for below in std $(sed -n "s/^$library .*: *//p" "$crates/../crates.txt"); do
    words+=(--extern "$below=$(find "$kit/rlibs" "$crates/$below/out/rlib" -maxdepth 1 -name "$below.rlib" 2> /dev/null)")
  done
  words+=(-L "dependency=$kit/rlibs")
  for below in $("$here/below.sh"); do words+=(-L "dependency=$crates/$below/out/rlib"); done
  words+=(--antt-project "$kit/rattle/logic/antt-project.json" --logic-built "$kit/logic_built" --jobs 1)
  words+=(--links "$library=" --crate-type staticlib --toolchain "$kit/toolchain" --backend llvm)
  mkdir -p "$kept" && exec 9> "$kept.lock" && flock --nonblock 9 && words+=(--incremental "$kept")
  (cd "$crates/$library" && mkdir -p out &&
    "$kit/bin/rattle" build --crate-name "$library" src/lib.rt "${words[@]}" -o "out/lib$library.a")
}

build_alone() { (cd "$here" && rt lib); }

# Whether the library as `rt` builds it needs these functions of the C library, which compilers call by
# themselves, and nothing else, and exports its calls alone.
stands_alone() {
  nm --undefined-only "$built" | awk '$1 == "U" { print $2 }' | sort -u > "$room/needed.txt"
  nm --defined-only --extern-only "$built" | grep -E ' [A-Z] ' > "$room/exported.txt"
  printf '%s\n' memcpy memmove memset | diff - "$room/needed.txt" &&
    ! grep -v ' T etherparse_' "$room/exported.txt"
}

needs_nothing() { ! nm --undefined-only "$1" | grep ' U '; }

# Builds a program by a command, and runs it.
runs() { "$@" -o "$room/program" && "$room/program"; }

# The same, and compares what it prints with a file.
prints() {
  local expected=$1
  shift
  runs "$@" > "$room/printed.txt" && diff "$expected" "$room/printed.txt"
}

# Compiles the worked values of all header files to one program, which is to be linked: in a folder, by a
# command.
compile_all() {
  local name folder=$1
  shift
  mkdir "$folder"
  {
    printf 'int %s_cases(void);\n' "${headers[@]}"
    echo 'int main(void) { return 0'
    printf ' | %s_cases()\n' "${headers[@]}"
    echo '; }'
  } > "$folder/main.c"
  "$@" -c "$folder/main.c" -o "$folder/main.o" || return 1
  for name in "${headers[@]}"; do
    "$@" "${strict[@]}" -std=c11 -Dmain="${name}_cases" -c "$here/tests/$name.c" -o "$folder/$name.o" || return 1
  done
}

links_static() { echo 'int main(void) { return 0; }' | "$1" -xc -static -o "$out/static" - 2> /dev/null; }

# The library, and its archive with all header files.
builder=build_alone
[[ ${1:-} == --after-ci ]] && builder=build_after_ci
built=$here/out/lib$library.a
headers=(etherparse filter reassembly rewriting)
try "$library is built" "$builder"
wait
make -C "$here" archive > "$out/archive.txt" 2>&1 || { cat "$out"/*/line.txt "$out/archive.txt"; exit 1; }
archive=$here/out/lib/libetherparse_c.a
strict=(-O2 -Wall -Wextra -Wpedantic -Wconversion -Wshadow -Werror -I "$here/out/include")

# Each way to link, by a compiler.
linked() {
  local compiler=$1 all=$out/$1
  try "$compiler, all in one program" runs "$compiler" "$all"/*.o "$archive"
  try "$compiler, all in one program, of the archive that rt leaves" runs "$compiler" "$all"/*.o "$built"
  try "$compiler, named twice" runs "$compiler" "$all"/*.o "$archive" "$archive"
  try "$compiler, shared" runs "$compiler" "$all"/*.o "$out/libetherparse_c.so" "-Wl,-rpath,$out"
  if [[ $compiler == gcc ]] || has ld.lld; then
    try "$compiler, -flto" runs "$compiler" -flto "$all-flto"/*.o "$archive"
  else
    leave_out "$compiler, -flto: ld.lld is not there"
  fi
  if links_static "$compiler"; then
    try "$compiler, -static" runs "$compiler" -static "$all"/*.o "$archive"
  else
    leave_out "$compiler, -static: the C library is not there as an archive"
  fi
}

for compiler in gcc clang; do
  has "$compiler" || continue
  try "$compiler, worked values of all header files" compile_all "$out/$compiler" "$compiler"
  try "$compiler -flto, worked values of all header files" compile_all "$out/$compiler-flto" "$compiler" -flto
done
wait
for compiler in gcc clang; do
  has "$compiler" || { leave_out "C: $compiler is not there"; continue; }
  [[ -e $out/libetherparse_c.so ]] || "$compiler" -shared -o "$out/libetherparse_c.so" \
    "-Wl,--version-script=$here/exports.map" -Wl,--whole-archive "$archive" -Wl,--no-whole-archive
  linked "$compiler"
done
# All header files in one file, each twice.
for compiler in "gcc -std=c11" "clang -std=c11" "g++ -std=c++11 -xc++" "clang++ -std=c++11 -xc++"; do
  has "${compiler%% *}" && try "${compiler%% *}, all header files in one" $compiler "${strict[@]}" -ffreestanding \
    -fsyntax-only "$here/tests/alone.c"
done
# A program without a C library, and one whose own memcpy, memmove and memset no call may reach.
if [[ -n $(make -s -C "$here" musl) ]]; then
  has nm && try "the archive needs nothing" needs_nothing "$archive"
  for compiler in gcc clang; do
    has "$compiler" || continue
    for own in -UOWN -DOWN; do
      try "$compiler, no C library, $own" runs "$compiler" -std=c11 "${strict[@]}" -ffreestanding -nostdlib -static "$own" \
        "$here/tests/alone.c" "$archive"
    done
  done
else
  leave_out "a program without a C library: musl is not there"
fi
if has make && has pkg-config && has gcc; then
  try "the commands of the page" "$here/install.sh"
else
  leave_out "the commands of the page: make, pkg-config or gcc is not there"
fi
if has cargo; then
  try "the tests of bindings/rust" env ETHERPARSE_LIB_DIR="$here/out/lib" CARGO_TARGET_DIR="$out/cargo" \
    cargo test --offline --manifest-path "$crates/../bindings/rust/Cargo.toml"
else
  leave_out "bindings/rust: cargo is not there"
fi
if has cargo && has pkg-config; then
  try "a copy of bindings/rust" "$crates/../bindings/rust/copied.sh"
else
  leave_out "a copy of bindings/rust: cargo or pkg-config is not there"
fi

# The worked values, and the examples. An example without expected output ends with 0 if it is right.
if has nm; then
  try "$library stands alone" stands_alone
else
  leave_out "what $library needs and exports: nm is not there"
fi
for compiler in gcc clang; do
  has "$compiler" || continue
  for name in "${headers[@]}"; do
    try "$compiler, worked values of $name" runs "$compiler" -std=c11 "${strict[@]}" "$here/tests/$name.c" "$archive"
  done
done
for source in "$here"/examples/*.c; do
  example=${source%.c}
  name=$(basename "$example")
  for compiler in gcc clang; do
    has "$compiler" || continue
    [[ -e $example.txt ]] || { try "$compiler, $name" runs "$compiler" -std=c11 "${strict[@]}" "$source" "$archive"; continue; }
    for dialect in c99 c11 c17; do
      try "$compiler, $dialect, $name" prints "$example.txt" "$compiler" "-std=$dialect" "${strict[@]}" "$source" "$archive"
    done
  done
  [[ -e $example.txt ]] || continue
  for compiler in g++ clang++; do
    has "$compiler" || continue
    for dialect in c++11 c++14 c++17 c++20; do
      try "$compiler, $dialect, $name" prints "$example.txt" "$compiler" "-std=$dialect" "${strict[@]}" \
        -xc++ "$source" -xnone "$archive"
    done
  done
  has rustc || continue
  for edition in 2021 2024; do
    try "rustc, edition $edition, $name" prints "$example.txt" rustc --edition "$edition" -O -D warnings "$example.rs" \
      -L "$here/out/lib" -l static=etherparse_c
  done
done
for compiler in g++ clang++ rustc; do has "$compiler" || leave_out "$compiler is not there"; done

wait
for ((at = 1; at <= tries; at++)); do cat "$out/$at/line.txt"; done
failed=$(cat "$out"/*/line.txt | grep -c '^FAILED') || :
echo "$((tries - failed)) passed, $failed failed, $left_out left out"
[[ $failed == 0 ]]
