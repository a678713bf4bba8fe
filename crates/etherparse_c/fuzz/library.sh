# What each script here begins with, read by it: `here` is this folder. It builds the library, and defines `build PROGRAM FILE..`, which
# makes a program in $out of these files and the library under gcc's address and undefined-behaviour sanitizers.
out=$here/../out/fuzz
mkdir -p "$out"
(cd "$here/.." && rt lib) > "$out/lib.txt" 2>&1 || {
  cat "$out/lib.txt" >&2
  exit 1
}
build() {
  program=$out/$1
  shift
  gcc -std=c11 -O2 -g -Wall -Wextra -Werror -fsanitize=address,undefined -fno-sanitize-recover=all -I "$here/../include" \
    -o "$program" "$@" "$here/../out/libetherparse_c.a"
}
