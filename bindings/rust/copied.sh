#!/usr/bin/env bash
# copied.sh: copies this crate to a fresh folder, beside the program of README.md, and builds and runs
# both there with an installed library, as `make archive` of crates/etherparse_c made it. Beside it is
# an `rt` that fails: it is asked for the library where a folder for that is there and none is
# installed. It prints what fails, and ends with 1.
set -euo pipefail
here=$(cd "$(dirname "$0")" && pwd)
c=$here/../../crates/etherparse_c
fresh=$(mktemp -d)
trap 'rm -rf "$fresh"' EXIT
fails() { echo "copied.sh: $1"; cat "$fresh/said.txt"; exit 1; }

mkdir -p "$fresh/bin" "$fresh/usr/lib/pkgconfig" "$fresh/bindings/etherparse-proved"
cp "$c/out/lib/libetherparse_c.a" "$fresh/usr/lib"
echo 'no shared object' > "$fresh/usr/lib/libetherparse_c.so"
version=$(sed -n 's/^version = "\(.*\)"/\1/p' "$here/Cargo.toml")
sed -e "s|@prefix@|$fresh/usr|" -e "s|@includedir@|$fresh/usr/include|" -e "s|@libdir@|$fresh/usr/lib|" \
  -e "s|@version@|$version|" -e 's|@cpu@||' \
  "$c/etherparse.pc.in" > "$fresh/usr/lib/pkgconfig/etherparse.pc"
printf '#!/bin/sh\necho "rt was run: $*"\nexit 1\n' > "$fresh/bin/rt"
chmod +x "$fresh/bin/rt"
(cd "$here" && cp -r Cargo.toml README.md build.rs src tests "$fresh/bindings/etherparse-proved")
cp -r "$here/tests/caller" "$fresh/bindings"
unset ETHERPARSE_LIB_DIR CARGO_TARGET_DIR
export PATH=$fresh/bin:$PATH PKG_CONFIG_PATH=$fresh/usr/lib/pkgconfig
cd "$fresh/bindings/caller"
touch "$fresh/said.txt"

# The page: the program, and the line that names the crate.
page() { sed -n "/^\`\`\`$1\$/,/^\`\`\`\$/p" "$here/README.md" | sed '1d;/^```$/,$d'; }
cmp <(page rust) src/main.rs || fails "the page has another program"
grep -qxF "$(page toml)" Cargo.toml || fails "the page names the crate in another way"

printf '192.168.0.1 to 192.168.0.199, port 53\nthe checksum is right\n' > "$fresh/expected.txt"
runs() { cargo run --offline --quiet > "$fresh/said.txt" 2>&1 && cmp -s "$fresh/expected.txt" "$fresh/said.txt"; }
without() { ! PKG_CONFIG_LIBDIR=$fresh PKG_CONFIG_PATH="" runs && grep -q "$1" "$fresh/said.txt"; }
runs || fails "the program with an installed library"
# An archive without a member links nothing.
mkdir "$fresh/named"
printf '!<arch>\n' > "$fresh/named/libetherparse_c.a"
mv "$fresh/usr/lib/libetherparse_c.a" "$fresh/kept.a"
cp "$fresh/named/libetherparse_c.a" "$fresh/usr/lib"
! runs || fails "a library that changed is not linked anew"
cp "$fresh/kept.a" "$fresh/usr/lib/libetherparse_c.a"
runs || fails "the program with the library back in its place"
! PKG_CONFIG=false runs || fails "another pkg-config than the named one is asked"
! ETHERPARSE_LIB_DIR=$fresh/named runs || fails "the library that is named is not taken before an installed one"
without 'set ETHERPARSE_LIB_DIR' || fails "what is said without a library"
sed -i 's/^Version: .*/Version: 0.0.0/' "$PKG_CONFIG_PATH/etherparse.pc"
! runs || fails "a library of another version is taken"
sed -i "s/^Version: .*/Version: $version/" "$PKG_CONFIG_PATH/etherparse.pc"
mkdir -p "$fresh/crates/etherparse_c"
cp "$c/../../crates.txt" "$fresh"
cp -r "$c"/{Makefile,below.sh,include} "$fresh/crates/etherparse_c"
mkdir -p "$fresh/crates/etherparse_c/out/lib"
mv "$fresh/named/libetherparse_c.a" "$fresh/crates/etherparse_c/out/lib"
runs || fails "an installed library is not taken before the one in the repository"
rm "$fresh/crates/etherparse_c/out/lib/libetherparse_c.a"
runs || fails "an installed library is not taken before rt is run"
without 'rt was run: lib' || fails "rt is not run without a library"
