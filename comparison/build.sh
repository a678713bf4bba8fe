#!/bin/sh
# build.sh UPSTREAM_FOLDER [ARRAYVEC_FOLDER]: builds the Rust crate and, on it, the reference
# program as out/reference. README.md says what the folders are.
set -eu
[ $# -ge 1 ] && [ $# -le 2 ] || {
  echo "usage: build.sh UPSTREAM_FOLDER [ARRAYVEC_FOLDER]" >&2
  exit 2
}
here=$(CDPATH= cd -- "$(dirname -- "$0")" && pwd)
upstream=$(CDPATH= cd -- "$1" && pwd)
out=$here/out
mkdir -p "$out"

# The one crate that the Rust crate stands on: named, or in its folder, or beside it, where cargo
# unpacks both.
arrayvec=
for folder in ${2:+"$2"} "$upstream/vendor/arrayvec" "$upstream"/../arrayvec-0.7.*; do
  if [ -f "$folder/src/lib.rs" ]; then
    arrayvec=$folder
    break
  fi
done
[ -n "$arrayvec" ] || {
  echo "build.sh: no arrayvec 0.7 in or beside $upstream: name its folder" >&2
  exit 2
}

# Overflows and failed assertions end the program, so that none of them passes for an answer.
compile() {
  rustc -O -C debug-assertions=on --cap-lints allow -L "$out" --out-dir "$out" "$@"
}
python3 "$here/names.py" "$upstream" > "$out/names.rs"
compile --edition 2018 --crate-type rlib --crate-name arrayvec "$arrayvec/src/lib.rs"
compile --edition 2021 --crate-type rlib --crate-name etherparse "$upstream/src/lib.rs" \
  --extern arrayvec="$out/libarrayvec.rlib"
NAMES=$out/names.rs compile --edition 2021 --crate-type bin --crate-name reference \
  "$here/src/main.rs" --extern etherparse="$out/libetherparse.rlib"
echo "built: comparison/out/reference"
