#!/bin/sh
# compare.sh [--program PROGRAM] [ARGUMENT ..]: random cases through the reference and the built
# crates/conformance, and the first ten that differ. The arguments are those of random_cases.py, as
# `--seed 2 --count 500000`. Exit code 1 where one differs.
set -eu
here=$(CDPATH= cd -- "$(dirname -- "$0")" && pwd)
program=$here/../crates/conformance/out/conformance
if [ "${1:-}" = --program ]; then
  program=$2
  shift 2
fi
for built in "$here/out/reference" "$program"; do
  [ -x "$built" ] || {
    echo "compare.sh: $built is not there: README.md says how it is built" >&2
    exit 2
  }
done
room=$(mktemp -d)
trap 'rm -rf "$room"' EXIT
python3 "$here/random_cases.py" "$@" > "$room/cases"
"$here/out/reference" < "$room/cases" > "$room/reference"
"$program" < "$room/cases" > "$room/program"
python3 "$here/differences.py" "$room/cases" "$room/reference" "$room/program"
