#!/bin/sh
# below.sh: prints etherparse_c and the crates that it stands on, as crates.txt has them, each on a line
# of its own after what it stands on.
set -eu
here=$(CDPATH= cd -- "$(dirname -- "$0")" && pwd)
awk '
  function visit(name,   parts, count, at) {
    if (name in seen || !(name in below)) return
    seen[name] = 1
    count = split(below[name], parts, " ")
    for (at = 1; at <= count; at++) visit(parts[at])
    print name
  }
  {
    sub(/#.*/, "")
    if (split($0, halves, ":") < 2) next
    split(halves[1], words, " ")
    below[words[1]] = halves[2]
  }
  END { visit("etherparse_c") }' "$here/../../crates.txt"
