#!/bin/sh
# batch.sh: times the filters for C over the frames and expressions of run.sh, beside libpcap's bpf_filter: all frames in one
# call, and frame by frame. It needs `rt`, `cc`, python3 and libpcap with its header; with valgrind it counts instructions a frame too.
set -eu
here=$(CDPATH= cd -- "$(dirname -- "$0")" && pwd)
out=$here/../out/filter
library=$here/../../crates/etherparse_c
mkdir -p "$out"
(cd "$library" && rt lib) > "$out/library.txt" 2>&1 || {
  cat "$out/library.txt" >&2
  exit 1
}
cc -O2 -o "$out/peer" "$here/filters.c" -lpcap
"$out/peer" frames > "$out/frames"
cc -O2 -I "$library/include" -o "$out/batch" "$here/batch.c" "$library/out/libetherparse_c.a" -lpcap
python3 - "$here" <<'PY' > "$out/expressions.txt"
import sys
sys.path.insert(0, sys.argv[1])
sys.dont_write_bytecode = True
import table
print("\n".join(table.EXPRESSIONS.values()))
PY
while read -r expression; do
  echo "$expression"
  "$out/batch" time "$expression" < "$out/frames"
  if command -v valgrind > /dev/null; then
    for way in bpf batch each; do
      valgrind --tool=callgrind --callgrind-out-file=/dev/null --toggle-collect=by_peer --toggle-collect=in_batches \
        --toggle-collect=one_by_one "$out/batch" "$way" "$expression" < "$out/frames" 2>&1 |
        sed -n "s/.*Collected : \([0-9]*\).*/\1 $way/p" | awk '{ printf "%.0f instructions a frame, %s\n", $1 / 16384, $2 }'
    done
  fi
done < "$out/expressions.txt"
