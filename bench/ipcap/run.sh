#!/bin/sh
# run.sh UPSTREAM_FOLDER [PACKETS]: makes two captures of a million packets and times `ipcap` over both, beside the same program in
# Rust on the Rust crate, and beside tcpdump and tshark where they are installed. README.md of bench/ says what it needs.
set -eu
[ $# -ge 1 ] && [ $# -le 2 ] || {
  echo "usage: [RUNS=7] [PEER_RUNS=3] [LINES_IN=/dev/shm] run.sh UPSTREAM_FOLDER [PACKETS]" >&2
  exit 2
}
here=$(CDPATH= cd -- "$(dirname -- "$0")" && pwd)
upstream=$(CDPATH= cd -- "$1" && pwd)
packets=${2:-1000000}
runs=${RUNS:-7}
peer_runs=${PEER_RUNS:-3}
out=$here/../out/ipcap
program=$here/../../crates/ipcap/out/ipcap
mkdir -p "$out"
arrayvec=
for folder in "$upstream/vendor/arrayvec" "$upstream"/../arrayvec-0.7.*; do
  if [ -f "$folder/src/lib.rs" ]; then
    arrayvec=$folder
    break
  fi
done
[ -n "$arrayvec" ] || {
  echo "run.sh: no arrayvec 0.7 in or beside $upstream" >&2
  exit 2
}
[ -x "$program" ] || (cd "$here/../../crates/ipcap" && rt run < /dev/null > "$out/built.txt" 2>&1) || :
[ -x "$program" ] || {
  cat "$out/built.txt" >&2
  exit 1
}

compile() {
  rustc -C opt-level=3 -C target-cpu=x86-64-v2 -C codegen-units=1 --cap-lints allow -L "$out" --out-dir "$out" "$@"
}
compile --edition 2018 --crate-type rlib --crate-name arrayvec "$arrayvec/src/lib.rs"
compile --edition 2021 --crate-type rlib --crate-name etherparse "$upstream/src/lib.rs" \
  --extern arrayvec="$out/libarrayvec.rlib"
compile --edition 2021 --crate-type bin --crate-name ipcap -C lto=fat "$here/ipcap.rs" \
  --extern etherparse="$out/libetherparse.rlib"
compile --edition 2021 --crate-type bin --crate-name packets "$here/packets.rs"
captures='random flows'
"$out/packets" "$packets" "$out/random.pcap" "$out/flows.pcap"

# All that the two print of packets that are not refused has to be the same, and how many are refused.
for capture in $captures; do
  "$program" < "$out/$capture.pcap" 2> "$out/proved.closing" | grep -v ' error: ' > "$out/proved.txt"
  "$out/ipcap" < "$out/$capture.pcap" 2> "$out/rust.closing" | grep -v ' error: ' > "$out/rust.txt"
  cmp "$out/proved.txt" "$out/rust.txt"
  cmp "$out/proved.closing" "$out/rust.closing"
  echo "$capture: $(cat "$out/proved.closing"), $(wc -c < "$out/$capture.pcap") bytes"
done

# What a program prints goes to a file in memory.
lines=$(mktemp "${LINES_IN:-/dev/shm}/lines.XXXXXX")
trap 'rm -f "$lines"' EXIT
trap 'exit 1' HUP INT TERM

# Calls a function with the name and the command of each program. The options are those with which tcpdump and tshark are fastest
# and still print the time, addresses, ports, protocol and length of each packet; with -vv tcpdump verifies its checksums too.
with_each() {
  "$1" '`ipcap`' "$program"
  "$1" 'the same in Rust' "$out/ipcap"
  "$1" '`ipcap --quiet`' "$program" --quiet
  "$1" 'the same in Rust, `--quiet`' "$out/ipcap" --quiet
  [ "$round" -le "$peer_runs" ] || return 0
  if command -v tcpdump > /dev/null; then
    "$1" '`tcpdump -n -q -tt -r FILE`' tcpdump -n -q -tt -r "$out/$capture.pcap"
    "$1" '`tcpdump -n -tt -vv -r FILE`' tcpdump -n -tt -vv -r "$out/$capture.pcap"
  fi
  if command -v tshark > /dev/null; then
    "$1" '`tshark -n -o tcp.analyze_sequence_numbers:FALSE -r FILE`' \
      tshark -n -o tcp.analyze_sequence_numbers:FALSE -r "$out/$capture.pcap"
  fi
}

time_of() {
  name=$1
  shift
  rm -f "$lines"
  start=$(date +%s%N)
  "$@" < "$out/$capture.pcap" > "$lines" 2> "$out/errors.txt" || {
    cat "$out/errors.txt" >&2
    exit 1
  }
  printf '%s\t%s\t%s\n' "$name" "$capture" $((($(date +%s%N) - start) / 1000)) >> "$out/times.tsv"
}
: > "$out/times.tsv"
for round in $(seq "$runs"); do
  for capture in $captures; do with_each time_of; done
done

# The median of the runs in seconds, with the least and the greatest.
cell_of() {
  awk -F '\t' -v name="$1" -v capture="$2" '$1 == name && $2 == capture { print $3 }' "$out/times.tsv" | sort -n |
    awk '{ s[NR] = $1 / 1e6 } END { printf "%.2f (%.2f to %.2f)", s[int((NR + 1) / 2)], s[1], s[NR] }'
}
row_of() {
  echo "| $1 | $(cell_of "$1" random) | $(cell_of "$1" flows) |"
}
sed -n 's/^model name[^:]*: /processor: /p' /proc/cpuinfo | head -n 1
echo "compilers: $(rustc --version), $(rt version | head -n 1)"
for peer in tcpdump tshark; do
  if command -v "$peer" > /dev/null; then "$peer" --version 2> /dev/null | head -n 1; fi
done
echo
echo '| Program | random addresses | 200 flows |'
echo '|---|---|---|'
round=1
with_each row_of
