#!/bin/sh
# counts.sh: how many instructions a call takes of each library, by valgrind, which do not vary with load. After run.sh, whose
# benchmark it calls.
set -eu
here=$(CDPATH= cd -- "$(dirname -- "$0")" && pwd)
bench=$here/out/bench
layout=$here/out/layout-16
calls=4096

# The instructions of so many calls of a line and a column.
counted() {
  valgrind --tool=callgrind --callgrind-out-file=/dev/null --collect-atstart=no --toggle-collect="$3_u64_16*" \
    --toggle-collect="$3_u32_16*" --toggle-collect="$3_ipv*" --toggle-collect="$3_loop_*" \
    --toggle-collect="$3_update_*" "$bench" call "$layout" "$1" "$2" "$calls" 2>&1 > /dev/null | sed -n 's/.*Collected : *//p'
}

printf '%-52s %16s %9s %9s %9s\n' "" bytes crate lto proved
line=0
while name=$("$bench" call "$layout" "$line" 2 0); do
  case $name in
  *", around"* | *"one after the other"*) ;; # the same calls as mixed and constant ones
  *)
    echo "$name	$(counted "$line" 0 upstream)	$(counted "$line" 1 upstream)	$(counted "$line" 3 etherparse)" |
      awk -F '\t' -v calls="$calls" '{
        printf "%-52s %16s %9.1f %9.1f %9.1f\n", $1, $2, $3 / calls, $4 / calls, $5 / calls }'
    ;;
  esac
  line=$((line + 1))
done
