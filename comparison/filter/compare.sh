#!/bin/sh
# compare.sh [ARGUMENT ..]: random cases through the built crates/conformance, the model and
# libpcap. The arguments are those of random_cases.py, as `--kind changed --seed 2 --count 1000000`.
# Exit code 1 where the program differs from the model, or libpcap without intention.
set -eu
here=$(CDPATH= cd -- "$(dirname -- "$0")" && pwd)
program=$here/../../crates/conformance/out/conformance
[ -x "$program" ] || {
  echo "compare.sh: $program is not there: \`rt run\` in crates/conformance builds it" >&2
  exit 2
}
room=$(mktemp -d)
trap 'rm -rf "$room"' EXIT
python3 "$here/random_cases.py" "$@" > "$room/cases"
"$program" < "$room/cases" > "$room/answers"
case " $* " in
  *" covered "*) covered=--covered ;;
  *) covered= ;;
esac
python3 "$here/compare.py" --program "$room/answers" $covered < "$room/cases"
