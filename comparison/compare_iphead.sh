#!/bin/sh
# compare_iphead.sh [ARGUMENT ..]: random inputs through the built program `iphead`, a process each,
# and through the reference. The arguments are those of random_cases.py, as `--seed 2 --count 9000`.
set -eu
here=$(CDPATH= cd -- "$(dirname -- "$0")" && pwd)
exec "$here/compare.sh" --program "$here/run_iphead.py" --iphead "$@"
