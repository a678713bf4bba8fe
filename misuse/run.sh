#!/usr/bin/env bash
# Tries each misuse of this folder on a copy of the library: the check has to refuse it, by the
# words that the case names, and to find no fault in the right callers beside it. README.md says how
# a case is written. The last line is 'N passed, M failed'.
set -euo pipefail
here=$(cd "$(dirname "$0")" && pwd)
room=$(mktemp -d)
trap 'rm -rf "$room"' EXIT
crate=$room/crates/misuse

# What the head of a case, which is all above its first blank line, says under a name.
told() { sed -n "/^\$/q; s/^$2: //p" "$1"; }

# The code of a case without the lines of one kind, wrong or right.
code_without() { sed "1,/^\$/d; /\/\/ $1\$/d" "$2"; }

# Replaces a text that stands once in a file by another.
replace() {
  local text
  text=$(cat "$1")
  [[ -n $2 && $text == *"$2"* && ${text#*"$2"} != *"$2"* ]] || return 1
  printf '%s\n' "${text/"$2"/"$3"}" > "$1"
}

# Lays the library, and a crate that has the right caller of each case.
lay() {
  local name case
  rm -rf "$room/crates"
  mkdir -p "$crate/src"
  for name in etherparse_base etherparse_fields etherparse; do
    mkdir "$room/crates/$name"
    cp -r "$here/../crates/$name/src" "$room/crates/$name"
    grep "^$name:" "$here/../crates.txt"
  done > "$room/crates.txt"
  echo 'misuse: etherparse' >> "$room/crates.txt"
  printf '#![tactic(auto)]\n\n' > "$crate/src/lib.rt"
  for case in "$here"/*.txt; do
    name=$(basename "$case" .txt)
    echo "pub mod $name;" >> "$crate/src/lib.rt"
    code_without wrong "$case" > "$crate/src/$name.rt"
  done
}

# Puts a misuse in the place of its right caller, or into the library.
plant() {
  local file
  file=$(told "$1" file)
  if [[ -n $file ]]; then
    replace "$room/crates/etherparse/$file" "$(told "$1" old)" "$(told "$1" new)"
  else
    code_without right "$1" > "$crate/src/$(basename "$1" .txt).rt"
  fi
}

# What the check says of the crate that is laid. `rt all check` first reads all sources, and then
# says 'only=' if they compile, or 'mend these first'. (`rt check` leaves that reading out where
# another checkout on the machine has proofs of crates of these names.) It would then go on to the
# proofs, whose errors tell nothing here, as the copy has no definitions.
check() {
  (cd "$room" && timeout 120 rt all check 2>&1) || true
}

# Tries cases together, each in its own file, beside the right callers of the others. Prints those
# that the check refuses by their words alone, or none where it finds a fault in another file.
refused_together() {
  local case name faults others own
  lay
  for case in "$@"; do plant "$case" || return 0; done
  faults=$(check | grep -E 'error(\[|:)') || return 0
  others=$faults
  for case in "$@"; do
    others=$(grep -v "^src/$(basename "$case" .txt).rt:" <<< "$others") || true
  done
  [[ -z $others ]] || return 0
  for case in "$@"; do
    name=$(basename "$case" .txt)
    own=$(grep "^src/$name.rt:" <<< "$faults") || continue
    grep -qvF "$(told "$case" refused)" <<< "$own" || echo "$name"
  done
}

# Prints why a case fails, or nothing.
why_failed() {
  local name words said errors line
  name=$(basename "$1" .txt)
  words=$(told "$1" refused)
  [[ -n $words ]] || { echo "it names no words of the checker"; return; }
  lay
  plant "$1" || { echo "its edit stands in the library twice, or not at all"; return; }
  said=$(check)
  if grep -q '^only=' <<< "$said"; then
    echo "the check accepts it"
    return
  fi
  errors=$(grep -E 'error(\[|:)' <<< "$said") || { echo "the check names no fault"; return; }
  while read -r line; do
    [[ $line == "src/$name.rt:"*"$words"* ]] || echo "the check says: $line"
  done <<< "$errors"
}

# The check tells the faults in all borrows at once. So half of these cases are tried together, and
# then the other half. Whatever is not refused there is tried alone, which says why.
first=() second=()
for case in "$here"/*.txt; do
  [[ $(told "$case" refused) == 'error[borrow-'* ]] || continue
  if ((${#first[@]} > ${#second[@]})); then second+=("$case"); else first+=("$case"); fi
done
refused=$(refused_together "${first[@]}"; refused_together "${second[@]}")

passed=0
failed=0
for case in "$here"/*.txt; do
  why=
  grep -qx "$(basename "$case" .txt)" <<< "$refused" || why=$(why_failed "$case")
  if [[ -z $why ]]; then
    echo "refused, as it must be: $(basename "$case" .txt)"
    passed=$((passed + 1))
  else
    echo "FAILED: $(basename "$case" .txt): $why"
    failed=$((failed + 1))
  fi
done
echo "$passed passed, $failed failed"
[[ $failed == 0 ]]
