#!/bin/sh
# Nanoseconds of processor time that one body of a reaction takes, and one search for the clause that an event
# triggers: by bench_react, and, for the body that counts a number up, by SWI-Prolog's retract, is and assertz
# where swipl is installed. Both run three times in turn, and the best of each case counts. What a loop costs by
# itself is taken off SWI-Prolog's time, and not off ours.
set -eu
cd "$(dirname "$0")"
folder=$(mktemp -d)
trap 'rm -rf "$folder"' EXIT

count_by_swipl() {
  if command -v swipl > /dev/null; then
    swipl -O react.pl < /dev/null
  fi
}

print_table() {
  awk '
    FNR == NR { if (!($1 in here) || $2 < here[$1]) here[$1] = $2; next }
    !($1 in swipl) || $2 < swipl[$1] { swipl[$1] = $2 }
    END {
      print "| case | here, ns | swipl, ns | ratio |"
      print "|---|---|---|---|"
      count = split("counter fires fails among-10 among-1000 guarded-10 guarded-1000", cases)
      for (i = 1; i <= count; i++) {
        name = cases[i]
        if (name in swipl) {
          theirs = swipl[name] - swipl["nothing"]
          printf "| %s | %d | %d | %.2f |\n", name, here[name], theirs, here[name] / theirs
        } else {
          printf "| %s | %d | - | - |\n", name, here[name]
        }
      }
    }' "$folder/here" "$folder/swipl"
}

# A program that is named is measured in place of the one that is proved and built here.
program=${1:-../crates/bench_react/out/bench_react}
[ $# -gt 0 ] || (cd ../crates/bench_react && rt run > /dev/null)
command -v swipl > /dev/null || echo "swipl is not installed, so its columns are empty" >&2
for run in 1 2 3; do
  "$program" measure >> "$folder/here"
  count_by_swipl >> "$folder/swipl"
done
print_table
