#!/bin/sh
# Equations that are added in a second of processor time, in four cases: by bench_unify, and by SWI-Prolog's
# unify_with_occurs_check where swipl is installed. Both run three times in turn, and the best of each case counts.
# What a loop costs by itself is taken off SWI-Prolog's times, and not off ours.
set -eu
cd "$(dirname "$0")"
folder=$(mktemp -d)
trap 'rm -rf "$folder"' EXIT

unify_by_swipl() {
  if command -v swipl > /dev/null; then
    swipl -O unify.pl < /dev/null
  fi
}

print_table() {
  awk '
    FNR == NR { if ($2 > here[$1]) here[$1] = $2; next }
    !($1 in swipl) || $2 < swipl[$1] { swipl[$1] = $2 }
    END {
      print "| case | here, additions/s | swipl, unifications/s | ratio |"
      print "|---|---|---|---|"
      count = split("fresh reused chains clash", cases)
      for (i = 1; i <= count; i++) {
        name = cases[i]
        if (name in swipl) {
          theirs = 1000000000 / (swipl[name] - swipl["nothing"])
          printf "| %s | %d | %d | %.2f |\n", name, here[name], theirs, here[name] / theirs
        } else {
          printf "| %s | %d | - | - |\n", name, here[name]
        }
      }
    }' "$folder/here" "$folder/swipl"
}

(cd ../crates/bench_unify && rt run > /dev/null)
command -v swipl > /dev/null || echo "swipl is not installed, so its columns are empty" >&2
for run in 1 2 3; do
  ../crates/bench_unify/out/bench_unify measure >> "$folder/here"
  unify_by_swipl >> "$folder/swipl"
done
print_table
