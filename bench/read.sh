#!/bin/sh
# Megabytes that are read in a second of processor time, clause by clause: by bench_read, and by SWI-Prolog's
# read_term where swipl is installed. Both read the same texts, three times in turn, and the best counts.
set -eu
cd "$(dirname "$0")"
folder=$(mktemp -d)
trap 'rm -rf "$folder"' EXIT

# Clauses of eight kinds, until there are so many bytes.
write_text() {
  awk -v bytes="$1" '
    function clause(i) {
      if (i % 8 == 0) return "fork(" i ", table, " i * 7 % 1000 ")."
      if (i % 8 == 1) return "row(" i ", [1, two, -3, [nested, " i "], item(" i % 13 ") | Rest], Rest)."
      if (i % 8 == 2) return "sum(Total, Total is (First + 3 * Second - " i ") // 2 mod 5, First =< Second)."
      if (i % 8 == 3) return "\047Quoted name\047(\047it\047\047s line\\n" i "\047, \047Big\047, plain, [], \047a \\\\ b\047)."
      if (i % 8 == 4) return "% A comment on clause " i ".\n/* Another,\n   of two lines. */\n" \
        "limit(-" i ", - " i % 100 ", 3 - -4, 9223372036854775807)."
      if (i % 8 == 5) return "tree(node(node(leaf(" i "), x, leaf(2)), key(" i "), node(leaf(3), y, node(leaf(4), z, leaf(5)))))."
      if (i % 8 == 6) return "path(From, To, [From | Way], _, _Cost, To), reached(From, To)."
      return "reply(agent_" i % 50 ", \047tuple\047, event(out, fork(X, " i "), X \\= Y, Y = f(X, X)))."
    }
    BEGIN {
      while (size < bytes) {
        text = clause(++i)
        print text
        size += length(text) + 1
      }
    }'
}

read_here() {
  ../crates/bench_read/out/bench_read measure < "$1"
}

read_by_swipl() {
  if command -v swipl > /dev/null; then
    swipl -O read.pl -- "$1" < /dev/null
  fi
}

# The clauses of three readings, the most megabytes a second of each reader, and how they compare.
print_row() {
  awk -v megabytes="$1" '
    FNR == 1 { reader = FILENAME ~ /here$/ ? "here" : "swipl" }
    /clauses/ { clauses[reader] = $1 + 0 }
    /microseconds/ { rate = megabytes * 1000000 / $1; if (rate > best[reader]) best[reader] = rate }
    END {
      if (!("swipl" in best)) {
        printf "| %d MB | %d | %.1f | - | - |\n", megabytes, clauses["here"], best["here"]
        exit
      }
      if (clauses["here"] != clauses["swipl"]) {
        print "swipl counts " clauses["swipl"] " clauses, and here are " clauses["here"] > "/dev/stderr"
        exit 1
      }
      printf "| %d MB | %d | %.1f | %.1f | %.2f |\n", megabytes, clauses["here"], best["here"], best["swipl"],
        best["here"] / best["swipl"]
    }' "$folder/here" "$folder/swipl"
}

(cd ../crates/bench_read && rt run < /dev/null > /dev/null)
command -v swipl > /dev/null || echo "swipl is not installed, so its columns are empty" >&2
echo "| text | clauses | here, MB/s | read_term, MB/s | ratio |"
echo "|---|---|---|---|---|"
for megabytes in 1 8 16; do
  write_text "${megabytes}000000" > "$folder/text"
  : > "$folder/here"
  : > "$folder/swipl"
  for run in 1 2 3; do
    read_here "$folder/text" >> "$folder/here"
    read_by_swipl "$folder/text" >> "$folder/swipl"
  done
  print_row "$megabytes"
done
