#!/bin/sh
# What a turn of a centre costs, in tables: by bench_core, which is proved and built first. With the word PROGRAM
# another build of it is measured.
#
# Nanoseconds are the best of three runs, of processor time of the calls alone. Instructions are counted by valgrind,
# where it is installed: the slope between two numbers of rounds. Bytes are the slope of the most memory that was
# resident, between two sizes.
set -eu
given=${1:+$(realpath "$1")}
cd "$(dirname "$0")"
program=${given:-../crates/bench_core/out/bench_core}
[ $# -gt 0 ] || (cd ../crates/bench_core && rt run > /dev/null)
command -v valgrind > /dev/null || echo "valgrind is not installed, so no instructions are counted" >&2

# nanos CASE SIZE ROUNDS: nanoseconds a round.
nanos() {
  for _ in 1 2 3; do "$program" "$1" "$2" "$3"; done |
    awk 'NR == 1 || $4 < best { best = $4 } END { printf "%.0f", best / $3 }'
}

# counted FUNCTION CASE SIZE ROUNDS: the instructions in a function, and in all that it calls.
counted() {
  valgrind --tool=callgrind --callgrind-out-file=/dev/null --toggle-collect="bench_core::$1" \
    "$program" "$2" "$3" "$4" 2>&1 > /dev/null | awk '/Collected/ { print $NF }'
}

# instructions FUNCTION CASE SIZE ROUNDS: instructions a round, between so many rounds and four times as many.
instructions() {
  if command -v valgrind > /dev/null; then
    few=$(counted "$1" "$2" "$3" "$4")
    many=$(counted "$1" "$2" "$3" $((4 * $4)))
    echo $(((many - few) / (3 * $4)))
  else
    echo -
  fi
}

# row NAME CASE SIZE ROUNDS FEW: nanoseconds over so many rounds, instructions from a few.
row() {
  echo "| $1 | $(nanos "$2" "$3" "$4") | $(instructions desk::ask "$2" "$3" "$5") |"
}

# resident CASE SIZE ROUNDS: the most kilobytes that were resident.
resident() {
  python3 -c '
import resource, subprocess, sys
subprocess.run(sys.argv[1:], stdout=subprocess.DEVNULL, check=True)
print(resource.getrusage(resource.RUSAGE_CHILDREN).ru_maxrss)' "$program" "$@"
}

# bytes LESS MORE: bytes for each of 800,000.
bytes() {
  echo $((($2 - $1) * 1024 / 800000))
}

heading() {
  printf '\n| %s | ns a round | instructions |\n|---|---|---|\n' "$1"
}

heading "round"
row "out(p(k)), inp(p(k))" pair 0 100000 500
row "out, inp of ten nodes" ten 0 50000 500
echo "| the same, with building them | | $(instructions rounds::serve ten 0 500) |"
row "in(count(X)), out(count(1)), to which a reaction adds one" counter 0 50000 200
row "a philosopher's in and out" table 0 20000 100
row "a cascade of 1,000 reactions" cascade 1000 200 3

heading "in(w(1)) that waits, out(w(1)), beside so many requests"
row "none" same 0 50000 500
for size in 10 1000 10000; do
  row "$size of the functor" same $size 50000 500
  row "$size of another" other $size 50000 500
done

heading "out(w(1)), no(w(1)) that waits, inp(w(1)), beside so many requests"
row "none" gone 0 50000 500
row "1000 for other tuples" gone 1000 50000 500
row "none, among 1000 other tuples" among 1000 50000 500
row "1000 for the absence of these tuples" absent 1000 50000 500

heading "beside requests, and ten times as many tuples of one functor"
for size in 0 100 1000; do
  row "$size: out for which nobody waits" unasked $size 50000 500
  row "$size: inp that finds nothing" missing $size 50000 500
done

heading "among so many tuples"
for size in 1000 10000 100000 1000000; do
  row "$size: inp(p(k,V)), out(p(k,k))" first $size 50000 500
done
row "100000: inp of the oldest, out" oldest 100000 50000 500
row "100000 names: rdp(name_K(1))" names 100000 50000 500

heading "out(p(k)), inp(p(k)), behind so many entries"
for size in 1000 10000 100000 1000000; do
  row "$size" pair $size 50000 500
done

printf '\n| held | bytes each |\n|---|---|\n'
echo "| a tuple p(i,0), and 32 in the list that the centre begins with |" \
  "$(bytes "$(resident held 200000 0)" "$(resident held 1000000 0)") |"
echo "| a tuple p(i,0) and the entry of its out | $(bytes "$(resident outs 0 200000)" "$(resident outs 0 1000000)") |"
