#!/bin/sh
# Calls a second, and processor time a call, of whole runs at 1, 2, 4 and 8 workers, beside the same work at a Redis
# server behind a Unix socket, where redis-server and hiredis are installed. With the word PROGRAM another build of
# the program is measured.
#
# A run reads its configuration, makes the calls and writes histories and logs; all that counts. Two sizes are run
# three times each, the best of each counts, and a call takes the difference between the sizes: so what a run takes
# before the first call counts nowhere. *Denied* is the run of one worker where nothing is permitted: the same items
# are read, and each has its row. Of Redis the server's processor time counts alone, and not that of its clients.
set -eu
given=${1:+$(realpath "$1")}
cd "$(dirname "$0")"
program=${given:-$PWD/../crates/tucson_run/out/tucson_run}
[ $# -gt 0 ] || (cd ../crates/tucson_run && rt run < stdin > /dev/null)
folder=$(mktemp -d)
server=
trap '[ -z "$server" ] || kill "$server"; rm -rf "$folder"' EXIT

# configuration CASE ROUNDS: the text that sets up so many rounds of each agent.
configuration() {
  awk -v work="$1" -v rounds="$2" '
    # A script of one agent, in clauses of at most 200 items: V stands for a variable of its own at each place.
    function script(agent, first, second,    i) {
      items = ""; n = 0
      for (i = 0; i < rounds; i++) {
        add(first); if (second != "") add(second)
        if (n >= 200 || i == rounds - 1) { printf "script(%s,[%s]).\n", agent, items; items = ""; n = 0 }
      }
    }
    function add(item) { gsub(/V/, "V" n, item); items = items (n ? "," : "") item; n++ }
    function centre(name) {
      printf "centre(%s). grant(r,%s,out). grant(r,%s,in).\n", name, name, name
    }
    BEGIN {
      print "role(r)."
      if (work == "pair") {
        for (k = 1; k <= 8; k++) centre("c" k)
        for (k = 1; k <= 8; k++) printf "agent(a%d,r).\n", k
        for (k = 1; k <= 8; k++) script("a" k, "c" k " ? out(p(1))", "c" k " ? in(p(V))")
      } else if (work == "counter") {
        centre("c")
        print "tuple(c,count(0))."
        print "spec(c,reaction(out(inc),(in_r(inc),in_r(count(N)),M is N+1,out_r(count(M)))))."
        for (k = 1; k <= 8; k++) printf "agent(a%d,r).\n", k
        for (k = 1; k <= 8; k++) script("a" k, "c ? out(inc)", "")
      } else if (work == "pingpong") {
        centre("c")
        print "agent(a,r). agent(b,r)."
        script("a", "c ? out(ping(1))", "c ? in(pong(V))")
        script("b", "c ? in(ping(V))", "c ? out(pong(1))")
      } else {
        centre("c")
        for (k = 1; k <= 16; k++) printf "agent(p%d,r). agent(q%d,r).\n", k, k
        for (k = 1; k <= 16; k++) { script("p" k, "c ? out(job(1))", ""); script("q" k, "c ? in(job(V))", "") }
      }
    }'
}

# timed COMMAND: seconds, and seconds of processor time, of the best of three runs.
timed() {
  python3 -c '
import resource, subprocess, sys, time
runs = []
for _ in range(3):
    with open(sys.argv[1]) as text:
        before, start = resource.getrusage(resource.RUSAGE_CHILDREN), time.monotonic()
        subprocess.run(sys.argv[2:], stdin=text, stdout=subprocess.DEVNULL, check=True)
        took, after = time.monotonic() - start, resource.getrusage(resource.RUSAGE_CHILDREN)
    runs.append((took, after.ru_utime + after.ru_stime - before.ru_utime - before.ru_stime))
print(min(run[0] for run in runs), min(run[1] for run in runs))' "$@"
}

# slope CALLS FEW MANY: calls a second, and nanoseconds of processor time a call, over so many more calls.
slope() {
  echo "$1 $2 $3" | awk '{ printf "%.0f | %.0f", $1 / ($4 - $2), ($5 - $3) / $1 * 1e9 }'
}

# ours CASE CALLS ROUNDS WORKERS: a run of so many calls a round.
ours() {
  few=$(timed "$folder/$1.few" "$program" run --workers "$4")
  many=$(timed "$folder/$1.many" "$program" run --workers "$4")
  slope $(($2 * $3 * 3)) "$few" "$many"
}

# denied CASE CALLS ROUNDS: nanoseconds a call where nothing is permitted.
denied() {
  for size in few many; do sed 's/grant([^)]*)\.//g' "$folder/$1.$size" > "$folder/denied.$size"; done
  few=$(timed "$folder/denied.few" "$program" run --workers 1)
  many=$(timed "$folder/denied.many" "$program" run --workers 1)
  slope $(($2 * $3 * 3)) "$few" "$many" | sed 's/.*| //'
}

# theirs CASE CLIENTS ROUNDS: the same at Redis.
theirs() {
  if [ -n "$server" ]; then
    for _ in 1 2 3; do "$folder/redis_run" "$folder/socket" "$1" "$2" "$3"; done |
      awk 'NR == 1 || $2 < ns { ns = $2 } NR == 1 || $3 < us { us = $3 } { calls = $1 }
        END { printf "%.0f | %.0f", calls / ns * 1e9, us / calls * 1e3 }'
  else
    printf -- '- | -'
  fi
}

# work TITLE CASE CALLS ROUNDS CLIENTS: a table of one kind of work, of so many calls in a round of all agents.
work() {
  configuration "$2" "$4" > "$folder/$2.few"
  configuration "$2" $((4 * $4)) > "$folder/$2.many"
  printf '\n| %s | calls a second | ns a call |\n|---|---|---|\n' "$1"
  for workers in 1 2 4 8; do
    echo "| workers: $workers | $(ours "$2" "$3" "$4" "$workers") |"
  done
  echo "| denied | | $(denied "$2" "$3" "$4") |"
  echo "| Redis, $5 clients | $(theirs "$2" "$5" $((4 * $4))) |"
}

if command -v redis-server > /dev/null && cc -O2 -o "$folder/redis_run" redis_run.c -lhiredis -lpthread; then
  redis-server --port 0 --unixsocket "$folder/socket" --save '' --appendonly no > "$folder/redis.log" &
  server=$!
  sleep 1
else
  echo "redis-server or hiredis is not installed, so its rows are empty" >&2
fi

work "put and take, each agent at a centre of its own" pair 16 1500 8
work "a counter with a reaction" counter 8 3000 8
work "ping-pong" pingpong 4 6000 2
work "16 producers and 16 consumers" queue 32 750 32
