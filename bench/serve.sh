#!/bin/sh
# Processor time a round of `serve`, beside a Redis server's for the same work: with 1, 4 and 16 clients, or as many
# pairs, and with 16 requests in one piece; how long a round takes with 16 and more; memory with 1,000 connections.
# The output is two tables in markdown.
#
#   serve.sh [--calls] [PROGRAM]      PROGRAM: another build of the program; --calls: its system calls a round, too
#
# Both servers listen on 127.0.0.1, and serve_client.c makes the calls, in as many threads as there are clients. Each
# row is measured three times, or TURNS times, in turn, and the least processor time counts: that of all threads of the
# server, in the rounds alone, since each client has made a tenth as many before. The clients' time counts nowhere.
set -eu
calls=
[ "${1-}" != --calls ] || { calls=yes; shift; }
given=${1:+$(realpath "$1")}
cd "$(dirname "$0")"
program=${given:-$PWD/../crates/tucson_run/out/tucson_run}
[ -n "$given" ] || (cd ../crates/tucson_run && rt run < stdin > /dev/null)
folder=$(mktemp -d)
server= redis= redis_port=
trap 'for one in $server $redis; do kill "$one" || true; done 2> /dev/null; rm -rf "$folder"' EXIT
trap 'exit 130' INT
trap 'exit 143' TERM
cc -O2 -o "$folder/client" serve_client.c -lpthread

free_port() {
  python3 -c 'import socket; s = socket.socket(); s.bind(("127.0.0.1", 0)); print(s.getsockname()[1])'
}

# configuration WORK AGENTS: one centre for all agents, or one for each.
configuration() {
  echo 'role(r).'
  if [ "$1" = own ]; then
    awk -v agents="$2" 'BEGIN { for (k = 0; k < agents; k++) print "c" k }'
  else
    echo c
  fi | sed 's/.*/centre(&). grant(r,&,out). grant(r,&,in)./'
  if [ "$1" = counter ]; then
    echo 'tuple(c,count(0)).'
    echo 'spec(c,reaction(out(inc),(in_r(inc),in_r(count(N)),M is N+1,out_r(count(M))))).'
  fi
  awk -v agents="$2" 'BEGIN { for (k = 1; k <= agents; k++) printf "agent(a%d,r).\n", k }'
}

# here WORK CLIENTS PIECE ROUNDS [TRACE]: what the client tells of the program.
here() {
  port=$(free_port)
  configuration "$1" "$2" > "$folder/conf"
  "$program" serve "$port" < "$folder/conf" > "$folder/text" &
  server=$!
  "$folder/client" tucson "$port" "$server" "$@"
  wait "$server" || { echo "serve.sh: the program ended with status $?" >&2; exit 1; }
  server=
}

# there WORK CLIENTS PIECE ROUNDS [TRACE]: the same of Redis, where it is installed.
there() {
  [ -z "$redis" ] || "$folder/client" redis "$redis_port" "$redis" "$@"
}

# best FILE: of some lines of a client the one with the least processor time.
best() { sort -n -k 2 "$1" | head -n 1; }

# row TITLE WORK CLIENTS PIECE ROUNDS: a row of the first table; ROUNDS are those of each client.
row() {
  title=$1
  shift
  for name in here there; do : > "$folder/$name"; done
  for _ in $(seq "${TURNS:-3}"); do
    here "$@" >> "$folder/here"
    there "$@" >> "$folder/there"
  done
  here=$(best "$folder/here") there=$(best "$folder/there")
  printf '| %s | %s |' "$title" "$2"
  echo "$here ${there:-0 0 0 0 0}" | awk -v clients="$2" -v piece="$3" '{
    ours = $2 / $1 / 1000; theirs = $6 ? $7 / $6 / 1000 : 0
    if (theirs) printf " %.1f | %.1f | %.2f |", ours, theirs, ours / theirs
    else printf " %.1f | | |", ours
    if (clients < 16 || piece > 1) printf " | |"
    else if (theirs) printf " %.0f, %.0f | %.0f, %.0f |", $4 / 1000, $5 / 1000, $9 / 1000, $10 / 1000
    else printf " %.0f, %.0f | |", $4 / 1000, $5 / 1000
  }'
  if [ -n "$calls" ]; then
    printf ' %s | %s |' "$(traced here "$@")" "$(traced there "$@")"
  fi
  echo
}

# traced SERVER WORK CLIENTS PIECE ROUNDS: the system calls a round of the server, in a tenth of the rounds.
traced() {
  which=$1
  shift
  : > "$folder/trace"
  told=$("$which" "$1" "$2" "$3" $(($4 / 10)) "$folder/trace")
  awk -v rounds="${told%% *}" '$NF == "total" { calls = $(NF - 1) ~ /^[0-9]+$/ && NF > 5 ? $(NF - 2) : $(NF - 1) }
    END { if (rounds) printf "%.1f", calls / rounds; else printf "-" }' "$folder/trace"
}

# held NAME: a row of the second table.
held() {
  told=$("$1" hold 1000 1 0)
  printf '| %s |' "$2"
  echo "$told" | awk '{
    printf " %.1f | %.1f | %.1f | %.2f |\n", $1 / 1024, $2 / 1024, ($2 - $1) / 1000, $3 / 1e10 * 100
  }'
}

if command -v redis-server > /dev/null; then
  redis_port=$(free_port)
  redis-server --bind 127.0.0.1 --port "$redis_port" --save '' --appendonly no > "$folder/log" &
  redis=$!
else
  echo "redis-server is not installed, so its columns are empty" >&2
fi
load=$(cut -d ' ' -f 1 /proc/loadavg)

echo "| work | clients | µs a round | Redis | ratio | median and 99th, µs | Redis |${calls:+ calls | Redis |}"
echo "|---|---|---|---|---|---|---|${calls:+---|---|}"
for clients in 1 4 16; do row 'put and take' pair "$clients" 1 $((20000 / clients)); done
for clients in 4 16; do row 'put and take, each at a centre of its own' own "$clients" 1 $((20000 / clients)); done
for clients in 1 4 16; do row 'a counter with a reaction' counter "$clients" 1 $((20000 / clients)); done
for clients in 2 8 32; do row 'ping-pong' pingpong "$clients" 1 $((10000 / clients)); done
for clients in 2 8 32; do
  row 'ping-pong, `in` and `wait` in one piece' waiting "$clients" 1 $((10000 / clients))
done
row '16 producers and 16 consumers' queue 32 1 1000
for clients in 1 4 16; do row 'put and take, pieces of 16' pair "$clients" 16 $((80000 / clients)); done
for clients in 4 16; do row 'put and take, each at a centre of its own, pieces of 16' own "$clients" 16 $((80000 / clients)); done
for clients in 1 4 16; do row 'a counter, pieces of 16' counter "$clients" 16 $((80000 / clients)); done
row '16 producers and 16 consumers, pieces of 16' queue 32 16 3200

echo
echo '| 1,000 connections, of a call each | MB with one | MB with all | kB a connection | % of a processor while idle |'
echo '|---|---|---|---|---|'
held here 'here'
[ -z "$redis" ] || held there 'Redis'
echo
echo "$(nproc) processors; load $load before, $(cut -d ' ' -f 1 /proc/loadavg) after"
