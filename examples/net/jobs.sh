#!/usr/bin/env bash
# jobs.sh PORT   both programs of jobs.conf, at ./tucson serve PORT < examples/net/jobs.conf
#
# Each line that is sent is shown with its agent, and behind it the reply.
set -eu

# ask FD AGENT LINE: sends a line over this agent's connection, and reads its reply.
ask() {
  local reply
  echo "$2: $3"
  echo "$3" >&"$1"
  read -r reply <&"$1"
  echo "  $reply"
}

exec 3<>"/dev/tcp/127.0.0.1/$1" # the first connection is anna's
ask 3 anna 'jobs ? out(job(1,sort))'
exec 4<>"/dev/tcp/127.0.0.1/$1" # the second is ben's
ask 4 ben 'jobs ? in(job(N,What))'
ask 4 ben 'jobs ? out(result(1,sorted))'
ask 4 ben 'jobs ? in(job(N,What))'
ask 4 ben 'poll'
ask 3 anna 'jobs ? out(job(2,print))'
ask 4 ben 'wait'
ask 4 ben 'jobs ? out(result(2,printed))'
ask 4 ben 'jobs ? rd(finished(N))'
ask 4 ben 'quit'
ask 3 anna 'jobs ? rd(finished(2))'
ask 3 anna 'quit'
