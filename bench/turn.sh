#!/bin/sh
# Turns a second and processor time a turn, at the turnstile and under std's Mutex, in one run of one program.
set -eu
cd "$(dirname "$0")/../crates/bench_turn"
rt run > /dev/null
exec out/bench_turn measure
