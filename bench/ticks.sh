#!/usr/bin/env bash
# Nanoseconds of processor time a tick, on one rank in a loop of 4,000,000 turns: the fastest of five runs of the built program.
set -u
. "$(dirname "${BASH_SOURCE[0]}")/timing.sh"
program=$(program_of ampi) || exit 1
folder=$(mktemp -d)
trap 'rm -rf "$folder"' EXIT
source=$folder/loop.c
echo 'int main(void) { int i = 0; int s = 0; while (i < 4000000) { i = i + 1; s = s + i; } return s; }' >"$source"
TIMEFORMAT=%U
best=
for ((i = 0; i < 5; i++)); do
  seconds=$({ time "$program" run --ticks 16000000 "$source" >"$folder/report"; } 2>&1) || { echo "bench: the run failed" >&2; exit 1; }
  milliseconds=$((10#${seconds/./}))
  [ -n "$best" ] && [ "$milliseconds" -ge "$best" ] || best=$milliseconds
done
ticks=$(sed -n 's/^rank 0 ended .* ticks \([0-9]*\) on 0$/\1/p' "$folder/report")
[ -n "$ticks" ] || { echo "bench: no ticks in the report" >&2; exit 1; }
echo "a tick: $((best * 1000000 / ticks)) nanoseconds ($ticks ticks in $best milliseconds, the start included)"
