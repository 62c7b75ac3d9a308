#!/usr/bin/env bash
# Nanoseconds a call of a rank's heap: for a fill, a sawtooth and a random pattern.
set -u
. "$(dirname "${BASH_SOURCE[0]}")/timing.sh"
# a pattern, its blocks, its turns, and the calls that a turn makes
while read -r pattern blocks turns calls; do
  taken=$(taken_by heap "$blocks" "$turns" "$pattern") || exit 1
  echo "$pattern: $((taken / (turns * calls))) nanoseconds a call (mean of $((turns * calls)))"
done <<'PATTERNS'
fill 4000 20 8000
sawtooth 100 10000 200
random 200 1000000 1
PATTERNS
