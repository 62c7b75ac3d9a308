#!/usr/bin/env bash
# Gigabytes a second that the bulk calls of a rank's memory go through, for blocks of some sizes. A copy goes from the heap's start to
# its end, so one of more than half the heap overlaps.
set -u
. "$(dirname "${BASH_SOURCE[0]}")/timing.sh"
# a call, the bytes of its block, and its turns
while read -r call size turns; do
  taken=$(taken_by memory "$size" "$turns" "$call") || exit 1
  tenths=$((size * turns * 10 / taken))
  echo "$call, $size bytes: $((tenths / 10)).$((tenths % 10)) gigabytes a second (mean of $turns)"
done <<'CALLS'
copy 256 20000000
copy 4096 5000000
copy 196608 40000
copy 327680 40000
fill 256 20000000
fill 4096 5000000
fill 393216 40000
write 256 20000000
write 4096 5000000
write 393216 40000
view 256 10000000
view 4096 500000
view 393216 5000
CALLS
