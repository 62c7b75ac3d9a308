#!/usr/bin/env bash
# The microseconds that a barrier and an alltoall with one int to each take of all 256 members of a group.
set -u
. "$(dirname "${BASH_SOURCE[0]}")/timing.sh"
# the collective, and its turns
for pair in "barrier 200" "alltoall 50"; do
  read -r call turns <<<"$pair"
  taken=$(taken_by sweep 256 "$turns" "$call") || exit 1
  echo "$call of 256 members: $((taken / turns / 1000)) microseconds (mean of $turns)"
done
