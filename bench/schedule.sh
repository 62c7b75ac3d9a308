#!/usr/bin/env bash
# How many events a second `schedule` reads, for texts of growing length: a time linear in the text shows as a rate that stays.
set -u
. "$(dirname "${BASH_SOURCE[0]}")/timing.sh"
reads=10
for events in 125000 250000 500000 1000000; do
  taken=$(taken_by schedule "$events" "$reads") || exit 1
  echo "$events events: $((events * reads * 1000000 / (taken / 1000 + 1))) events read a second"
done
