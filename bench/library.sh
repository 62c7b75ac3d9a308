#!/usr/bin/env bash
# What a call of the library takes: nanoseconds a number that `printf` formats, for formats of so many, and gigabytes a second that
# `memcpy` copies.
set -u
. "$(dirname "${BASH_SOURCE[0]}")/timing.sh"
# the numbers of a format, and its turns
for pair in "1 5000000" "10 500000" "1000 5000"; do
  read -r numbers turns <<<"$pair"
  taken=$(taken_by library "$numbers" "$turns" printf) || exit 1
  echo "printf of $numbers: $((taken / (numbers * turns))) nanoseconds a number (mean of $((numbers * turns)))"
done
# the bytes of a block, and its turns
for pair in "256 20000000" "4096 5000000" "196608 40000"; do
  read -r size turns <<<"$pair"
  taken=$(taken_by library "$size" "$turns" memcpy) || exit 1
  tenths=$((size * turns * 10 / taken))
  echo "memcpy of $size bytes: $((tenths / 10)).$((tenths % 10)) gigabytes a second (mean of $turns)"
done
