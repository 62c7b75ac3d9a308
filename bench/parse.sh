#!/usr/bin/env bash
# How long `c_parser` takes for sources of some 100,000 and 1,000,000 tokens: flat statements, statements of nested parentheses,
# and declarations of ever new names.
set -u
. "$(dirname "${BASH_SOURCE[0]}")/timing.sh"
# a shape, its parts, the tokens of a part, and how often the source is read
rows=("flat 5000 20 10" "flat 50000 20 2" "deep 800 126 10" "deep 8000 126 2" "names 1000 10 100" "names 10000 10 2")
for row in "${rows[@]}"; do
  read -r shape parts tokens reads <<<"$row"
  all=$(taken_by parse "$parts" "$reads" "$shape") || exit 1
  taken=$((all / reads))
  echo "$shape, $((parts * tokens)) tokens: $((taken / 1000000)) milliseconds a read, $((taken / (parts * tokens))) nanoseconds a token"
done
