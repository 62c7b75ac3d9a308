#!/usr/bin/env bash
# How many MB a second `c_lex` reads as tokens, for sources of declarations of growing length: a time linear in the text
# shows as a rate that stays.
set -u
. "$(dirname "${BASH_SOURCE[0]}")/timing.sh"
reads=10
for parts in 1024 4096 8192; do
  all=$(taken_by lex "$parts" "$reads") || exit 1
  taken=$((all / reads))
  echo "$((parts / 4)) KiB: $((parts * 256 * 1000 / (taken + 1))) MB a second, $((taken / 1000)) microseconds a read"
done
