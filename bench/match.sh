#!/usr/bin/env bash
# Nanoseconds a match of the plain book, behind queues of messages that no receive accepts.
set -u
. "$(dirname "${BASH_SOURCE[0]}")/timing.sh"
for pair in "10 1000000" "1000 100000" "100000 2000"; do
  read -r queue turns <<<"$pair"
  taken=$(taken_by match "$queue" "$turns") || exit 1
  echo "behind $queue messages: $((taken / turns)) nanoseconds a match (mean of $turns)"
done
