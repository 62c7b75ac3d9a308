#!/usr/bin/env bash
# The microseconds that each balancer takes for 256 ranks on 64 processors.
set -u
. "$(dirname "${BASH_SOURCE[0]}")/timing.sh"
plans=20000
for rule in rotate greedy refine; do
  taken=$(taken_by balance 256 "$plans" "$rule") || exit 1
  echo "$rule, 256 ranks on 64 processors: $((taken / plans / 1000)) microseconds"
done
