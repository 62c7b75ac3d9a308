#!/usr/bin/env bash
# Gigabytes a second of encoding the packet of a rank's image, which is 1 MiB of memory and a little more, with a line of so many bytes.
set -u
. "$(dirname "${BASH_SOURCE[0]}")/timing.sh"
# the bytes of the line, and the turns
for pair in "1 4000" "100000 4000"; do
  read -r size turns <<<"$pair"
  taken=$(taken_by packet "$size" "$turns") || exit 1
  bytes=$((1048699 + size))
  tenths=$((bytes * turns * 10 / taken))
  echo "packet of an image of $bytes bytes: $((tenths / 10)).$((tenths % 10)) gigabytes a second (mean of $turns)"
done
