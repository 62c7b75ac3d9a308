#!/usr/bin/env bash
# Wall time and peak memory of hello on 256 ranks, over a hundred runs of the built program.
set -u
here=$(cd "$(dirname "${BASH_SOURCE[0]}")" && pwd)
. "$here/timing.sh"
program=$(program_of ampi) || exit 1
runs=100
start=$(date +%s%N)
for ((i = 0; i < runs; i++)); do
  "$program" run --ranks 256 "$here/../examples/hello.c" >/dev/null || exit 1
done
end=$(date +%s%N)
echo "wall time of a run, its start included: $(((end - start) / runs / 1000)) microseconds (mean of $runs)"
if [ -x /usr/bin/time ]; then
  /usr/bin/time -f "peak memory of a run: %M KiB" "$program" run --ranks 256 "$here/../examples/hello.c" 2>&1 >/dev/null | tail -n 1
else
  echo "peak memory: GNU time is not installed"
fi
