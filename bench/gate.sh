#!/usr/bin/env bash
# The processor minutes of what the merge gate does from nothing on this machine, crate by crate: the crate's own proof, the same once
# more with its tests, and its edits that must be refused. One check runs at a time, so it may take hours. Only the crate's own checks
# count: the libraries below it are built first, and no program and no test is built or run.
#
#   bench/gate.sh [NAME..]      all crates, or these
set -u
top=$(cd "$(dirname "${BASH_SOURCE[0]}")/.." && pwd)
cd "$top" || exit 1
kit=$(dirname "$(dirname "$(readlink -f "$(command -v rt)")")")
place=$(mktemp -d) || exit 1
trap 'rm -rf "$place"' EXIT
export RT_JOBS=1
TIMEFORMAT='%U %S'

# Checks begin with what earlier ones on the machine kept, and that stands beside the kit. So what is timed is a copy of the checkout
# that has kept nothing, by a kit in another place, which is made of links.
mkdir -p "$place/kit/bin" "$place/checkout"
find "$kit" -mindepth 1 -maxdepth 1 ! -name bin -exec ln -s -t "$place/kit" {} +
find "$kit/bin" -type f ! -name rt ! -name rtlib.py -exec ln -s -t "$place/kit/bin" {} +
cp "$kit/bin/rt" "$kit/bin/rtlib.py" "$place/kit/bin/"
tar --exclude='crates/*/out' -cf - crates crates.txt HANDLES | tar -C "$place/checkout" -xf -
from_nothing=$place/kit/bin/rt
failed=0

# the libraries of the repository that a crate stands on, built by what is kept on the machine
build_below() {
  local below
  for below in $(sed -n "s/^$1\( [^:]*\)\?: *//p" crates.txt); do
    [ ! -d "crates/$below" ] || (cd "$place/checkout/crates/$below" && rt lib --jobs 1) >"$place/log" 2>&1 || return 1
  done
}

# the processor seconds of a command in the crate's folder, which begins with nothing
seconds_of() {
  local crate=$1 seconds
  shift
  rm -rf "$place/checkout/crates/$crate/out/incremental"
  if seconds=$(cd "$place/checkout/crates/$crate" && { time "$@" >"$place/log" 2>&1 </dev/null; } 2>&1) && ! grep -q "^rt: $crate: begins with" "$place/log"; then
    echo "$seconds"
  else
    echo "gate.sh: $crate: failed: $*" >&2
    tail -n 20 "$place/log" >&2
    return 1
  fi
}

row() { printf '%-16s %7s %7s %7s %7s\n' "$@"; }
minutes() { awk '{ for (i = 1; i <= NF; i++) sum += $i } END { if (sum) printf "%.1f\n", sum / 60; else print "-" }' <<<"$*"; }

row crate proof tests edits all
for crate in $(sed -n 's/^\([a-z][a-z0-9_]*\).*/\1/p' crates.txt); do
  [ $# -eq 0 ] || [[ " $* " == *" $crate "* ]] || continue
  proof='' tests='' edits=''
  build_below "$crate" || { echo "gate.sh: a library below $crate is not proved" >&2; tail -n 20 "$place/log" >&2; failed=1; continue; }
  proof=$(seconds_of "$crate" "$from_nothing" check --jobs 1) || failed=1
  ! grep -rq '#\[test\]' "crates/$crate/src" || tests=$(seconds_of "$crate" "$from_nothing" check --test --jobs 1) || failed=1
  [ ! -d "crates/$crate/must-fail" ] || edits=$(seconds_of "$crate" "$from_nothing" must-fail --anew "$crate") || failed=1
  row "$crate" "$(minutes "$proof")" "$(minutes "$tests")" "$(minutes "$edits")" "$(minutes "$proof $tests $edits")"
  proofs+=" $proof" all_tests+=" $tests" all_edits+=" $edits"
done
row all "$(minutes "$proofs")" "$(minutes "$all_tests")" "$(minutes "$all_edits")" "$(minutes "$proofs $all_tests $all_edits")"
exit "$failed"
