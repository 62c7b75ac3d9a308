# What the scripts that time programs share; they read this file with `.`.

# the built program of a crate, or a message
program_of() {
  local top program
  top=$(cd "$(dirname "${BASH_SOURCE[0]}")/.." && pwd)
  program=$top/crates/$1/out/$1
  [ -x "$program" ] || { echo "bench: no program at $program: build it first, by rt run in its crate's folder" >&2; return 1; }
  echo "$program"
}

# the processor time of one run of a program with these words, in nanoseconds, to the millisecond
time_of() {
  local TIMEFORMAT='%3U %3S' seconds user system
  seconds=$({ time "$@" >/dev/null 2>&1; } 2>&1) || { echo "bench: the run failed: $*" >&2; return 1; }
  read -r user system <<<"$seconds"
  echo "$((10#${user/./} + 10#${system/./}))000000"
}

# The nanoseconds of processor time that the turns of a figure of crates/bench take: its name, its size, its turns and maybe its kind.
# The time of a run without a turn is taken off.
taken_by() {
  local program name=$1 size=$2 turns=$3 none all
  shift 3
  program=$(program_of bench) || return 1
  none=$(time_of "$program" "$name" "$size" 0 "$@") || return 1
  all=$(time_of "$program" "$name" "$size" "$turns" "$@") || return 1
  echo $((all - none))
}
