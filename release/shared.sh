# What ./ampi, tests/run and the scripts of this folder share: they set `top`, and read this file with `.`.

# where a build of the program leaves it, where it is kept, and what is said of the kept one
built=$top/crates/ampi/out/ampi
kept=$top/release/ampi
sources=$top/release/SOURCES

# the lines of crates.txt for the program's crate and for each that it stands on, by name
code_lines() {
  local -A lines seen
  local line crate below left=(ampi)
  while IFS= read -r line; do lines[${line%%[: ]*}]=$line; done < <(grep '^[a-z]' "$top/crates.txt")
  while [ ${#left[@]} -gt 0 ]; do
    crate=${left[0]} left=("${left[@]:1}")
    # (a library of the kit has no line)
    [ -n "${lines[$crate]+is}" ] && [ -z "${seen[$crate]+is}" ] || continue
    seen[$crate]=is
    read -ra below <<<"${lines[$crate]#*:}"
    left+=(${below[@]+"${below[@]}"})
    echo "${lines[$crate]}"
  done | LC_ALL=C sort
}

# the code of these crates: their .rt files, by name, seen from the top
code_files() {
  (cd "$top" && code_lines | sed 's/[: ].*//' | while read -r crate; do find "crates/$crate/src" -name '*.rt'; done | LC_ALL=C sort)
}

checksum() { sha256sum | cut -d ' ' -f 1; }

# the checksum of these lines, and of each file's checksum and name
code_sum() {
  (cd "$top" && { code_lines && code_files | xargs sha256sum; } | checksum)
}

# what SOURCES says of the kit, and of the linker in it that makes programs; and the same of the kit that is here
tools_named() { sed -n '/^kit /p;/^linker /p' "$sources"; }
tools_here() {
  local kit
  kit=$(dirname "$(readlink -f "$(command -v rt)")")/..
  echo "kit $(rt version)"
  echo "linker $("$kit/toolchain/bin/ld.lld" --version)"
}

# whether the built program is there, and older than nothing that it is built from
is_built() {
  local file
  [ -x "$built" ] && [ ! "$top/crates.txt" -nt "$built" ] || return 1
  while read -r file; do [ ! "$top/$file" -nt "$built" ] || return 1; done < <(code_files)
}

# whether the kept program is the one that SOURCES tells of, and built from the code that is here
is_kept() {
  [ -x "$kept" ] && grep -qsx "program $(checksum <"$kept")" "$sources" && grep -qsx "code $(code_sum)" "$sources"
}
