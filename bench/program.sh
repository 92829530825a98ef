# What ./onll and ./prove know of the program: where it stands, and whether it was built from the sources that are there. To be sourced.
top=$(cd "$(dirname "${BASH_SOURCE[0]}")/.." && pwd) || exit 125
proved=$top/crates/onll_main/out/onll_main
tried=$top/crates/onll_main/out/tried
# The toolchain's identity, a file beside its programs.
kit=$(readlink -f "$(command -v rt)") && kit=${kit%/*/*}/KIT-ID || kit=/dev/null

# The crates that the program stands on, lowest first, itself the last.
needed() {
  awk -F': *' '
    /^#/ { next }
    { order[++n] = $1; below[$1] = $2 }
    END {
      want["onll_main"] = 1
      for (i = n; i > 0; i--) if (order[i] in want) { split(below[order[i]], names, " "); for (j in names) want[names[j]] = 1 }
      for (i = 1; i <= n; i++) if (order[i] in want) print order[i]
    }' "$top/crates.txt"
}

# The folders of what the program is: its code with the contracts, and their definitions.
folders() {
  local crate part
  for crate in $(needed); do
    for part in src specs; do [ -d "$top/crates/$crate/$part" ] && echo "crates/$crate/$part"; done
  done
}

# One number for the files there and the toolchain.
sources() {
  local parts
  mapfile -t parts < <(folders)
  (cd "$top" && find "${parts[@]}" -type f -print0 | sort -z | xargs -0 sha256sum && cat "$kit") | sha256sum
}

# Notes beside a program the number that its sources had when its build began.
note_sources() {
  echo "$2" >"$1.sources"
}

# True where this program was built from these sources. One that plain `rt` built has no note: it must be newer than all of them.
is_current() {
  local parts
  [ -x "$1" ] || return 1
  if [ "$1.sources" -nt "$1" ]; then
    [ "$(cat "$1.sources")" = "$(sources)" ]
  else
    mapfile -t parts < <(folders)
    (cd "$top" && [ -z "$(find "${parts[@]}" "$kit" -type f -newer "$1" -print -quit)" ])
  fi
}
