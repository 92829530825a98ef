#!/bin/sh
# Copies crates, and all that they stand on, into a repository of one's own, with their lines of crates.txt, and the scripts that build a
# program without proofs, take libraries that this machine has proved, and check a function before the crates below are proved.
# Usage: bench/take.sh FOLDER CRATE..
# FOLDER is the top of that repository. A crate that stands there is replaced. Must-fail edits, and what was built, stay here.
set -eu

top=$(cd "$(dirname "$0")/.." && pwd)
to=$1
shift
mkdir -p "$to/crates"
touch "$to/crates.txt"
[ -e "$to/HANDLES" ] || cp "$top/HANDLES" "$to/HANDLES"
for crate in $(awk -F': *' -v names="$*" '
    BEGIN { count = split(names, name, " "); for (i = 1; i <= count; i++) want[name[i]] = 1 }
    /^#/ { next }
    { order[++n] = $1; below[$1] = $2 }
    END {
        for (i = n; i > 0; i--) if (order[i] in want) { split(below[order[i]], on, " "); for (j in on) want[on[j]] = 1 }
        for (i = 1; i <= n; i++) if (order[i] in want) print order[i]
    }' "$top/crates.txt"); do
    rm -rf "$to/crates/$crate"
    mkdir "$to/crates/$crate"
    for part in src specs proofs; do
        [ ! -d "$top/crates/$crate/$part" ] || cp -r "$top/crates/$crate/$part" "$to/crates/$crate/$part"
    done
    grep -q "^$crate:" "$to/crates.txt" || grep "^$crate:" "$top/crates.txt" >> "$to/crates.txt"
    echo "$crate"
done
mkdir -p "$to/bench"
for script in unproved.py check_ahead.py libs.py toolchain.py; do
    cp "$top/bench/$script" "$to/bench/$script"
done
