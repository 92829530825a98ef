#!/usr/bin/env bash
# Shows the system calls of a log over a file: for each append one write at an offset and one fdatasync, and nothing else.
# It runs, unproved, the test of tests_outside that goes on in a log over a file, under strace: a new log with three entries, and
# a fourth entry after the file was reopened. Each line of its output is what the program called from a device's first write
# to its last fence; the first two calls of a new log are its header's.
# Usage: bench/fences.sh
top=$(cd "$(dirname "${BASH_SOURCE[0]}")/.." && pwd) || exit 1
trace=$(mktemp) || exit 1
trap 'rm -f "$trace"' EXIT
cd "$top/crates/tests_outside" || exit 1
strace -f -o "$trace" rt try --test -- logs::a_log_over_a_file_goes_on >/dev/null || exit 1
file='"onll_tests_next/log.0"'
program=$(grep -F "$file" "$trace" | tail -n 1 | awk '{ print $1 }')
awk -v program="$program" '
  $1 != program || $2 == "<..." { next }
  { split($2, call, "(") }
  # A device is made, or a file kept: what follows is counted from its first write on.
  call[1] == "fsync" { if (fencing) print fenced; made = 1; fencing = 0; calls = ""; next }
  call[1] == "openat" && fencing { print fenced; fencing = 0; calls = "" }
  call[1] == "openat" && /O_CREAT/ { made = 0 }
  made && call[1] == "pwrite64" { fencing = 1 }
  fencing { calls = calls " " call[1] }
  fencing && call[1] == "fdatasync" { fenced = substr(calls, 2) }' "$trace"
