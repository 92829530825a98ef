#!/bin/sh
# Times `onll replay` on a schedule of 2,000,360 steps of 16 threads with 63,504 updates in all.
# Usage: bench/replay.sh [RUNS]
# Build the program first, by `./prove`.
set -eu

runs=${1:-10}
. "$(dirname "$0")/times.sh"
python3 "$top/bench/schedule.py" "$folder"
cd "$folder"
scripts="script script script script script script script script"
scripts="$scripts $scripts"

# Each thread's calls all return, and each makes one fence.
"$program" replay bank plan log $scripts > report
if [ "$(grep -c ' -> ok at ' report)" != 63504 ] || ! grep -q '^recovered 63504$' report ||
    [ "$(grep -c 'fences 3969$' report)" != 16 ]; then
    echo "the report is wrong" >&2
    exit 1
fi
time_runs replay bank plan log $scripts
