#!/bin/sh
# Times `onll recover` on the logs of 16 threads with 65,536 updates in all.
# Usage: bench/recover.sh [RUNS]
# Build the program first, by `./prove`.
set -eu

runs=${1:-10}
. "$(dirname "$0")/times.sh"
python3 "$top/bench/logs.py" "$folder"
cd "$folder"

# Each of the 64 accounts had 1,000 and was given 1 in 1,024 updates.
"$program" recover bank log 16 > report
if [ "$(tail -n 1 report)" != "account 63 2024" ] || ! grep -q '^recovered 65536$' report; then
    echo "the report is wrong" >&2
    exit 1
fi
time_runs recover bank log 16
