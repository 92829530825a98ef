#!/bin/sh
# Times `onll fold` on the largest bank and script: 4,096 accounts, updates and reads.
# Usage: bench/fold.sh [RUNS]
# Build the program first, by `./prove`.
set -eu

runs=${1:-10}
. "$(dirname "$0")/times.sh"
cd "$folder"

awk 'BEGIN {
    print "bank 4096"
    for (account = 0; account < 4096; account++) print "account", account, 3 * account
}' > init
awk 'BEGIN {
    for (account = 0; account < 4096; account++) {
        print "deposit", account, account
        print "balance", account
    }
}' > script

# The report ends with the last account, which had 12,285 and was given 4,095.
"$program" fold init script > report
if [ "$(tail -n 1 report)" != "account 4095 16380" ]; then
    echo "the report is wrong" >&2
    exit 1
fi
time_runs fold init script
