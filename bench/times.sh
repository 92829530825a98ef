# Shared by the benchmarks, which read it by `.`: it finds the built program, makes a folder for the files, and times runs.
# It uses $runs, and sets $top, $program and $folder.

top=$(cd "$(dirname "$0")/.." && pwd)
program=$top/crates/onll_main/out/onll_main
# (with no words it ends with 2, the usage text's status)
status=0
ONLL=proved "$top/onll" > /dev/null || status=$?
if [ $status = 125 ]; then
    exit 1
fi

folder=$(mktemp -d)
trap 'rm -r "$folder"' EXIT

# Runs the program with these words so often, its report into the file `report`, and prints the median time.
time_runs() {
    run=0
    while [ "$run" -lt "$runs" ]; do
        start=$(date +%s%N)
        "$program" "$@" > report
        end=$(date +%s%N)
        echo $(((end - start) / 1000))
        run=$((run + 1))
    done | sort -n > times
    awk -v bytes="$(wc -c < report)" '
        { time[NR] = $1 }
        END {
            middle = int((NR + 1) / 2)
            printf "%d runs, a report of %d bytes: median %d, least %d, greatest %d microseconds\n", \
                NR, bytes, time[middle], time[1], time[NR]
        }' times
}
