#!/bin/sh
# Runs the commands of examples/ on a copy of that folder, and compares what each prints and writes with what stands there.
# It searches the sources too for functions that take memory without saying so. Ends with 0, or names what differs and ends with 1.
# Usage: bench/examples.sh
# It compares what the proved program does; `ONLL= bench/examples.sh` takes a trial build where none is proved.
set -u
export ONLL="${ONLL-proved}"

top=$(cd "$(dirname "$0")/.." && pwd)
folder=$(mktemp -d)
trap 'rm -r "$folder"' EXIT
mkdir "$folder/examples"
failed=0

# Copies files of an example, without its reports and images.
take() {
    example=$1
    shift
    mkdir "$folder/examples/$example"
    for file in "$@"; do
        cp "$top/examples/$example/$file" "$folder/examples/$example/$file"
    done
}

# Compares a file that a run made with the one that stands in examples/.
compare() {
    if ! cmp -s "$folder/examples/$1" "$top/examples/$1"; then
        echo "examples/$1 differs" >&2
        failed=1
    fi
}

# Runs the program with these words, and compares what it prints with the file named first.
prints() {
    printed=$1
    shift
    if ! (cd "$folder" && "$top/onll" "$@") > "$folder/examples/$printed"; then
        echo "onll $* fails" >&2
        failed=1
    fi
    compare "$printed"
}

# Folds a script of an example over its initial state.
folds() {
    take "$1" "$2" "$3"
    prints "$1/report" fold "examples/$1/$2" "examples/$1/$3"
}

# Runs the program with these words, and compares its status and all that it prints with the first two.
ends() {
    status=$1
    text=$2
    shift 2
    said=$(cd "$folder" && "$top/onll" "$@"; echo "status $?")
    if [ "$said" != "$text
status $status" ]; then
        echo "onll $* says: $said" >&2
        failed=1
    fi
}

# What a report of a run says whatever the order of its threads was: the answers of updates and of `total` without their places,
# how many nodes there are, and the state.
common() {
    sed -n -e '/ balance /d' -e 's/^\(call .*\) at [0-9]*$/\1/p' -e '/^trace /p' -e '/^recovered /p' -e '/^state$/,$p' "$1"
}

# The nodes of a report without their flags.
nodes() {
    sed -n -e 's/^\(node [0-9]* [0-9]* [0-9]*\) set /\1 /' -e '/^node /p' "$1"
}

# Names what differs where two texts do.
same() {
    if [ "$2" != "$3" ]; then
        echo "$1: $2" >&2
        failed=1
    fi
}

folds transfer bank script
folds payroll accounts payday
folds directory names changes
folds printer waiting morning
folds locks held shift

take crash bank plan first second next third fourth
prints crash/replayed replay examples/crash/bank examples/crash/plan examples/crash/out \
    examples/crash/first examples/crash/second
compare crash/out.0
compare crash/out.1
prints crash/shown.0 show examples/crash/out.0
prints crash/shown.1 show examples/crash/out.1
prints crash/report recover examples/crash/bank examples/crash/out 2
prints crash/detected detect examples/crash/bank examples/crash/out examples/crash/first examples/crash/second
prints crash/resumed again examples/crash/bank examples/crash/next examples/crash/out \
    examples/crash/third examples/crash/fourth

take window bank plan first second third
prints window/replayed replay examples/window/bank examples/window/plan examples/window/out \
    examples/window/first examples/window/second examples/window/third
compare window/out.2
prints window/report recover examples/window/bank examples/window/out 3

take workload
prints workload/report make 4 500 7

# Draws a replay of an example, and compares it with the picture that stands in docs/.
draws() {
    example=$1
    shift
    (cd "$top/examples/$example" && "$top/bench/lanes.py" "$top/onll" bank plan "$@") | cmp -s - "$top/docs/$example.svg"
    same "the picture of $example is another" $? 0
}

draws crash first second
draws window first second third

# Of threads the order isn't known before. What they leave is the report that stands there but for the order, and the logs that they
# keep recover to the very nodes that they print.
take tickets hall door online out.0 out.1
prints tickets/recovered recover examples/tickets/hall examples/tickets/out 2
(cd "$folder" && "$top/onll" run examples/tickets/hall log examples/tickets/door examples/tickets/online) > "$folder/run"
same 'a run ends with' $? 0
(cd "$folder" && "$top/onll" recover examples/tickets/hall log 2) > "$folder/found"
same 'its recovery ends with' $? 0
same 'a run says' "$(common "$folder/run")" "$(common "$top/examples/tickets/report")"
same 'its recovery finds' "$(nodes "$folder/found")" "$(nodes "$folder/run")"
(cd "$folder" && "$top/onll" resume examples/tickets/hall log examples/tickets/door examples/tickets/online) > "$folder/resumed"
same 'a run that goes on ends with' $? 0
(cd "$folder" && "$top/onll" recover examples/tickets/hall log 2) > "$folder/more"
same 'its recovery ends with' $? 0
same 'it goes on from' "$(nodes "$folder/resumed" | head -n "$(nodes "$folder/found" | wc -l)")" "$(nodes "$folder/found")"
same 'its recovery finds' "$(nodes "$folder/more")" "$(nodes "$folder/resumed")"
same 'its report and its logs tell' "$(nodes "$top/examples/tickets/recovered")" "$(nodes "$top/examples/tickets/report")"

# An office over three eras, and what each leaves to the next.
take office hall monday tuesday wednesday
prints office/made areas evening
prints office/monday.report run examples/office/hall office examples/office/monday
prints office/monday.closed checkpoint examples/office/hall office evening 1
prints office/tuesday.report resume evening.1.init evening.1 examples/office/tuesday
prints office/tuesday.closed checkpoint examples/office/hall office evening 1
prints office/wednesday.report resume evening.0.init evening.0 examples/office/wednesday
prints office/report restore examples/office/hall office evening 1
same 'the text of an era is another' "$(cat "$folder/evening.0.init")" "$(cat "$top/examples/office/wednesday.init")"

# A second office follows the sales by a pipe.
take second_office
prints second_office/shipped ship examples/tickets/out 2 sales
mkfifo "$folder/line"
cat "$folder/sales" > "$folder/line" &
prints second_office/report follow examples/tickets/hall 2 line 100

# An auditor finds the line that was forged, in a report that was printed.
take forged report
ends 0 legal audit examples/tickets/hall run examples/tickets/door examples/tickets/online
ends 8 "$(cat "$top/examples/forged/found")" \
    audit examples/tickets/hall examples/forged/report examples/tickets/door examples/tickets/online

usage=$(sed -n '/^usage: /,/^```$/p' "$top/docs/FORMATS.md" | sed '$d')
ends 2 "$usage"
ends 2 "$usage" fold examples/transfer/bank examples/transfer/script examples/transfer/script
ends 3 'refused examples/transfer/script 1 unknown object' \
    fold examples/transfer/script examples/transfer/script
ends 3 'refused examples/payroll/accounts 2 unknown word' \
    replay examples/crash/bank examples/crash/plan examples/crash/out \
    examples/crash/first examples/payroll/accounts
echo 'no log' > "$folder/examples/crash/bad.0"
ends 4 'log 0 not a log' recover examples/crash/bank examples/crash/bad 1
ends 4 'not a log' show examples/crash/plan
ends 4 'place 1 not in the script' detect examples/crash/bank examples/crash/out examples/crash/third examples/crash/second
head -c 100 "$folder/sales" > "$folder/part"
ends 4 'stream log 0 not of this run' follow examples/crash/bank 2 part 1
ends 4 'log 0 not a log' ship examples/crash/bad 1 sales
ends 3 'refused resumed 1 bad line' audit examples/tickets/hall resumed examples/tickets/door examples/tickets/online
ends 3 'refused run 7 bad line' audit examples/tickets/hall run examples/tickets/door
ends 6 'write fault examples/none/sales' ship examples/tickets/out 2 examples/none/sales
ends 5 'read fault none.0' restore examples/office/hall office none 1
ends 6 'write fault examples/none/k.0' areas examples/none/k
ends 5 'read fault examples/none' fold examples/transfer/bank examples/none
ends 6 'write fault examples/none/out.0' replay examples/crash/bank examples/crash/plan \
    examples/none/out examples/crash/first examples/crash/second

# A full disk under the output: nothing is printed, and the status says so.
(cd "$folder" && "$top/onll" fold examples/transfer/bank examples/transfer/script) > /dev/full
status=$?
if [ $status != 6 ]; then
    echo "a full output ends with $status" >&2
    failed=1
fi

# Each command of the README ends with 0, in the order in which they stand there, in a folder with the examples alone.
mkdir "$folder/readme"
cp -r "$top/examples" "$folder/readme/examples"
for script in onll demo; do
    printf '#!/bin/sh\nexec "%s" "$@"\n' "$top/$script" > "$folder/readme/$script"
    chmod +x "$folder/readme/$script"
done
sed -n -e 's/^    \(\.\/onll .*\)$/\1/p' -e 's/^    \(\.\/demo\)$/\1/p' "$top/README.md" > "$folder/commands"
same 'the README has no commands' "$(test -s "$folder/commands"; echo $?)" 0
while read -r command; do
    (cd "$folder/readme" && sh -c "$command") > /dev/null < /dev/null
    same "$command of the README ends with" $? 0
done < "$folder/commands"

# The page of claims lists the files that the promise reaches.
"$top/bench/sceptic.py" --check || failed=1

# No function takes memory without saying so.
if ! "$top/bench/no_growth.py" >&2; then
    echo 'these functions may take memory, and have neither an allocator nor an answer for want of it' >&2
    failed=1
fi

if [ $failed = 0 ]; then
    echo 'all examples print and write what stands there'
fi
exit $failed
