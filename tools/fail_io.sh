#!/bin/sh
# Runs a script in pieces of 1, 7 and 100 bytes and whole, once without a fault and once for each read and each write,
# with that one failing. A failed read must end with status 4 and write nothing, a failed write with status 5 and a front
# of the report, all else with status 0 and all of it. Usage: tools/fail_io.sh [SCRIPT]

library=fail_io
. "$(dirname "$0")/set_up.sh"

# Tries each number in turn until nothing fails. The first word is the variable that names the call, the second the
# status that must follow, the third what the calls are.
try_each() {
    number=1
    while :; do
        env "$1=$number" "PIECE=$piece" "LD_PRELOAD=$work/fail.so" "$program" run <"$script" >"$work/part" 2>"$work/said"
        status=$?
        [ $status -eq 0 ] && break
        [ $status -eq "$2" ] || { echo "$1 $number, pieces of $piece: status $status"; exit 1; }
        [ "$2" -eq 4 ] && [ -s "$work/part" ] && { echo "$1 $number, pieces of $piece: something was written"; exit 1; }
        head -c "$(wc -c <"$work/part")" "$work/whole" | cmp -s - "$work/part" || { echo "$1 $number, pieces of $piece: no front of the report"; exit 1; }
        number=$((number + 1))
    done
    cmp -s "$work/part" "$work/whole" || { echo "pieces of $piece: another report"; exit 1; }
    printf ' each of %s %s;' $((number - 1)) "$3"
}

for piece in 1 7 100 1000000; do
    printf 'pieces of %s:' "$piece"
    try_each FAIL_READ 4 reads
    try_each FAIL_WRITE 5 writes
    echo ' all as they must'
done
