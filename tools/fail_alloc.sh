#!/bin/sh
# Runs a script once for each allocation, with that one failing, until no more is made. Each run must end with status 7
# and write a front of the report, or, where less is asked for in its place, end with status 0 and write all of it.
# Usage: tools/fail_alloc.sh [SCRIPT]

library=fail_alloc
. "$(dirname "$0")/set_up.sh"

number=0
last=0
refused=0
while [ $((number - last)) -lt 50 ]; do
    number=$((number + 1))
    FAIL_ALLOC=$number LD_PRELOAD=$work/fail.so "$program" run <"$script" >"$work/part" 2>/dev/null
    status=$?
    case $status in
        0) cmp -s "$work/part" "$work/whole" || { echo "allocation $number: status 0 and another report"; exit 1; } ;;
        7) head -c "$(wc -c <"$work/part")" "$work/whole" | cmp -s - "$work/part" || { echo "allocation $number: no front of the report"; exit 1; }
           last=$number
           refused=$((refused + 1)) ;;
        *) echo "allocation $number: status $status"; exit 1 ;;
    esac
done
echo "allocations that failed in turn: $last, of which $refused ended with status 7, and the others with the whole report"
