#!/bin/sh
# Runs the proved program and the program before any proof on the examples, on generated scripts, on bad ones, and with words
# that are no command, and stops where they differ: in exit status, in what they write, or in their own lines on standard
# error, which come behind the one line of ./hops.

top=$(cd "$(dirname "$0")/.." && pwd) || exit 1
work=$(mktemp -d) || exit 1
trap 'rm -rf "$work"' EXIT

# Runs both with these words, over this input.
compare() {
    input=$1
    shift
    HOPS_PROVED=1 "$top/hops" "$@" <"$input" >"$work/proved" 2>"$work/proved_said"
    status=$?
    HOPS_PROVED=0 "$top/hops" "$@" <"$input" >"$work/tried" 2>"$work/said"
    tried=$?
    sed 1d "$work/said" >"$work/tried_said"
    [ $tried -eq $status ] || { echo "$input, words $*: status $status proved, and $tried before"; exit 1; }
    cmp "$work/proved" "$work/tried" && cmp "$work/proved_said" "$work/tried_said" || { echo "$input, words $*"; exit 1; }
    count=$((count + 1))
}

count=0
HOPS_PROVED=1 "$top/hops" gen 1 1 1 >/dev/null || exit 1
for script in "$top"/examples/*.json; do
    compare "$script" run
done
for words in '7 1 0' '7 1 20' '9 64 50'; do
    compare /dev/null gen $words
    cp "$work/proved" "$work/script"
    compare "$work/script" run
done
printf '{"version":1,"namenodes":17,"clients":[]}' >"$work/script"
compare "$work/script" run
compare /dev/null run
compare "$top" run
compare /dev/null
for words in walk 'run away' 'gen' 'gen 1 0 1' 'gen 1 1 5001' 'gen 1 1 x'; do
    compare /dev/null $words
done
compare /dev/null 'run ' ''
echo "$count runs, each the same by both programs"
