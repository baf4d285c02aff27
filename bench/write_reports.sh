#!/bin/sh
# Times runs whose reports have 15 to 100 MB. Each script makes the same 25 chains of 999 directories, with names of 1, 3, 5
# and 7 bytes, so that the rows stay as many and the report alone grows.

top=$(cd "$(dirname "$0")/.." && pwd) || exit 1
work=$(mktemp -d) || exit 1
trap 'rm -rf "$work"' EXIT

script() {
    awk -v long="$1" 'BEGIN {
        name = substr("abcdefghij", 1, long)
        for (i = 0; i < 999; i++) rest = rest "/" name
        printf "{\"version\":1,\"namenodes\":1,\"clients\":[{\"user\":\"ann\",\"calls\":["
        for (i = 0; i < 25; i++) printf "%s[\"mkdirs\",\"/%c%s\"]", (i ? "," : ""), 65 + i, rest
        print "]}]}"
    }'
}

HOPS_PROVED=1 "$top/hops" gen 7 1 1 >/dev/null || exit 1
for long in 1 3 5 7; do
    script "$long" >"$work/script"
    command time -f '%e s, %M KiB' "$top/crates/hops_cli/out/hops_cli" run <"$work/script" >"$work/report" 2>"$work/said" || exit 1
    printf '%s bytes: %s\n' "$(wc -c <"$work/report")" "$(tail -n 1 "$work/said")"
done
