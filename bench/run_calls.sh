#!/bin/sh
# Times (processor seconds) runs of 1,000, 8,000 and 65,536 calls that look at one path or make a file each, with paths of two names and of a
# hundred.

top=$(cd "$(dirname "$0")/.." && pwd) || exit 1
work=$(mktemp -d) || exit 1
trap 'rm -rf "$work"' EXIT

HOPS_PROVED=1 "$top/hops" gen 7 1 1 >/dev/null || exit 1
long=$(printf '/a%.0s' $(seq 99))

# The script of so many calls: the first makes the directory, the others look at a file there or make one each.
script() {
    printf '{"version":1,"namenodes":1,"clients":[{"user":"ann","calls":[["mkdirs","%s"]' "$3"
    case $2 in
        stat) yes ",[\"stat\",\"$3/f\"]" | head -n $(($1 - 1)) | tr -d '\n' ;;
        create) seq $(($1 - 1)) | sed "s|.*|,[\"create\",\"$3/&\",false]|" | tr -d '\n' ;;
    esac
    printf ']}]}'
}

for call in stat create; do
    for directory in /a "$long"; do
        for count in 1000 8000 65536; do
            script "$count" "$call" "$directory" >"$work/script"
            printf '%s calls of %s, paths of %s bytes: ' "$count" "$call" "${#directory}"
            command time -f '%U s, %M KiB' "$top/crates/hops_cli/out/hops_cli" run <"$work/script" 2>"$work/said" >"$work/report"
            tail -n 1 "$work/said"
        done
    done
done
