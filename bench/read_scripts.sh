#!/bin/sh
# Times the reading of generated scripts of 1.4 to 16 MiB, and shows the memory that it takes. The scripts ask for what
# isn't built, so each run ends after the reading, with status 8.

top=$(cd "$(dirname "$0")/.." && pwd) || exit 1
work=$(mktemp -d) || exit 1
trap 'rm -rf "$work"' EXIT

HOPS_PROVED=1 "$top/hops" gen 7 1 1 >/dev/null || exit 1
for clients in 8 16 32 64; do
    "$top/crates/hops_cli/out/hops_cli" gen 7 "$clients" 5000 >"$work/script" || exit 1
    if [ "$clients" = 64 ]; then
        size=$(wc -c <"$work/script")
        head -c $((16777216 - size)) /dev/zero | tr '\0' ' ' >>"$work/script"
    fi
    printf '%s bytes: ' "$(wc -c <"$work/script")"
    command time -f '%e s, %M KiB' "$top/crates/hops_cli/out/hops_cli" run <"$work/script" 2>"$work/said"
    tail -n 1 "$work/said"
done
