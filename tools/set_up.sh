# Begins a tool that makes calls of the program fail one by one, and is read by it with `.`: the script to run, a folder to work in, the
# library that is loaded ahead of the program ($library names its C file), the program, and the report that must come.

top=$(cd "$(dirname "$0")/.." && pwd) || exit 1
script=${1:-$top/examples/first_script.json}
program=$top/crates/hops_cli/out/hops_cli
work=$(mktemp -d) || exit 1
trap 'rm -rf "$work"' EXIT
cc -shared -fPIC -O1 -o "$work/fail.so" "$top/tools/$library.c" -ldl || exit 1
HOPS_PROVED=1 "$top/hops" run <"$script" >"$work/whole" || exit 1
