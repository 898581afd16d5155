#!/bin/sh
# Adds a file of 2.5 MB with 73,000 names of attributes that share one bucket of a table by std's hash, in five macros, and asks for a
# path. It takes a second of the processor. A program that finds names by that hash would take many times the ten that it may.
# usage: crowded_names.sh [PROGRAM]
set -eu
LC_ALL=C
export LC_ALL
top=$(cd "$(dirname "$0")/.." && pwd)
program=${1:-$top/crates/check_attr_cli/out/check_attr_cli}
[ -x "$program" ] || { echo "crowded_names: there is no $program: build it with rt run" >&2; exit 1; }
room=$(mktemp -d)
trap 'rm -rf "$room"' EXIT
cc -O3 -o "$room/crowd" "$top/bench/crowd.c"
"$room/crowd" 73000 13 >"$room/names"
first=$(head -n 1 "$room/names")
last=$(tail -n 1 "$room/names")
body=$(tr '\n' ' ' <"$room/names")
for macro in m1 m2 m3 m4 m5; do
    echo "[attr]$macro $body"
done >"$room/file"
echo '* m5' >>"$room/file"
{
    printf 'add m 1 0 %d\nx' "$(wc -c <"$room/file")"
    cat "$room/file"
    printf '\nnames 2\n%s\n%s\nask l s f 1\nf\n' "$first" "$last"
} >"$room/script"
printf 'f: %s: set\nf: %s: set\n' "$first" "$last" >"$room/wanted"
status=0
(ulimit -t 10 && exec "$program" <"$room/script" >"$room/told") || status=$?
if [ "$status" != 0 ]; then
    echo "crowded_names: the program ended with status $status, and may take 10 seconds of the processor" >&2
    exit 1
fi
cmp "$room/wanted" "$room/told"
echo "crowded_names: $(wc -c <"$room/file") bytes of names that share a bucket were read"
