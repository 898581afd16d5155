#!/bin/sh
# Measures `MetadataCollection::holds` over many lists, macros and names, at n, 2n and 4n: proves and builds the program of
# holds_speed.rt.in in a directory of its own. It is run by hand, and is no part of the gate. It takes minutes where the crates were
# not proved before.
set -eu
here=$(cd "$(dirname "$0")" && pwd)
room=$(mktemp -d)
trap 'rm -rf "$room"' EXIT
"$here/../tests/copy_crates.sh" "$room"
echo 'holds_speed: gix_attributes' >>"$room/crates.txt"
mkdir -p "$room/crates/holds_speed/src" "$room/files"
cp "$here/holds_speed.rt.in" "$room/crates/holds_speed/src/main.rt"
cd "$room/crates/holds_speed"
rt run >/dev/null
program=$room/crates/holds_speed/out/holds_speed
cd "$room/files"

# The file, so often.
repeated() {
    awk -v name="$1" -v n="$2" 'BEGIN { for (i = 0; i < n; i++) print name }'
}

printf '[attr]m\n' >m
printf 'x a\n' >a
for n in 5000 10000 20000; do
    repeated m "$n" | xargs -s 2000000 "$program" | sed "s/^/$n lists of one macro: /"
done
for n in 5000 10000 20000; do
    awk -v n="$n" 'BEGIN { for (i = 0; i < n; i++) printf "x a%d\n", i }' >names
    { echo names && repeated a "$n"; } | xargs -s 2000000 "$program" | sed "s/^/$n names, and as many lists without macros: /"
done
for n in 5000 10000 20000; do
    awk -v n="$n" 'BEGIN { for (i = 0; i < n; i++) printf "[attr]m%d a\n", i }' >macros
    "$program" macros | sed "s/^/$n macros of one list: /"
done
for n in 5000 10000 20000; do
    repeated '[attr]m' "$n" >same
    "$program" same | sed "s/^/$n definitions of one macro in one list: /"
done
