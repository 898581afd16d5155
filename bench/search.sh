#!/bin/sh
# Measures searches alone: proves and builds the program of search_speed.rt.in in a directory of its own, and prints processor times,
# and the memory that a search asks for once the first thousand paths are answered. It is run by hand, and is no part of the gate.
# It takes minutes where the crates were not proved before.
set -eu
here=$(cd "$(dirname "$0")" && pwd)
room=$(mktemp -d)
trap 'rm -rf "$room"' EXIT
"$here/../tests/copy_crates.sh" "$room"
echo 'search_speed: gix_attributes bstr' >>"$room/crates.txt"
mkdir -p "$room/crates/search_speed/src" "$room/crates/search_speed/proofs/answers" "$room/work"
cp "$here/search_speed.rt.in" "$room/crates/search_speed/src/main.rt"
cp "$here/search_speed_invariants.antt.in" "$room/crates/search_speed/proofs/answers/Invariants.antt"
cd "$room/work"
"$here/files.sh"
cd "$room/crates/search_speed"
rt run -- "$room/work/typical" "$room/work/paths" >/dev/null
program=$room/crates/search_speed/out/search_speed
cd "$room/work"

# The bytes that a whole run asks for, as valgrind counts them.
asked() {
    valgrind "$program" "$1" "$2" 2>&1 | sed -n 's/.*frees, \([0-9,]*\) bytes allocated.*/\1/p' | tr -d ,
}

# A thousand paths, and as many bytes as ten thousand further ones, with and without these: the text is read alike.
head -n 1000 paths >first
head -n 11000 paths >more
{
    cat first
    head -c "$(($(wc -c <more) - $(wc -c <first)))" /dev/zero | tr '\0' '\n'
} >padded
for kind in typical names-10 names-100 names-1000 names-10000 ends-10 ends-100 ends-1000 ends-10000 globs-10 globs-100 globs-1000 globs-10000; do
    echo "$kind: $(wc -l <"$kind") lines"
    "$program" "$kind" paths
    if command -v valgrind >/dev/null; then
        echo "bytes for ten thousand further paths: $(($(asked "$kind" more) - $(asked "$kind" padded)))"
    fi
done
