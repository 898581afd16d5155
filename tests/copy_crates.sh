#!/bin/sh
# Copies the crates into a directory, without what was built of them and what is tried on them.
set -eu
top=$(cd "$(dirname "$0")/.." && pwd)
cp "$top/HANDLES" "$top/crates.txt" "$1"
for crate in "$top"/crates/*/; do
    to="$1/crates/$(basename "$crate")"
    mkdir -p "$to"
    for part in src specs proofs; do
        if [ -d "$crate$part" ]; then cp -r "$crate$part" "$to"; fi
    done
done
