#!/bin/sh
# Measures matches of kept patterns: proves attr_glob and the program of match_speed.rt.in in a directory of its own, and
# runs the program. The gate takes any .rt file for one of a crate, so the program's name ends otherwise.
set -eu
here=$(cd "$(dirname "$0")" && pwd)
room=$(mktemp -d)
trap 'rm -rf "$room"' EXIT
"$here/../tests/copy_crates.sh" "$room"
echo 'match_speed: attr_glob bstr' >>"$room/crates.txt"
mkdir -p "$room/crates/match_speed/src"
cp "$here/match_speed.rt.in" "$room/crates/match_speed/src/main.rt"
cd "$room/crates/match_speed"
rt run
