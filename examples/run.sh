#!/bin/sh
# Runs the scripts and the programs (*.rt.in) of this directory, and compares their output with the answers beside them. The program
# check_attr_cli has to be built before, by the gate or by `rt run` in its directory. The programs are run without a proof, side
# by side, which takes a minute.
set -eu
here=$(cd "$(dirname "$0")" && pwd)
room=$(mktemp -d)
trap 'rm -rf "$room"' EXIT
for script in "$here"/*.script; do
    answers=${script%.script}.answers
    "$here/../crates/check_attr_cli/out/check_attr_cli" <"$script" | diff "$answers" -
    echo "run: $(basename "$script") gives $(basename "$answers")"
done
programs='first ask walk lines engine'
"$here/../tests/copy_crates.sh" "$room"
for name in $programs; do
    echo "$name: gix_attributes bstr anyhow" >>"$room/crates.txt"
    mkdir -p "$room/crates/$name/src"
    cp "$here/$name.rt.in" "$room/crates/$name/src/main.rt"
done
for name in $programs; do
    (cd "$room/crates/$name" && rt try --seconds 60 >"$room/$name.said" 2>"$room/$name.errors" || true) &
done
wait
for name in $programs; do
    diff "$here/$name.answers" "$room/$name.said" || { cat "$room/$name.errors"; exit 1; }
    echo "run: $name.rt.in gives $name.answers"
done
