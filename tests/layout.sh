#!/bin/sh
# Checks that `rt fmt` would change no file of a crate, that no source forgets a value (a proof would let it, and what the value owns
# would never be freed) but the program, which ends then, and that a directory has one word. It takes two seconds. `rt ci` checks the
# layout too, but each crate when its turn comes.
set -eu
cd "$(dirname "$0")/.."
find crates -path '*/out' -prune -o \( -name '*.rt' -o -name '*.antt' \) -type f -exec rattle fmt --check {} + ||
    { echo 'layout: run `rt fmt` in the directory of each crate that is named above' >&2; exit 1; }
if grep -rnw --include='*.rt' --exclude-dir=out forget crates | grep -v '^crates/check_attr/src/command\.rt:'; then
    echo 'layout: a value that is forgotten is never freed: drop it, or move it' >&2
    exit 1
fi
# Git's pages say directory.
if grep -rniI --exclude-dir=out --exclude-dir=.git --exclude-dir=target --exclude-dir=dist 'f[o]lder' \
    crates docs tests tools bench clients examples include ./*.md; then
    echo 'layout: say directory, as git does' >&2
    exit 1
fi
# An element of a list has an index, and a byte of a text an offset. `Place` of the library for C says where a list applies.
if grep -rnE --include='*.rt' --include='*.antt' --exclude-dir=out \
    '^([^/-]|/[^/]|-[^-])*((^|[^A-Za-z])place|Place)[sd]?([^a-z]|$)' crates/*/src crates/*/specs |
    grep -vE '^crates/yektrod/(src/lists\.rt|specs/(Lib|Places)\.antt):'; then
    echo 'layout: say index of a list, or offset of a text' >&2
    exit 1
fi
