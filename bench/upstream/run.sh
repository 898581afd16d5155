#!/bin/sh
# Runs gitoxide's own gix-attributes 0.37.0, which it fetches from Debian's unstable while that has it: the rows of
# docs/DIFFERENCES.md and docs/FROM_GITOXIDE.md, which it compares with what the crate does, or a script (docs/SCRIPT.md).
# By hand, and no part of the gate: it needs cargo, and the network once. The rows take a minute.
# usage: run.sh rows
#        run.sh play [FILE..] <SCRIPT
#        run.sh measured <SCRIPT
# UPSTREAM_DIR names the directory where the crates and the program are kept. Without it they are made anew, and removed.
#
# 0.37.0 differs from 0.36.0, which this repository carries over, in error types, in `io::Result` of `add_patterns_buffer` and
# `List::from_bytes`, and in the file of the system on Windows. Of the rows only that of the source `/` depends on it.
set -eu
top=$(cd "$(dirname "$0")/../.." && pwd)
case ${1:-} in
rows) set -- rows "$top" ;;
play | measured) ;;
*) sed -n 's/^# \(usage: \|       \)/\1/p' "$0" >&2; exit 2 ;;
esac
room=${UPSTREAM_DIR:-}
if [ -z "$room" ]; then
    room=$(mktemp -d)
    trap 'rm -rf "$room"' EXIT
fi
mkdir -p "$room/upstream"
room=$(cd "$room" && pwd)
cp -R "$top/bench/upstream/Cargo.toml" "$top/bench/upstream/src" "$room/upstream/"
if [ ! -d "$room/crates/registry/gix-attributes-0.37.0" ]; then
    python3 "$top/tests/gitoxide_crates.py" "$room/crates" "$room/upstream" </dev/null >&2
fi
cargo --config "$room/crates/config.toml" build --quiet --release --offline --manifest-path "$room/upstream/Cargo.toml" \
    --target-dir "$room/target" </dev/null
"$room/target/release/upstream" "$@"
