#!/bin/sh
# Builds and tests the Rust packages of clients/rust over the library for C, without a network: with Debian's cargo and rustc, the
# oldest that the packages are for, and with the cargo that is first on PATH, if it is another one. No warning is let pass. The tests
# compare with git.
# usage: rust_crate.sh [DIRECTORY]
# DIRECTORY is one that tools/c-library made. Without it the directory YEKTROD_LIB_DIR has the archive, or the directory is made here, of
# the library that is built in crates/yektrod. The crate gix-attributes is built of the crates in the directory YEKTROD_CRATES, which
# tests/gitoxide.sh leaves, or else left out.
set -eu
top=$(cd "$(dirname "$0")/.." && pwd)
room=$(mktemp -d)
trap 'rm -rf "$room"' EXIT
fail() { echo "rust_crate: $1" >&2; exit 1; }

if [ $# -gt 0 ]; then
    lib=$(cd "$1/lib" && pwd)
elif [ -n "${YEKTROD_LIB_DIR:-}" ]; then
    lib=$(cd "$YEKTROD_LIB_DIR" && pwd)
else
    "$top/tools/c-library" "$room/yektrod"
    lib=$room/yektrod/lib
fi
for command in git /usr/bin/cargo /usr/bin/rustc; do
    command -v "$command" >/dev/null || fail "there is no $command here"
done

# What rustup has stays where it is.
RUSTUP_HOME=${RUSTUP_HOME:-$HOME/.rustup}
HOME=$room/home
CARGO_HOME=$room/cargo
CARGO_NET_OFFLINE=true
RUSTFLAGS='-D warnings'
RUSTDOCFLAGS='-D warnings'
YEKTROD_LIB_DIR=$lib
export RUSTUP_HOME HOME CARGO_HOME CARGO_NET_OFFLINE RUSTFLAGS RUSTDOCFLAGS YEKTROD_LIB_DIR
unset RUSTC CARGO_TARGET_DIR CARGO_BUILD_TARGET
mkdir "$HOME" "$CARGO_HOME" "$room/rust"
for it in "$top"/clients/rust/*; do
    [ "${it##*/}" = target ] || cp -R "$it" "$room/rust/"
done
cd "$room/rust"

# Runs a command in silence, and shows what it says if it fails.
quiet() { "$@" >"$room/said" 2>&1 || { cat "$room/said" >&2; fail "failed: $*"; }; }

# All that is tried with a cargo, in a target directory of its own.
try() {
    cargo=$1
    CARGO_TARGET_DIR=$room/target-$2
    export CARGO_TARGET_DIR
    quiet "$cargo" test --offline --locked --workspace
    tests=$(awk '/^test result: ok/ { count += $4 } END { print count }' "$room/said")
    quiet "$cargo" doc --offline --locked --workspace --no-deps
    printf 'text: set\neol: lf\n' >"$room/wanted"
    "$cargo" run --quiet --offline --locked --example first >"$room/said"
    diff "$room/wanted" "$room/said" || fail 'the example prints something else'
    echo "rust_crate: with $("$cargo" --version), $tests tests pass"
}

# The archive is found by pkg-config too, and where there is none the build ends with one line.
finds_the_archive() {
    if command -v pkg-config >/dev/null && [ -f "$lib/pkgconfig/yektrod.pc" ]; then
        quiet env -u YEKTROD_LIB_DIR PKG_CONFIG_PATH="$lib/pkgconfig" "$1" build --offline --locked -p yektrod --example first
    else
        echo 'rust_crate: there is no pkg-config here, so this is left out: the archive as it finds it'
    fi
    if YEKTROD_LIB_DIR=$room "$1" build --offline --locked -p yektrod >"$room/said" 2>&1; then
        fail 'a build without the archive succeeds'
    fi
    grep -q '^ *yektrod: there is no libyektrod.a: set YEKTROD_LIB_DIR' "$room/said" ||
        { cat "$room/said" >&2; fail 'no line says what is missing'; }
}

# The crate gix-attributes, in a workspace of its own, as it needs crates of gitoxide.
for_gitoxide() {
    if [ -z "${YEKTROD_CRATES:-}" ]; then
        echo 'rust_crate: YEKTROD_CRATES names no crates of tests/gitoxide.sh, so this is left out: the crate gix-attributes'
        return
    fi
    CARGO_TARGET_DIR=$room/target-gitoxide
    export CARGO_TARGET_DIR
    cd "$room/rust/gix-attributes"
    for what in test 'doc --no-deps'; do
        quiet "$1" --config "$YEKTROD_CRATES/config.toml" $what --offline
    done
    quiet "$1" fmt --check
    echo 'rust_crate: the crate gix-attributes is built, and its tests pass'
}

RUSTC=/usr/bin/rustc RUSTDOC=/usr/bin/rustdoc
export RUSTC RUSTDOC
try /usr/bin/cargo debian
finds_the_archive /usr/bin/cargo
unset RUSTC RUSTDOC
other=$(command -v cargo)
if [ "$(readlink -f "$other")" != "$(readlink -f /usr/bin/cargo)" ]; then
    try "$other" other
    if "$other" fmt --version >/dev/null 2>&1; then
        quiet "$other" fmt --all --check
    else
        echo 'rust_crate: there is no rustfmt here, so this is left out: the layout'
    fi
fi
for_gitoxide "$other"
