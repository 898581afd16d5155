#!/bin/sh
# Builds gitoxide's crates twice, with their own gix-attributes and with the one of clients/rust/gix-attributes, and compares what both
# do: over repositories that are made, and in random programs over the crate's surface. Counts instructions and memory, and has
# valgrind watch the checkout's threads. By hand: it needs the network for Debian's unstable, and an hour of a machine at rest is ample.
# usage: gitoxide.sh [DIRECTORY]
# DIRECTORY is where crates and programs are left, else they are removed. With YEKTROD_CRATES=DIRECTORY/crates tests/rust_crate.sh builds
# and tests the crate as well. The library is that of YEKTROD_LIB_DIR, or else of tools/c-library. SEED is that of the repositories
# and the first one of the programs, PROGRAMS how many are played; 1 and 20,000 without them.
set -eu
top=$(cd "$(dirname "$0")/.." && pwd)
fail() { echo "gitoxide: $1" >&2; exit 1; }
if [ $# -gt 0 ]; then
    mkdir -p "$1"
    room=$(cd "$1" && pwd)
else
    room=$(mktemp -d)
    trap 'rm -rf "$room"' EXIT
fi
for command in apt-get cargo git python3 valgrind; do
    command -v "$command" >/dev/null || fail "there is no $command here"
done
if [ -z "${YEKTROD_LIB_DIR:-}" ]; then
    "$top/tools/c-library" "$room/yektrod"
    YEKTROD_LIB_DIR=$room/yektrod/lib
fi
seed=${SEED:-1}
programs=${PROGRAMS:-20000}
RUSTUP_HOME=${RUSTUP_HOME:-$HOME/.rustup}
HOME=$room/home
export YEKTROD_LIB_DIR RUSTUP_HOME HOME
export CARGO_HOME="$room/cargo" CARGO_NET_OFFLINE=true GIT_CONFIG_GLOBAL=/dev/null GIT_CONFIG_SYSTEM=/dev/null
unset RUSTC RUSTFLAGS CARGO_TARGET_DIR CARGO_BUILD_TARGET XDG_CONFIG_HOME
mkdir -p "$HOME" "$CARGO_HOME"
rm -rf "$room/out"
mkdir "$room/out"
differences=0

# Builds the programs in $room/KIND, with the words for cargo that follow.
build() {
    kind=$1
    shift
    mkdir -p "$room/$kind"
    cp -R "$top/clients/rust/consumer/Cargo.toml" "$top/clients/rust/consumer/src" "$room/$kind/"
    (cd "$room/$kind" && CARGO_TARGET_DIR=$room/$kind/target cargo --config "$room/crates/config.toml" "$@") \
        >"$room/$kind/log" 2>&1 || { cat "$room/$kind/log" >&2; fail "cargo failed in $room/$kind"; }
}

patched_by() { printf 'patch.crates-io.gix-attributes.path="%s"' "$1"; }

# The crate of gitoxide, whose outcomes take the bodies of macros whenever they are initialized: where the count of names is the same,
# and where a body is empty.
patch_bodies() {
    rm -rf "$room/bodies"
    cp -R "$room"/crates/registry/gix-attributes-*/ "$room/bodies"
    sed -i -e 's/if self\.matches_by_id\.len() != .*{$/{/' -e 's/(!meta\.macro_attributes\.is_empty())\.then_some/true.then_some/' \
        "$room/bodies/src/search/outcome.rs"
    changed=$(diff "$room"/crates/registry/gix-attributes-*/src/search/outcome.rs "$room/bodies/src/search/outcome.rs" | grep -c '^>' || :)
    [ "$changed" = 2 ] || fail "gitoxide's crate has $changed of the 2 lines that are to be changed"
}

compare_surfaces() {
    build real doc --no-deps -p gix-attributes
    build ours --config "$(patched_by "$top/clients/rust/gix-attributes")" doc --no-deps -p gix-attributes
    python3 "$top/tests/gitoxide_surface.py" "$room/real/target/doc/gix_attributes" "$room/ours/target/doc/gix_attributes" ||
        differences=$((differences + 1))
}

# The ways in which the consumer is run over a repository: NAME MODE ARGUMENT..
ways() {
    cat <<'END'
attributes attributes worktree
selected attributes index text eol diff filter export-ignore expanded loop binary unknown
pathspec pathspec worktree :(attr:text) :(attr:eol=crlf)*.md :(exclude,attr:binary)
another pathspec index :(attr:-diff) :(attr:!eol)*.h :(attr:lang=c)*.c
filter filter
archive archive
END
}

# What a program says of a repository, into $room/out/REPOSITORY.WAY.KIND.
run() {
    program=$1 repository=$2 kind=$3
    ways | while read -r way words; do
        set -f
        set -- $words
        set +f
        mode=$1
        shift
        "$program" "$mode" "$room/repositories/$repository" "$@" >"$room/out/$repository.$way.$kind"
    done
    rm -rf "$room/out/checkout"
    "$program" checkout "$room/repositories/$repository" "$room/out/checkout" >"$room/out/$repository.checkout.$kind"
    (cd "$room/out/checkout" && find . -type f -exec sha256sum {} +) | LC_ALL=C sort >>"$room/out/$repository.checkout.$kind"
    rm -rf "$room/out/checkout"
}

# How many lines of a file are not the same in another.
differing() { python3 -c 'import sys, itertools
files = [open(path, "rb").read().split(b"\n") for path in sys.argv[1:]]
print(sum(a != b for a, b in itertools.zip_longest(*files)))' "$1" "$2"; }

# Compares two files, and counts what differs.
compare() {
    count=$(differing "$2" "$3")
    differences=$((differences + count))
    echo "gitoxide: $1: $(wc -l <"$2") lines, $count differ"
}

compare_repositories() {
    for repository in small middle large typical wide deep; do
        for kind in real ours; do run "$room/$kind/target/release/consumer" "$repository" $kind; done
        for way in $(ways | cut -d ' ' -f 1) checkout; do
            compare "$repository, $way" "$room/out/$repository.$way.real" "$room/out/$repository.$way.ours"
        done
    done
}

# With answers that are empty every way gives another output, so no other code matches.
compare_without_answers() {
    cat >"$room/out/empty.c" <<'END'
#include "yektrod.h"
int32_t __wrap_yektrod_ask_into(yektrod *y, const yektrod_question *question, yektrod_row *rows, size_t rows_room, uint8_t *text,
                                size_t text_room, yektrod_needed *needed) {
    needed->rows = needed->text = 0;
    return YEKTROD_DONE;
}
END
    cc -c -I "$top/include" -o "$room/out/empty.o" "$room/out/empty.c"
    (cd "$room/ours" && CARGO_TARGET_DIR=$room/ours/target cargo --config "$room/crates/config.toml" \
        --config "$(patched_by "$top/clients/rust/gix-attributes")" rustc --release --bin consumer -- \
        -C link-arg=-Wl,--wrap=yektrod_ask_into -C link-arg="$room/out/empty.o") >"$room/ours/log" 2>&1 ||
        { cat "$room/ours/log" >&2; fail 'the program without answers is not linked'; }
    cp "$room/ours/target/release/consumer" "$room/out/empty"
    build ours --config "$(patched_by "$top/clients/rust/gix-attributes")" build --release
    run "$room/out/empty" middle empty
    for way in $(ways | cut -d ' ' -f 1) checkout; do
        cmp -s "$room/out/middle.$way.ours" "$room/out/middle.$way.empty" && fail "$way is the same without answers"
    done
    echo "gitoxide: without answers of the library each of $(($(ways | wc -l) + 1)) ways differs"
}

compare_programs() {
    last=$((seed + programs))
    for mode in new kept; do
        for kind in real ours bodies; do
            "$room/$kind-random/target/release/random" "$seed" $last $mode >"$room/out/random.$mode.$kind"
        done
    done
    compare "$programs random programs, an outcome for each path" "$room/out/random.new.real" "$room/out/random.new.ours"
    compare "$programs random programs, an outcome that is kept, gitoxide's crate with current bodies" \
        "$room/out/random.kept.bodies" "$room/out/random.kept.ours"
    echo "gitoxide: the same with gitoxide's crate as it is: $(differing "$room/out/random.kept.real" "$room/out/random.kept.ours") differ"
}

# The instructions that a program takes for so many walks.
instructions() {
    program=$1 times=$2 repository=$3
    shift 3
    valgrind --tool=callgrind --callgrind-out-file="$room/out/callgrind" "$program" walk "$room/repositories/$repository" "$times" index "$@" \
        2>&1 >"$room/out/count" | sed -n 's/.*Collected : //p'
}

# The instructions a path and the memory in KB of a walk over a repository, of the program of a kind: KIND REPOSITORY [NAME..]
cost() {
    program=$room/$1/target/release/consumer repository=$2
    shift 2
    paths=$(git -C "$room/repositories/$repository" ls-files | wc -l)
    once=$(instructions "$program" 1 "$repository" "$@")
    thrice=$(instructions "$program" 3 "$repository" "$@")
    "$program" walk "$room/repositories/$repository" 1 index "$@" >"$room/out/count"
    echo "$(((thrice - once) / 2 / paths)) $(sed 's/.*, \(.*\) KB/\1/' "$room/out/count")"
}

measure() {
    for repository in typical wide middle deep; do
        for names in '' 'text crlf ident filter eol working-tree-encoding'; do
            set -- $(cost real $repository $names) $(cost ours $repository $names)
            echo "gitoxide: a walk over $repository, ${names:-all names}: $1 and $3 instructions a path, $(ratio "$3" "$1") times;" \
                "$2 and $4 KB"
        done
    done
}

ratio() { awk "BEGIN { printf \"%.2f\", $1 / $2 }"; }

# What valgrind reports of a checkout by threads, in both programs, and how many lines of it name this crate or the library.
watch() {
    for tool in memcheck helgrind; do
        for kind in real ours; do
            rm -rf "$room/out/checkout"
            valgrind --tool=$tool --error-limit=no --log-file="$room/out/$tool.$kind" "$room/$kind/target/release/consumer" checkout \
                "$room/repositories/middle" "$room/out/checkout" >/dev/null
        done
        own=$(grep -c 'yektrod\|gix_attributes\|attr_\|rattle_' "$room/out/$tool.ours" || :)
        differences=$((differences + own))
        echo "gitoxide: $tool of a checkout by threads: reports from $(contexts $tool real) places, with this crate from $(contexts $tool ours)," \
            "and $own lines name it or the library"
    done
}

contexts() { sed -n 's/.*ERROR SUMMARY: [0-9]* errors from \([0-9]*\) contexts.*/\1/p' "$room/out/$1.$2"; }

rm -rf "$room/repositories"
python3 "$top/tests/gitoxide_repositories.py" "$room/repositories" "$seed"
mkdir -p "$room/real"
cp -R "$top/clients/rust/consumer/Cargo.toml" "$top/clients/rust/consumer/src" "$room/real/"
python3 "$top/tests/gitoxide_crates.py" "$room/crates" "$room/real"
build real build --release
build ours --config "$(patched_by "$top/clients/rust/gix-attributes")" build --release
patch_bodies
build real-random build --release --no-default-features --bin random
build ours-random --config "$(patched_by "$top/clients/rust/gix-attributes")" build --release --no-default-features --bin random
build bodies-random --config "$(patched_by "$room/bodies")" build --release --no-default-features --bin random
versions=$(cd "$room/crates/registry" && echo gix-[0-9]* gix-attributes-* gix-glob-* gix-worktree-[0-9]*)
compare_surfaces
compare_repositories
compare_programs
watch
measure
compare_without_answers
echo "gitoxide: seed $seed, $programs programs; $versions; $(cargo --version); libyektrod.a $(sha256sum "$YEKTROD_LIB_DIR/libyektrod.a" | cut -c 1-12)"
[ "$differences" = 0 ] || fail "$differences differences"
echo 'gitoxide: no difference but those of old bodies'
