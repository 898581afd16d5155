#!/bin/sh
# Packs a release twice, in directories of other names, with a library that is built twice: the bytes have to be the same.
# It wants `tools/dist` to refuse what is not proved. Then it tries the release where the kit can't be seen: an empty
# directory is mounted over it, and PATH has the system's directories alone. tools/prove has to have left out/proved.
# The release is left in dist/.
# usage: release.sh
# Where mounting is refused, it fails; with YEKTROD_NO_UNSHARE=1 the kit is hidden by PATH alone, and the last line says
# so.
set -eu
umask 022
LC_ALL=C
export LC_ALL
top=$(cd "$(dirname "$0")/.." && pwd)
fail() { echo "release: $1" >&2; exit 1; }
quiet() { "$@" >"$room/said" 2>&1 || { cat "$room/said" >&2; fail "failed: $*"; }; }

# A clone of the last commit with what was proved in this tree.
clone() {
    git clone -q --no-local "$top" "$1"
    mkdir -p "$1/out" "$1/crates/yektrod/out" "$1/crates/check_attr_cli/out"
    cp "$top/out/proved" "$1/out/"
    cp "$top/crates/check_attr_cli/out/check_attr_cli" "$1/crates/check_attr_cli/out/"
    cp "$top/crates/yektrod/out/libyektrod.a" "$1/crates/yektrod/out/"
}

# Packs twice. The second library is built anew, over the crates below that are proved in this tree.
packs() {
    clone "$room/one"
    clone "$room/other name/of a deeper directory"
    cd "$room/other name/of a deeper directory"
    for crate in "$top"/crates/*/out/rlib; do
        crate=${crate%/out/rlib}
        mkdir -p "crates/${crate##*/}/out"
        ln -s "$crate/out/rlib" "crates/${crate##*/}/out/rlib"
    done
    rm crates/yektrod/out/libyektrod.a
    quiet tools/archive
    quiet tools/dist
    (cd "$room/one" && quiet tools/dist)
    diff "$room/one/dist/SHA256SUMS" dist/SHA256SUMS || fail 'two directories give other bytes'
    cd "$room/one/dist"
    quiet sha256sum -c SHA256SUMS
    echo "release: packed twice, with the same bytes: $(wc -l <SHA256SUMS) files"
    rm -rf "$top/dist"
    cp -R . "$top/dist"
}

# refused WORDS: tools/dist in the current directory ends with one line that has these words, and packs nothing.
refused() {
    rm -rf dist
    if tools/dist >"$room/said" 2>&1; then fail "packed, and not refused: $1"; fi
    tail -n 1 "$room/said" | grep -q "^dist: .*$1" || { cat "$room/said" >&2; fail "refused for something else than: $1"; }
    [ ! -e dist ] || fail "a release is left, though it is refused: $1"
}

# What must not be packed.
refusals() {
    git clone -q --no-local "$top" "$room/tried"
    cd "$room/tried"
    (cd crates/check_attr_cli && quiet rt try <stdin)
    refused 'nothing is proved here'
    clone "$room/edited"
    cd "$room/edited"
    git config user.name nobody
    git config user.email nobody@localhost
    echo >>README.md
    refused 'changes that are not committed'
    git checkout -q README.md
    echo '// more' >>crates/check_attr_cli/src/main.rt
    refused 'changes that are not committed'
    git commit -q -a -m more
    refused 'the sources are not those that were proved'
    git reset -q --hard HEAD~1
    sed -i 's/^kit .*/kit another/' out/proved
    refused 'this is not the kit'
    cp "$top/out/proved" out/
    echo >>crates/yektrod/out/libyektrod.a
    refused 'libyektrod.a is not what was built'
    rm crates/yektrod/out/libyektrod.a
    refused 'there is no crates/yektrod/out/libyektrod.a'
    echo 'release: what is not proved is refused'
}

# Runs this script's second half without the kit.
hidden() {
    kit=$(dirname "$(rt doc | head -n 1)")
    mkdir "$room/empty"
    set -- env -i PATH=/usr/local/bin:/usr/bin:/bin HOME="$room" LC_ALL=C ROOM="$room" KIT="$kit" sh "$top/tests/release.sh" tries
    if [ "${YEKTROD_NO_UNSHARE:-}" = 1 ]; then
        "$@"
        echo 'release: the kit was hidden by PATH alone'
    else
        as_root=$([ "$(id -u)" = 0 ] || echo r)
        unshare "-${as_root}m" sh -c 'mount --bind "$0" "$1" && shift && exec "$@"' "$room/empty" "$kit" "$@" ||
            fail 'failed without the kit, or mounting is refused (then YEKTROD_NO_UNSHARE=1 hides it by PATH alone)'
    fi
}

# The commands of the release's first page, and the links of all its pages.
page() {
    "$top/tests/docs.py" --top "$release" README.md
}

# The program answers as git, over the repositories of its own test.
program() {
    "$release/bin/check-attr" --version | grep -qx "check-attr $version" || fail 'check-attr is of another version'
    CHECK_ATTR=$release/bin/check-attr "$top/tests/check_attr_tool.sh"
    printf 'names 1\nx\nask l s f 1\nf\n' | "$release/bin/yektrod-script" >"$room/said"
    echo 'f: x: unspecified' | diff - "$room/said"
}

# What the libraries show, and what they need.
symbols() {
    lib=$release/lib
    sed -n '/functions of the C library, and nothing else:$/{n;n;p;}' "$release/docs/C.md" |
        tr -s ' ' '\n' | sed '/^$/d' | sort >"$room/listed"
    nm -u "$lib/libyektrod.a" | awk 'NF == 2 { print $2 }' | sort | diff "$room/listed" -
    nm -D -u "$lib/libyektrod.so.0" | awk '{ sub("@.*", "", $2); print $2 }' | sort | diff "$room/listed" -
    nm -g --defined-only "$lib/libyektrod.a" | awk 'NF == 3 { print $3 }' >"$room/shown"
    nm -D --defined-only "$lib/libyektrod.so.0" | awk '$2 != "A" { print $3 }' >>"$room/shown"
    if grep -v '^yektrod_' "$room/shown"; then fail 'the libraries show more than yektrod_*'; fi
}

# Clients in C, by pkg-config: with the archive, with the shared library, and static.
in_c() {
    PKG_CONFIG_PATH=$1/lib/pkgconfig
    export PKG_CONFIG_PATH
    [ "$(pkg-config --modversion yektrod)" = "$version" ] || fail 'pkg-config tells another version'
    printf 'text: set\neol: lf\n' >"$room/wanted"
    for compiler in gcc clang; do
        if ! command -v "$compiler" >/dev/null; then
            echo "release: there is no $compiler here, so this is left out: clients in C as it compiles them"
            continue
        fi
        flags="-std=c11 -Wall -Wextra -Werror $(pkg-config --cflags yektrod)"
        "$compiler" $flags "$release/clients/c/first.c" "$(pkg-config --variable=libdir yektrod)/libyektrod.a" -o "$room/first"
        "$room/first" | diff "$room/wanted" -
        "$compiler" $flags "$release/clients/c/first.c" -o "$room/first" $(pkg-config --libs yektrod)
        LD_LIBRARY_PATH=$(pkg-config --variable=libdir yektrod) "$room/first" | diff "$room/wanted" -
        "$compiler" $flags -static "$release/clients/c/first.c" -o "$room/first" $(pkg-config --libs --static yektrod)
        "$room/first" | diff "$room/wanted" -
    done
}

# The package for Rust: its tests, from a copy of its sources.
in_rust() {
    cp -R "$release/clients/rust" "$room/rust"
    (cd "$room/rust" && YEKTROD_LIB_DIR=$release/lib quiet /usr/bin/cargo test --offline --locked --workspace)
}

# The wheel, in an environment of its own.
in_python() {
    /usr/bin/python3 -m venv "$room/venv"
    quiet "$room/venv/bin/pip" install --no-index --no-deps "$ROOM"/one/dist/yektrod-*.whl
    cp "$release"/clients/python/test_yektrod.py "$room/"
    (cd "$room" && quiet "$room/venv/bin/python" -I -B test_yektrod.py "$release/examples")
    quiet "$room/venv/bin/pip" check
    [ "$("$room/venv/bin/pip" show yektrod | sed -n 's/^Version: //p')" = "$version" ] || fail 'the wheel is of another version'
}

# The package for Debian: unpacked into an empty directory, and its installation as it is planned.
as_deb() {
    deb=$ROOM/one/dist/yektrod_${version}_amd64.deb
    mkdir "$room/root"
    dpkg-deb -x "$deb" "$room/root"
    "$room/root/usr/bin/check-attr" --version | grep -qx "check-attr $version" || fail 'the package has another program'
    quiet apt-get install -s "$deb"
    grep -q '^Inst yektrod' "$room/said" || { cat "$room/said" >&2; fail 'the package would not be installed'; }
}

# The directories to which `make install` copies.
installed() {
    make -s -C "$release" install DESTDIR="$room/installed" PREFIX=/opt/yektrod
    in_c "$room/installed/opt/yektrod"
    "$room/installed/opt/yektrod/bin/git-yattr" --version | grep -qx "check-attr $version"
}

tries() {
    if command -v rt >/dev/null || { [ "${YEKTROD_NO_UNSHARE:-}" != 1 ] && [ -n "$(ls "$KIT")" ]; }; then fail 'the kit is not hidden'; fi
    version=$(cat "$top/VERSION")
    tar -x -z -C "$room" -f "$ROOM"/one/dist/yektrod-*.tar.gz
    release=$room/yektrod-$version-x86_64-linux
    page
    program
    symbols
    in_c "$release"
    in_rust
    in_python
    as_deb
    installed
    echo 'release: archive, wheel and package work where the kit is not'
}

room=$(mktemp -d)
trap 'rm -rf "$room"' EXIT
if [ "${1:-}" = tries ]; then
    tries
else
    [ -f "$top/out/proved" ] || fail 'there is no out/proved: run tools/prove'
    packs
    refusals
    hidden
fi
