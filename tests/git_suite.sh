#!/bin/sh
# Runs git's own tests of check-attr, t0003-attributes.sh, with check-attr in the place of `git check-attr`: those of git 2.39.5,
# as Debian 12 has it, and those of git of Debian's unstable, each over git as it is built of the same sources. Tests that fail are
# listed: such as compare the words of messages do, and each of them needs a row in docs/CHECK_ATTR.md. By hand: it needs the
# network, some minutes, and a C compiler with zlib.
# usage: git_suite.sh PROGRAM [SUITE..]
# PROGRAM is check-attr, SUITE one of Debian's: bookworm and unstable without any.
set -eu
page=$(cd "$(dirname "$0")/.." && pwd)/docs/CHECK_ATTR.md
program=$(readlink -f "$1")
shift
[ $# -gt 0 ] || set -- bookworm unstable
room=$(mktemp -d)
trap 'rm -rf "$room"' EXIT
fail() { echo "git_suite: $1" >&2; exit 1; }
key=/usr/share/keyrings/debian-archive-keyring.gpg

# Fetches git's sources of a suite to $room/SUITE.
fetch() {
    mkdir -p "$room/$1/lists" "$room/$1/cache"
    echo "deb-src [signed-by=$key] http://deb.debian.org/debian $1 main" >"$room/$1/sources"
    cat >"$room/$1/apt.conf" <<END_OF_CONF
Dir::Etc::SourceList "$room/$1/sources";
Dir::Etc::SourceParts "-";
Dir::State::Lists "$room/$1/lists";
Dir::Cache "$room/$1/cache";
APT::Sandbox::User "";
END_OF_CONF
    cd "$room/$1"
    APT_CONFIG=$room/$1/apt.conf apt-get -q -q update
    APT_CONFIG=$room/$1/apt.conf apt-get -q -q source --download-only git
    mkdir git
    tar -x -f git_*.orig.tar.xz -C git --strip-components=1
    cd git
}

for suite; do
    fetch "$suite"
    make -j2 NO_CURL=1 NO_EXPAT=1 NO_GETTEXT=1 NO_OPENSSL=1 NO_PYTHON=1 NO_RUST=1 NO_TCLTK=1 >"$room/log" 2>&1 ||
        { tail -n 20 "$room/log" >&2; exit 1; }
    # Git runs a program git-yattr for `git yattr`, with its own options before.
    ln -s "$program" bin-wrappers/git-yattr
    sed 's/\bcheck-attr\b/yattr/g' t/t0003-attributes.sh >t/t0003-yattr.sh
    chmod +x t/t0003-yattr.sh
    echo "git_suite: $suite: $(./git version)"
    (cd t && ./t0003-yattr.sh --no-chain-lint >"$room/told" 2>&1) || true
    grep -v '^ok ' "$room/told" || true
    grep -q '^1\.\.[0-9]' "$room/told" || fail "the tests of $suite have not come to their end"
    sed -n 's/^not ok [0-9]* - //p' "$room/told" >"$room/failed"
    while IFS= read -r test; do
        grep -q -F "| \`$test\` |" "$page" || fail "a test fails that has no row in $page: $test"
    done <"$room/failed"
done
