#!/bin/sh
# Looks up all attributes of every path of some repositories with the program and with `git check-attr`, and compares the answers.
# The program has to be built before, by `rt ci` or by `rt run` in crates/check_attr_cli.
# usage: against_git.sh [REPOSITORY..], a repository that made_repository.sh makes without any
set -eu
top=$(cd "$(dirname "$0")/.." && pwd)
program=$top/crates/check_attr_cli/out/check_attr_cli
if [ ! -x "$program" ]; then
    echo "against_git: there is no program $program: build it by \`rt run\` in its crate" >&2
    exit 1
fi
room=$(mktemp -d)
trap 'rm -rf "$room"' EXIT
GIT_ATTR_NOSYSTEM=1
GIT_CONFIG_GLOBAL=/dev/null
XDG_CONFIG_HOME=$room
HOME=$room
LC_ALL=C
export GIT_ATTR_NOSYSTEM GIT_CONFIG_GLOBAL XDG_CONFIG_HOME HOME LC_ALL

# Three fields an answer, in any order.
rows() {
    tr '\n\0' '\001\n' | paste - - - | sort
}

differ() {
    echo "against_git: $repository: $1"
    exit 1
}

if [ $# = 0 ]; then
    "$top/tests/made_repository.sh" "$room/made"
    set -- "$room/made"
fi
start=$PWD
for repository in "$@"; do
    cd "$start"
    cd "$repository"
    git ls-files -z >"$room/names"
    git check-attr -z --stdin --all <"$room/names" 2>"$room/warnings" >"$room/asked" || differ "$(cat "$room/warnings")"
    rows <"$room/asked" >"$room/git"
    tr '\0' '\n' <"$room/names" >"$room/paths"
    # The lines that are left out of attributes files come before the answers. They are all that the additions write.
    "$top/examples/script.sh" z </dev/null | "$program" >"$room/left_out"
    "$top/examples/script.sh" z <"$room/paths" | "$program" >"$room/written"
    cmp -s -n "$(wc -c <"$room/left_out")" "$room/left_out" "$room/written" || differ "the lines that are left out differ"
    tail -c +"$(($(wc -c <"$room/left_out") + 1))" "$room/written" | rows >"$room/ours"
    if ! cmp "$room/git" "$room/ours"; then
        diff "$room/git" "$room/ours" | head -n 20
        differ "the answers differ"
    fi
    echo "against_git: $repository: $(wc -l <"$room/git") answers for $(wc -l <"$room/paths") paths agree," \
        "and $(wc -l <"$room/left_out") lines are left out"
done
