#!/bin/sh
# Tells the attributes of all paths of made commits by clients/c/tree.c, clients/python/tree.py and a stack in Python, and
# compares them with `git check-attr --cached` over an index that `git read-tree` makes of the commit. Then it runs
# clients/python/test_stack.py.
# usage: trees.sh DIRECTORY [large]
# DIRECTORY is one of tools/c-library. The largest commit has ten thousand files; with `large` there are also files of 100 MB.
set -eu
top=$(cd "$(dirname "$0")/.." && pwd)
library=$(cd "$1" && pwd)
large=${2:-}
room=$(mktemp -d)
trap 'rm -rf "$room"' EXIT
GIT_ATTR_NOSYSTEM=1
GIT_CONFIG_NOSYSTEM=1
HOME=$room
LC_ALL=C
YEKTROD_LIBRARY=$library/lib/libyektrod.so
PYTHONDONTWRITEBYTECODE=1
export GIT_ATTR_NOSYSTEM GIT_CONFIG_NOSYSTEM HOME LC_ALL YEKTROD_LIBRARY PYTHONDONTWRITEBYTECODE
unset XDG_CONFIG_HOME GIT_DIR GIT_WORK_TREE GIT_INDEX_FILE
for setting in "init.defaultBranch main" "user.name a" "user.email a@b.c"; do git config --global $setting; done
"${CC:-cc}" -std=c11 -O2 -g -Wall -Wextra -Werror "-I$library/include" "$top/clients/c/tree.c" \
    "$library/lib/libyektrod.a" -o "$room/tree"

fail() { echo "trees: $*" >&2; exit 1; }
in_c() { "$room/tree" "$@"; }
in_python() { python3 "$top/clients/python/tree.py" "$@"; }
by_stack() { "$top/tests/told_by_stack.py" 1 "$@"; }

# What git tells of all paths of the commit, and of these names; of all by -a.
git_tells() {
    git ls-tree -r -z --full-tree --name-only main >"$room/paths"
    (cd "./$(git rev-parse --show-cdup)" && GIT_INDEX_FILE=$room/index && export GIT_INDEX_FILE && git read-tree main &&
        git check-attr --cached -z --stdin "$@" <"$room/paths" >"$room/wanted" 2>"$room/warnings")
}

# An answer a line. Git numbers names as it comes upon them, so their order is not that of the clients.
rows() { tr '\n\0' '\001\n' | paste - - - | sort; }

# Compares the answers in the repository where this runs: all that are specified, and those for some names.
compare() {
    for names in '' 'text diff merge filter export-ignore linguist-vendored linguist-language binary m1 none'; do
        git_tells ${names:--a}
        rows <"$room/wanted" >"$room/wanted_rows"
        for client in in_c in_python by_stack; do
            $client main $names >"$room/told" || fail "$1: $client failed"
            rows <"$room/told" | cmp -s "$room/wanted_rows" - || fail "$1: $client $names tells something else than git"
            [ $client = by_stack ] || [ -z "$names" ] || cmp -s "$room/wanted" "$room/told" || fail "$1: $client: another order"
        done
        echo "trees: $1: $(wc -l <"$room/wanted_rows") answers for $(tr -cd '\0' <"$room/paths" | wc -c) paths are git's"
    done
}

# Makes a bare repository of a commit on standard input: its directory, and arguments of `git init`.
bare() {
    git init -q --bare "$@"
    git --git-dir="$1" fast-import --quiet
}

# A file of a commit as `git fast-import` reads it: its mode, its path, and its contents as printf writes them.
file() {
    printf 'M %s inline %s\ndata %d\n' "$1" "$2" "$(printf "$3" | wc -c)"
    printf "$3\n"
}
head='commit refs/heads/main
committer a <a@b.c> 1000000000 +0000
data 0
'

"$top/tests/made_tree.py" 1 10000 | bare "$room/many.git"
cd "$room/many.git"
compare 'bare'
mkdir -p info
printf '[attr]m1 -m2 in-info\n* y=info\0 cut\n*.c -text merge=info\r\n[attr]m2 m1 twice' >info/attributes
compare 'bare, with info/attributes'

git clone -q --no-checkout "$room/many.git" "$room/work"
mkdir "$room/work/below"
cd "$room/work/below"
printf 'b.c export-ignore\n' >"$room/work/.git/info/attributes"
printf '* text=no\n' >"$room/work/.gitattributes"
compare 'in a directory of a work tree'

"$top/tests/made_tree.py" 2 300 64 | bare "$room/sha256.git" --object-format=sha256
cd "$room/sha256.git"
compare 'SHA-256'

{ echo "$head"; file 100644 f ''; } | bare "$room/none.git"
cd "$room/none.git"
compare 'no attributes file'

# A NUL ends a file of a commit; a line of 2,047 bytes is read, and one of 2,048 is not.
{
    echo "$head"
    file 100644 .gitattributes '* a\0 b\n* c\n'
    file 100644 nul/.gitattributes '* a\n\0* b\n* c\n'
    file 100644 nul/f ''
    file 100644 long/.gitattributes "$(printf '* a=%02043d\n* b=%02044d\n* c=%02042d\r\n* d=%02043d\r\n* e' 0 0 0 0)"
    file 100644 long/f ''
} | bare "$room/limits.git"
cd "$room/limits.git"
compare 'NUL, and lines near the limit'
grep -q 'overly long attributes line 2' "$room/warnings" && grep -q 'overly long attributes line 4' "$room/warnings" &&
    ! grep -q 'line [135]' "$room/warnings" || fail 'the lines are not near the limit'

# A file of 104,857,599 bytes is read, and one of 104,857,600 is not.
if [ "$large" = large ]; then
    {
        echo "$head"
        for size in 104857599 104857600; do
            file 100644 "$size/f" ''
            printf 'M 100644 inline %s\ndata %d\n* a\n#' "$size/.gitattributes" "$size"
            head -c $((size - 5)) /dev/zero | tr '\0' x
            echo
        done
    } | bare "$room/large.git"
    cd "$room/large.git"
    compare 'files near the limit'
    grep -q 'overly large .* .104857600/' "$room/warnings" && ! grep -q 104857599 "$room/warnings" ||
        fail 'the files are not near the limit'
fi

# A link is no attributes file (docs/DIFFERENCES.md), and neither are a submodule and a directory of its name.
{ echo "$head"; file 120000 .gitattributes '* a'; file 100644 f ''; } | bare "$room/link.git"
cd "$room/link.git"
git_tells a
[ "$(tail -z -n 1 "$room/wanted" | tr '\0' '\n')" = set ] || fail 'git reads no link now'
for client in in_c in_python by_stack; do [ -z "$($client main | tr '\0' '\n')" ] || fail "link: $client reads it"; done

# What can't be told has an end with a status, and no answers: no such commit, a name that is no UTF-8, an attributes file in a
# directory `..`, which git refuses too, and one whose object is gone.
refused() {
    for client in in_c in_python; do
        if $client "$@" >"$room/told" 2>"$room/said"; then fail "refused: $client $* succeeds"; fi
        [ ! -s "$room/told" ] && [ -s "$room/said" ] || fail "refused: $client $* says something else"
        ! grep -q Traceback "$room/said" || fail "refused: $(cat "$room/said")"
    done
}
refused
refused none
refused -x
refused main "$(printf '\377')"
{ echo "$head"; file 100644 .gitattributes '* a'; } | bare "$room/broken.git"
cd "$room/broken.git"
up=$(printf '040000 tree %s\t..\n' "$(git rev-parse 'main^{tree}')" | git mktree)
git branch up "$(git commit-tree -m up "$up")"
refused up
[ "$(in_c main | tr '\0' ' ')" = '.gitattributes a set ' ] || fail 'one file: in_c tells something else'
rm -f "objects/$(git rev-parse main:.gitattributes | sed 's:^..:&/:')"
refused main
echo 'trees: what can not be told is refused'

python3 "$top/clients/python/test_stack.py"
if command -v mypy >/dev/null; then
    cd "$top/clients/python" && mypy --strict --python-version 3.9 --cache-dir "$room/types" yektrod tree.py test_stack.py
else
    echo 'trees: there is no mypy here, so this is left out: the types in Python'
fi
