#!/bin/sh
# Measures the library for C, and beside it libgit2's git_attr_get_many_ext (Debian: libgit2-dev): one process each, over the same
# file of the top directory and the same paths. Both count the attributes that are specified, and the counts have to be equal. It
# prints processor seconds, the least of three runs, and, with valgrind, instructions a path: those of 20,000 paths less those of
# 1,000. What each call tells has to be equal too. `rt lib` in crates/yektrod has to have built the archive.
# usage: c_library.sh [PATHS [LIBRARY]]
# LIBRARY is a directory that tools/c-library made; without it one is made of the archive.
set -eu
paths=${1:-100000}
here=$(cd "$(dirname "$0")" && pwd)
room=$(mktemp -d)
trap 'rm -rf "$room"' EXIT
library=${2:-$room/yektrod}
if [ $# -lt 2 ]; then "$here/../tools/c-library" "$library"; fi
cc -O2 -I"$library/include" "$here/c_library.c" "$library/lib/libyektrod.a" -o "$room/ours"
if pkg-config --exists libgit2 2>/dev/null; then
    cc -O2 $(pkg-config --cflags libgit2) "$here/c_library_libgit2.c" $(pkg-config --libs libgit2) -o "$room/theirs"
else
    echo 'c_library: libgit2 is not here (Debian: libgit2-dev), so the library is measured alone'
fi

(cd "$room" && sh "$here/files.sh" && git init -q repository)
head -n "$paths" "$room/paths" >"$room/asked"
PYTHONDONTWRITEBYTECODE=1 PYTHONPATH=$here python3 - "$room" <<'END'
import inputs, sys
text, paths = inputs.typical(20000)
open(sys.argv[1] + '/project', 'wb').write(text)
open(sys.argv[1] + '/project.paths', 'w').write('\n'.join(paths) + '\n')
END

# The least processor time of three runs, and the count.
timed() {
    for run in 1 2 3; do
        bash -c 'TIMEFORMAT="%U %S"; time "$@" >"$0"' "$room/count" "$@" <"$room/asked" 2>&1 | awk '{ printf "%.2f\n", $1 + $2 }'
    done | sort -n | head -n 1
}
same_count() { cmp -s "$room/wanted" "$room/count" || { echo 'c_library: other counts' >&2; exit 1; }; }
for file in typical names-100 names-1000 ends-100 ends-1000 globs-100 globs-1000; do
    cp "$room/$file" "$room/repository/.gitattributes"
    line="$file: here $(timed "$room/ours" into "$paths" "$room/$file" text a1 a7) s"
    if [ -x "$room/theirs" ]; then
        mv "$room/count" "$room/wanted"
        line="$line, libgit2 $(timed "$room/theirs" "$paths" "$room/repository" text a1 a7) s"
        same_count
    fi
    echo "$line"
done

command -v valgrind >/dev/null || { echo 'c_library: there is no valgrind here, so no instructions are counted'; exit; }
# The instructions of a run.
counted() {
    valgrind --tool=callgrind --callgrind-out-file="$room/calls" "$@" 2>&1 >"$room/count" <"$room/project.paths" |
        sed -n 's/.*Collected : //p'
}
# Those of a path: a_path PROGRAM_AND_CALLS WORD..
a_path() {
    words=$1
    shift
    few=$(counted $words 1000 "$@")
    many=$(counted $words 20000 "$@")
    echo $(((many - few) / 19000))
}
# What each call costs, and that all tell the same: row TITLE NAME..
row() {
    title=$1
    shift
    for calls in ask states rows texts into; do
        echo "$title: $calls $(a_path "$room/ours $calls" "$room/project" "$@") instructions a path"
    done
    mv "$room/count" "$room/wanted"
    awk '/^c?fn=/ { id = $1; sub(/.*=/, "", id); if (/::SearchState::search/) search = id }
        /^cfn=/ { called = id }
        /^calls=/ && called == search { sub(/.*=/, "", $1); searches += $1 }
        END { printf "%s: into makes %.2f searches a path\n", title, searches / 20000 }' title="$title" "$room/calls"
    "$room/ours" equal 20000 "$room/project" "$@" <"$room/project.paths" >"$room/count"
    same_count
    if [ $# != 0 ] && [ -x "$room/theirs" ]; then
        echo "$title: libgit2 $(a_path "$room/theirs" "$room/repository" "$@") instructions a path"
        same_count
    fi
}
cp "$room/project" "$room/repository/.gitattributes"
row 'all names'
row 'six names' text diff eol merge whitespace linguist-vendored
for calls in add add_in; do
    few=$(counted "$room/ours" $calls 10 "$room/project")
    many=$(counted "$room/ours" $calls 210 "$room/project")
    echo "an addition of 95 lines by yektrod_$calls, and yektrod_pop: $(((many - few) / 200)) instructions"
done
