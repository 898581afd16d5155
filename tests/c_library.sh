#!/bin/sh
# Gathers the library for C in a directory, and runs its clients: in C as gcc and clang compile them, and in Python. Each
# script of examples/ and of tests/tables.py is played by calls, and gives the answers beside it. Each request
# for memory is refused in turn, and 32 KB of stack have to be enough. One engine goes round eight threads. Random calls
# give what their scripts give, those of a work tree what git gives, and so do the clients that tell the paths of
# commits. What clang would show is left out if the machine lacks it.
# usage: c_library.sh [built]
# With `built` the library is the one that tools/prove or tools/archive has built; without, it is proved and built here,
# with all crates below.
set -eu
top=$(cd "$(dirname "$0")/.." && pwd)
room=$(mktemp -d)
trap 'rm -rf "$room"' EXIT
has() { command -v "$1" >/dev/null || { echo "c_library: there is no $1 here, so this is left out: $2"; false; }; }

if [ "${1:-}" = built ]; then
    [ -f "$top/crates/yektrod/out/libyektrod.a" ] || { echo 'c_library: the library is not built' >&2; exit 1; }
else
    (cd "$top/crates/yektrod" && rt lib >"$room/log" 2>&1) || { cat "$room/log" >&2; exit 1; }
fi
"$top/tools/c-library" "$room/yektrod"
lib=$room/yektrod/lib

# What the library shows is what the header declares, and what it needs of the C library is what docs/C.md lists.
names() {
    "${CC:-cc}" -E -P "$room/yektrod/include/yektrod.h" | grep -o 'yektrod_[a-z_]*(' | tr -d '(' | sort >"$room/declared"
    nm -g --defined-only "$lib/libyektrod.a" | awk 'NF == 3 { print $3 }' | sort | diff "$room/declared" -
    nm -D --defined-only "$lib/libyektrod.so" | awk '$2 != "A" { sub("@.*", "", $3); print $3 }' | sort | diff "$room/declared" -
    sed -n '/functions of the C library, and nothing else:$/{n;n;p;}' "$top/docs/C.md" | tr -s ' ' '\n' | sed '/^$/d' | sort >"$room/listed"
    nm -u "$lib/libyektrod.a" | awk 'NF == 2 { print $2 }' | sort | diff "$room/listed" -
    nm -D -u "$lib/libyektrod.so" | awk '{ sub("@.*", "", $2); print $2 }' | sort | diff "$room/listed" -
    readelf -dW "$lib/libyektrod.so" >"$room/dynamic"
    for wanted in 'SONAME.*\[libyektrod\.so\.0\]' BIND_NOW; do grep -q "$wanted" "$room/dynamic"; done
    echo "c_library: it shows $(wc -l <"$room/declared") functions, and needs $(wc -l <"$room/listed")"
}

# Nothing of the archive can be written but one byte, and that is neither read nor written: code takes its address alone, which
# stands for a block that was refused. Tables of addresses (.data.rel.ro) are read-only once they are loaded.
state() {
    readelf -SW "$lib/libyektrod.a" | sed -n 's/^ *\[ *[0-9]*\] //p' |
        awk '$(NF - 3) ~ /[WT]/ && $(NF - 5) !~ /^0+$/ && $1 !~ /^\.data\.rel\.ro/ { print $1, $(NF - 5) }' >"$room/written"
    echo '.bss 000001' | diff - "$room/written"
    nm "$lib/libyektrod.a" | awk '$2 ~ /^[bBcCdDgGsSuV]$/ { print $3 }' >"$room/written"
    echo nothing | diff - "$room/written"
    objdump -r "$lib/libyektrod.a" | grep -cE '[[:space:]](\.bss|nothing)[-+]' >"$room/uses"
    objdump -dr "$lib/libyektrod.a" | grep -B 1 -E '[[:space:]](\.bss|nothing)[-+]' | grep -c "$(printf '\tlea ')" | diff "$room/uses" -
    echo 'c_library: it has no state outside of engines'
}
names
state
printf 'text: set\neol: lf\n' >"$room/first.answers"

mkdir "$room/tables"
PYTHONDONTWRITEBYTECODE=1 "$top/tests/tables.py" "$room/tables"
for script in "$room"/tables/*.script "$top"/examples/*.script; do echo "$script ${script%.script}.answers"; done >"$room/scripts"

# Compiles the clients, and runs them.
clients() {
    flags="-std=c11 -O2 -g -Wall -Wextra -Werror -I$room/yektrod/include"
    for name in first statuses script run; do
        "$1" $flags "$top/clients/c/$name.c" "$room/yektrod/lib/libyektrod.a" -o "$room/$name"
    done
    "$1" $flags -Wl,--wrap=malloc,--wrap=realloc "$top/clients/c/refused.c" "$room/yektrod/lib/libyektrod.a" -o "$room/refused"
    "$1" $flags -pthread "$top/clients/c/stack.c" "$room/yektrod/lib/libyektrod.a" -o "$room/stack"
    "$room/first" | diff "$room/first.answers" -
    "$room/statuses"
    "$room/refused"
    "$room/stack"
    while read -r script answers; do
        for name in script run; do
            "$room/$name" <"$script" | cmp -s "$answers" - || { echo "c_library: $name: $script gives other answers" >&2; exit 1; }
        done
    done <"$room/scripts"
    echo "c_library: with $1, $(wc -l <"$room/scripts") scripts give their answers"
}

# Runs the scripts without their last bytes, here and in the program.
cuts() {
    program=$top/crates/check_attr_cli/out/check_attr_cli
    [ -x "$program" ] || { echo 'c_library: the program is not built, so this is left out: scripts without their last bytes'; return; }
    while read -r script answers; do
        for bytes in 1 3 20; do
            head -c "-$bytes" "$script" >"$room/cut"
            status=0; "$program" <"$room/cut" >"$room/wanted" 2>"$room/wanted_errors" || status=$?
            got=0; "$room/run" <"$room/cut" >"$room/text" 2>"$room/errors" || got=$?
            sed 's/^check_attr: /run: /' "$room/wanted_errors" | cmp -s - "$room/errors" && cmp -s "$room/wanted" "$room/text" &&
                [ "$status" = "$got" ] || { echo "c_library: run: $script without its last $bytes bytes ends otherwise" >&2; exit 1; }
        done
    done <"$room/scripts"
    echo 'c_library: scripts without their last bytes end as in the program'
}

# Passes an engine round threads: helgrind finds nothing where a lock orders the calls, and reports memory of the engine
# where none does.
threads() {
    "${CC:-cc}" $flags -pthread "$top/clients/c/threads.c" "$lib/libyektrod.a" -o "$room/threads"
    "$room/threads"
    if has valgrind 'an engine on many threads, as helgrind sees it'; then
        valgrind -q --tool=helgrind --error-exitcode=9 "$room/threads" >"$room/said" 2>&1 || { cat "$room/said" >&2; exit 1; }
        status=0; valgrind -q --tool=helgrind --error-exitcode=9 "$room/threads" pipes >"$room/said" 2>&1 || status=$?
        [ $status = 9 ] && grep -q 'inside a block of size' "$room/said" ||
            { echo 'c_library: helgrind reports no engine that is passed without a lock' >&2; exit 1; }
        echo 'c_library: helgrind finds nothing with the lock, and reports the engine without it'
    fi
}

# Compares random calls with the scripts of the same calls, and those of a made work tree with git.
random_calls() {
    for name in random worktree; do "${CC:-cc}" $flags "$top/clients/c/$name.c" "$lib/libyektrod.a" -o "$room/$name"; done
    "$room/random" 1 100000
    "$top/tests/c_worktree.py" "$room/worktree" 1
    if has valgrind 'random calls, as memcheck sees them'; then
        valgrind -q --leak-check=full --error-exitcode=9 "$room/random" 2 2000 >"$room/said" 2>&1 || { cat "$room/said" >&2; exit 1; }
    fi
}

clients "${CC:-cc}"
cuts
threads
random_calls
if has valgrind 'reads and writes of memory that is not there, and leaks'; then
    for name in first statuses refused; do
        valgrind -q --leak-check=full --error-exitcode=9 "$room/$name" >"$room/said" 2>&1 || { cat "$room/said" >&2; exit 1; }
    done
    for name in checkout all archive pathspec; do
        for client in script run; do
            valgrind -q --leak-check=full --error-exitcode=9 "$room/$client" <"$top/examples/$name.script" >"$room/said" 2>"$room/errors" ||
                { cat "$room/errors" >&2; exit 1; }
        done
    done
    echo 'c_library: valgrind finds nothing'
fi
if has clang 'the clients as it compiles them'; then clients clang; fi
YEKTROD_LIBRARY=$room/yektrod/lib/libyektrod.so PYTHONDONTWRITEBYTECODE=1 \
    python3 "$top/clients/python/test_yektrod.py" "$top/examples" "$room/tables"
"$top/tests/trees.sh" "$room/yektrod"
YEKTROD_DIRECTORY=$room/yektrod "$top/tests/docs.py" docs/C.md docs/PYTHON.md docs/RUST.md
