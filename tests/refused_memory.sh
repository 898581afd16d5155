#!/bin/sh
# Refuses the first request for memory of a run, then the second, and so on, until a run makes no more. Each time the
# program must end with status 1 and the words for it, having written nothing, or with --lines a beginning of its lines;
# or it can do without, and answers the same. Each test tests::memory::without_memory_* must pass, and so must the tables
# below. The programs and the tests have to be built before, as the gate does.
set -eu
here=$(cd "$(dirname "$0")" && pwd)
crates=$(cd "$here/../crates" && pwd)
program=$crates/check_attr_cli/out/check_attr_cli
rows=$crates/rows/out/rows
# Tables and scenes of crates/rows/data, with each call that takes memory.
tables='patterns/parts patterns/pairs patterns/tokens patterns/paths patterns/candidates patterns/indexes patterns/quotes
    patterns/bases patterns/below_bases lines/names lines/items lines/states lines/lines lines/kept sources/locations
    sources/globals sources/added engines/questions memory/numbers memory/searches memory/plain_lines memory/plain_paths memory/plain_quotes'
test_crates='unit_tests attr_vectors'
for built in "$program" "$rows" $(for it in $test_crates; do echo "$crates/$it/out/${it}_tests"; done); do
    if [ ! -x "$built" ]; then
        echo "refused_memory: there is no program $built: build it by \`rt ci\` (or \`rt run\` and \`rt test\` in its crate)" >&2
        exit 1
    fi
done
room=$(mktemp -d)
trap 'rm -rf "$room"' EXIT
cc -O2 -shared -fPIC -o "$room/refused_request.so" "$here/refused_request.c"

# Runs a command in which one request is refused.
refused() {
    request=$1
    shift
    rm -f "$room/mark"
    status=0
    REFUSED_REQUEST=$request REFUSED_MARK=$room/mark LD_PRELOAD=$room/refused_request.so \
        "$@" <"$room/input" >"$room/said" 2>"$room/errors" || status=$?
}

failed() {
    echo "refused_memory: $name: $1, with request $request refused"
    cat "$room/said" "$room/errors"
    exit 1
}

# Refuses each request of a command in turn, and looks at what it leaves.
each_of() {
    name=$1
    check=$2
    shift 2
    request=0
    while :; do
        refused $((request + 1)) "$@"
        [ -e "$room/mark" ] || break
        "$check"
    done
    [ "$request" -gt 1 ] || failed "no request was made"
    echo "refused_memory: $name, $((request - 1)) requests refused in turn"
}

says_so() {
    [ "$status" = 1 ] || failed "status $status"
    case $(tail -n 1 "$room/errors") in
    'check_attr: out of memory' | 'check_attr: cannot read the arguments') ;;
    *) failed "no word of it" ;;
    esac
}

answers_the_same() {
    [ "$status" = 0 ] && cmp -s "$room/said" "$room/answers"
}

answers_whole() {
    answers_the_same && return
    says_so
    [ ! -s "$room/said" ] || failed "something was written"
}

answers_a_beginning() {
    answers_the_same && return
    says_so
    cmp -s -n "$(wc -c <"$room/said")" "$room/said" "$room/answers" || failed "something else was written"
}

# Each step that found no memory was taken again and was right, or what reads the rows found none.
agrees() {
    answers_the_same && return
    [ "$status" = 1 ] && [ "$(cat "$room/errors")" = 'rows: out of memory' ] || failed "status $status"
}

passes() {
    [ "$status" = 0 ] || failed "the test failed"
}

for script in "$here"/../examples/*.script; do
    cp "$script" "$room/input"
    cp "${script%.script}.answers" "$room/answers"
    each_of "$(basename "$script")" answers_whole "$program"
done
printf '* a\n!b c\n"a\\tb" x=y -z !w\n[attr]m x\n* a =x b=\n' >"$room/global"
cp "$room/global" "$room/input"
"$program" --lines <"$room/input" >"$room/answers"
each_of --lines answers_a_beginning "$program" --lines
cp "$here/../examples/all.script" "$room/input"
"$program" "$room/global" "$room/missing" <"$room/input" >"$room/answers" 2>"$room/errors"
each_of "global files" answers_whole "$program" "$room/global" "$room/missing"
: >"$room/input"
(
    cd "$crates/rows/data"
    for table in $tables; do
        "$rows" "$table" >"$room/answers"
        each_of "$table" agrees "$rows" "$table"
    done
)
for crate in $test_crates; do
    tests=$crates/$crate/out/${crate}_tests
    "$tests" --list >"$room/list"
    sed -n 's/^\(tests::memory::without_memory_.*\): test.*/\1/p' "$room/list" >"$room/tests"
    if [ ! -s "$room/tests" ]; then
        echo "refused_memory: $tests has no test tests::memory::without_memory_*" >&2
        exit 1
    fi
    for test in $(cat "$room/tests"); do
        each_of "$test" passes "$tests" "$test"
    done
done
