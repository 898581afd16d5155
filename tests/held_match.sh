#!/bin/sh
# Checks that the compiler refuses to change an outcome while a match of it is borrowed. Functions that do so are put into a
# copy of the crate, for a match of `iter`, of `iter_selected` and of `match_by_id`, and for each of three calls that
# change the outcome. Beside each there is one that makes the same call after the last use of the match. The borrow checker
# must refuse the call in each of the first nine, and nothing in the other nine. It takes some 40 seconds.
set -eu
top=$(cd "$(dirname "$0")/.." && pwd)
room=$(mktemp -d)
trap 'rm -rf "$room"' EXIT
"$top/tests/copy_crates.sh" "$room"
outcome=$room/crates/gix_attributes/src/search/outcome.rt

# The two functions for a match and a call. The line of the call that must be refused is kept.
add_functions() {
    parameters='alloc: Global, search: &Search, collection: &MetadataCollection, outcome: &mut Outcome'
    cat >>"$outcome" <<END

pub fn held_$1_$2($parameters) -> bool {
    let found = $3;
    $4
    found.is_some()
}

pub fn used_$1_$2($parameters) -> bool {
    let is_found = $3.is_some();
    $4
    is_found
}
END
    echo "$(($(wc -l <"$outcome") - 8))" >>"$room/wanted"
}

for match in iter iter_selected match_by_id; do
    case $match in
    match_by_id) found='outcome.match_by_id(AttributeId(0))' ;;
    *) found="outcome.$match().next()" ;;
    esac
    add_functions $match reset "$found" 'outcome.reset();'
    add_functions $match initialize "$found" 'let _done = outcome.initialize(alloc, collection);'
    add_functions $match search "$found" 'let _done = search.pattern_matching_relative_path(alloc, bstr::BStr::new(b"f"), attr_glob::pattern::Case::Fold, None, outcome);'
done

# The compiler looks at the copy for the sake of a test.
printf '\n#[test]\nfn is_looked_at(_rt: HostRuntime) {}\n' >>"$outcome"

(cd "$room/crates/gix_attributes" && rt try --test >"$room/said" 2>&1) || true
grep 'error\[' "$room/said" >"$room/errors" || true
borrowed='error\[borrow-e0502\]: cannot borrow `\*outcome` as mutable'
sed -n "s/.*outcome\.rt:\([0-9]*\):[0-9]*: $borrowed.*/\1/p" "$room/errors" | sort -n >"$room/refused"
if ! cmp -s "$room/wanted" "$room/refused" || [ "$(wc -l <"$room/errors")" != 9 ]; then
    echo "held_match: nine calls must be refused, and nothing else; the compiler said:" >&2
    cat "$room/said" >&2
    exit 1
fi
echo "held_match: nine changes of an outcome are refused while a match of it is held, and none of nine after it is used up"
