#!/bin/sh
# Compares the statuses and texts of the built program with the ones in docs/SCRIPT.md, where no proof leads: arguments,
# real files, and devices that fail.
# usage: program.sh [PROGRAM]
set -eu
LC_ALL=C
export LC_ALL
top=$(cd "$(dirname "$0")/.." && pwd)
program=${1:-$top/crates/check_attr_cli/out/check_attr_cli}
[ -x "$program" ] || { echo "program: there is no $program: build it with rt run" >&2; exit 1; }
room=$(mktemp -d)
trap 'rm -rf "$room"' EXIT
cd "$room"
failed=0
count=0

# wants STATUS OUT ERRORS: what the last call left.
wants() {
    count=$((count + 1))
    if [ "$status" != "$1" ] || ! printf "$2" | cmp -s - out || ! printf "$3" | cmp -s - errors; then
        echo "program: call $count: status $status, and not $1, or other texts" >&2
        cat out errors >&2
        failed=1
    fi
}
# calls ARGUMENT..: the program over the file `in`.
calls() {
    status=0
    "$program" "$@" <in >out 2>errors || status=$?
}

printf 'names 1\nx\nask l s f 1\nf\n' >in
calls
wants 0 'f: x: unspecified\n' ''
calls "$(printf '\377')"
wants 1 '' 'check_attr: cannot read the arguments\n'
printf '* x\n* =\n' >global
calls global
wants 0 'f: x: set\n' 'dropped: global:2: attribute-name\n'
calls missing global missing
wants 0 'f: x: set\n' 'dropped: global:2: attribute-name\n'
mkdir directory
calls directory
wants 0 'f: x: unspecified\n' ''
calls --lines directory
wants 0 'f: x: unspecified\n' ''
ln -s global link
calls link
wants 0 'f: x: set\n' 'dropped: link:2: attribute-name\n'
printf 'names 1\nx\nask l s f 1\nf\nask l s f +1\nf\n' >in
calls
wants 2 'f: x: unspecified\n' 'check_attr: malformed record 3\n'
printf '* a =\n\n!x b\n' >in
calls --lines
wants 0 '1: a ?\n3! negative\n' ''
status=0
"$program" <directory >out 2>errors || status=$?
wants 1 '' 'check_attr: reading failed\n'
printf 'names 1\nx\nask l s f 1\nf\n' >in
if [ -w /dev/full ]; then
    status=0
    "$program" <in >/dev/full 2>errors || status=$?
    : >out
    wants 1 '' 'check_attr: writing failed\n'
fi
[ "$failed" = 0 ] || exit 1
echo "program: all $count calls are as they should be"
