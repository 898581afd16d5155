#!/bin/sh
# Names global files that the program may not read, by their own mode and by that of their directory, and ones that can't be opened for
# another reason: it must say so, and not take them for missing ones. Missing are just those that nothing has the name of, those below
# a plain file, and directories. Root may read all, so root runs a copy of the program as the user 65534. The program has to be built
# before. Nothing is left out: if the files can be read all the same, the test fails.
# usage: unreadable.sh [PROGRAM]
set -eu
LC_ALL=C
export LC_ALL
top=$(cd "$(dirname "$0")/.." && pwd)
program=${1:-$top/crates/check_attr_cli/out/check_attr_cli}
[ -x "$program" ] || { echo "unreadable: there is no $program: build it with rt run" >&2; exit 1; }
room=$(mktemp -d)
trap 'chmod -R u+rwx "$room" && rm -rf "$room"' EXIT
chmod 755 "$room"
cp "$program" "$room/program"
chmod 755 "$room/program"
cd "$room"
count=0

fails() {
    echo "unreadable: $1" >&2
    exit 1
}
# Runs a command as a user that is not root.
if [ "$(id -u)" = 0 ]; then
    plainly() { setpriv --reuid=65534 --regid=65534 --clear-groups "$@"; }
else
    plainly() { "$@"; }
fi
# wants STATUS OUT ERRORS ARGUMENT..: the program over one question.
wants() {
    wanted=$1 out=$2 errors=$3
    shift 3
    status=0
    printf 'names 1\nx\nask l s f 1\nf\n' | plainly ./program "$@" >out 2>errors || status=$?
    if [ "$status" != "$wanted" ] || ! printf "$out" | cmp -s - out || ! printf "$errors" | cmp -s - errors; then
        cat out errors >&2
        fails "program $*: status $status, and not $wanted, or other texts"
    fi
    count=$((count + 1))
}

mkdir closed
for file in readable unreadable closed/file; do printf '* x\n' >$file; done
chmod 444 readable
chmod 000 unreadable closed
[ "$(plainly cat readable)" = '* x' ] || fails 'a file that may be read cannot be read, so this shows nothing'
for file in unreadable closed/file; do
    if plainly cat $file >out 2>errors; then fails "$file can be read, so this shows nothing"; fi
    grep -q 'Permission denied' errors || fails "$file cannot be read for another reason"
done
wants 0 'f: x: set\n' '' readable
mkdir directory
ln -s loop loop
ln -s missing link
long=$(printf '%5000s' '' | tr ' ' a)
for file in missing directory/missing readable/below directory link; do
    wants 0 'f: x: unspecified\n' '' $file
    wants 0 'f: x: set\n' '' readable $file
done
for file in loop loop/below $long; do
    wants 1 '' 'check_attr: cannot read a global file\n' $file
    wants 1 '' 'check_attr: cannot read a global file\n' readable $file missing
done
for file in unreadable closed/file closed/missing; do
    wants 1 '' 'check_attr: cannot read a global file\n' $file
    wants 1 '' 'check_attr: cannot read a global file\n' readable $file missing
done
echo "unreadable: all $count calls are as they should be"
