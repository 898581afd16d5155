#!/bin/sh
# Prints a script that looks up each path on standard input, a line each, in the attributes files of the repository in the
# current directory.
# usage: script.sh FORM [NAME..]: FORM is l, z or o, and NAME.. are the attributes to look up, all of them without a name
set -eu
LC_ALL=C
export LC_ALL
form=$1
shift

# The record that adds a file of the repository. Only the file at the top may define macros.
add() {
    allowed=-
    if [ "$1" = .gitattributes ]; then allowed=m; fi
    printf 'add %s %d 0 %d\n%s' "$allowed" "${#1}" "$(wc -c <"$1")" "$1"
    cat "$1"
    echo
}

git ls-files -- .gitattributes '*/.gitattributes' | awk -F/ '{ print NF, $0 }' | sort -n | cut -d' ' -f2- | while read -r file; do
    if [ -f "$file" ]; then add "$file"; fi
done
if [ $# -gt 0 ]; then
    printf 'names %d\n' $#
    printf '%s\n' "$@"
fi
awk -v form="$form" '{ printf "ask %s s f %d\n%s\n", form, length($0), $0 }'
