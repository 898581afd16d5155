#!/bin/sh
# Makes a git repository in a new directory, the same one each time: about a thousand paths in forty directories, some with odd
# names, and an attributes file in most directories, with macros, quoted and negative patterns and lines that git leaves out.
# usage: made_repository.sh DIRECTORY
set -eu
LC_ALL=C
export LC_ALL
mkdir "$1"
cd "$1"
git init -q .
git config core.quotePath false

# Reads directories, and prints for each a line for the directory itself and its files, or its attributes file, by numbers that
# only look random.
cat >.git/made.awk <<'END'
function below(limit) { seed = (seed * 16807) % 2147483647; return seed % limit }
function one_of(list, words) { return words[1 + below(split(list, words, " "))] }
BEGIN {
    seed = 20220214
    kinds = "c h txt sh png md in bat po"
    fronts = "a main file test x README lib.core zip-2 _ Make #tag !bang -dash"
    patterns = "* *.c *.[ch] *.txt *.sh *.png a* main.* file?.txt test[0-5]* [!a-m]* /*.md /sub/** **/deep/* sub/x* /src/**/*.h" \
        " **/test.c deep/ *.p? lib.core.* \\#tag* \\!bang* -dash* README*.md [[:alpha:]]*[[:digit:]].in sub/deep/**"
    states = "text -text !text text=auto eol=lf eol=crlf !eol diff=cpp -diff binary -binary !binary vendored -vendored" \
        " generated m1 -m1 m2 m3 !m3 m4 m4=v x.y _z=1 w-1 export-ignore merge=union encoding=utf-8 empty="
}
files {
    for (count = 25 + below(6); count > 0; count--) print $0 one_of(fronts) (below(3) ? below(10) : "") "." one_of(kinds)
    if (below(4) == 0) { print $0 "two words.txt"; print $0 "z\303\274rich.c"; print $0 "\377\376.bin" }
    if (below(4) == 0) { print $0 "say \"hi\".txt"; print $0 "back\\slash.h"; print $0 "tab\there.md" }
    next
}
{
    file = $0 ".gitattributes"
    if ($0 != "" && below(3) == 0) next
    print "# made for " $0 >file
    if ($0 == "") {
        print "[attr]vendored -diff linguist-vendored" >file
        print "[attr]m1 m2 text" >file
        print "[attr]m2 -eol w-1=two" >file
        print "[attr]m3 m4 one" >file
        print "[attr]m4 m3 -two" >file
        print "[attr]-no body" >file
    }
    for (count = 3 + below(8); count > 0; count--) {
        line = one_of(patterns)
        for (words = below(4); words >= 0; words--) line = line (below(5) ? " " : "\t ") one_of(states)
        print (below(9) ? "" : "  ") line (below(7) ? "" : "\r") >file
        if (below(6) == 0) print "" >file
        if (below(7) == 0) print "\"two words*\" " one_of(states) >file
        if (below(7) == 0) print "\"say \\\"*\" " one_of(states) " " one_of(states) >file
        if (below(7) == 0) print "\"\\377*\"\t" one_of(states) >file
        if (below(7) == 0) print "z\303\274* " one_of(states) >file
        if (below(8) == 0) print "!*.c " one_of(states) >file
        if (below(8) == 0) print "* text =no -bad+name" >file
        if (below(8) == 0) print "\"not closed " one_of(states) >file
        if (below(8) == 0) print "[attr]below " one_of(states) >file
    }
    close(file)
}
END

{
    echo
    for a in src docs "two words" tests; do
        for b in . sub sub/deep sub/deep/er x x/sub m "$(printf 'z\303\274')" one/two/three/four; do
            echo "$a/$b/" | sed 's:/\./:/:'
        done
    done
} >.git/directories
while IFS= read -r directory; do mkdir -p "./$directory"; done <.git/directories
awk -f .git/made.awk .git/directories
awk -v files=1 -f .git/made.awk .git/directories | sort -u | tr '\n' '\0' | xargs -0 touch --
git add -A 2>.git/said || { cat .git/said; exit 1; }
