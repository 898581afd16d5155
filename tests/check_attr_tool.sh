#!/bin/sh
# Compares the program check-attr with `git check-attr` in repositories that it makes: what is printed, byte by byte, and the
# status. It is built here, over the library that is built in crates/yektrod or whose directory YEKTROD_LIB_DIR is, unless
# CHECK_ATTR names it. It takes a minute at most, if the machine has nothing else to do.
set -eu
top=$(cd "$(dirname "$0")/.." && pwd)
room=$(mktemp -d)
trap 'rm -rf "$room"' EXIT
HOME=$room/home
GIT_CONFIG_NOSYSTEM=1
GIT_ATTR_NOSYSTEM=1
LC_ALL=C
export HOME GIT_CONFIG_NOSYSTEM GIT_ATTR_NOSYSTEM LC_ALL
unset GIT_PREFIX GIT_FLUSH XDG_CONFIG_HOME GIT_CONFIG_GLOBAL GIT_ATTR_SOURCE GIT_DIR GIT_WORK_TREE GIT_INDEX_FILE || true
mkdir "$HOME"
git config --global user.name nobody
git config --global user.email nobody@localhost
git config --global init.defaultBranch main
is_new=$(git check-attr -h | grep -q -e --source && echo yes || echo no)
is_usual=$([ "$(readlink -f "$(command -v git)")" = /usr/bin/git ] && echo yes || echo no)
count=0

failed() {
    echo "check_attr_tool: $part: $1" >&2
    exit 1
}

quietly() {
    "$@" >"$room/said" 2>&1 || { cat "$room/said"; failed "$*"; }
}

# Builds the program, with Debian's compiler.
build() {
    if [ -z "${YEKTROD_LIB_DIR:-}" ]; then
        quietly "$top/tools/c-library" "$room/yektrod"
        YEKTROD_LIB_DIR=$room/yektrod/lib
    fi
    quietly env YEKTROD_LIB_DIR="$YEKTROD_LIB_DIR" CARGO_TARGET_DIR="$room/target" RUSTC=/usr/bin/rustc RUSTFLAGS='-D warnings' \
        /usr/bin/cargo build --release --offline --locked --manifest-path "$top/clients/rust/Cargo.toml" -p check-attr
    tool=$room/target/release/check-attr
}
part=build
tool=${CHECK_ATTR:-}
if [ -z "$tool" ]; then build; fi

# Runs the tool on $room/input.
ours() {
    status=0
    "$tool" "$@" <"$room/input" >"$room/ours" 2>"$room/errors" || status=$?
}

# Wants the same of git and of the tool, on the same input.
same() {
    theirs=0
    git check-attr "$@" <"$room/input" >"$room/git" 2>"$room/warnings" || theirs=$?
    ours "$@"
    as_git "$@"
}

# Wants what git has printed, and its status.
as_git() {
    if [ "$status" != "$theirs" ] || ! cmp -s "$room/git" "$room/ours"; then
        diff "$room/git" "$room/ours" | head -n 20
        cat "$room/errors"
        failed "check-attr $* in $PWD: status $status, git's is $theirs"
    fi
    if [ "$status" != 0 ] && [ ! -s "$room/errors" ]; then failed "check-attr $* says nothing of status $status"; fi
    count=$((count + 1))
}

# The same for the index alone.
cached() {
    same --cached "$@"
}

# Wants of the tree $tree, named in each of three ways, what git prints of an index that has this tree.
of_tree() {
    theirs=0
    GIT_INDEX_FILE=$room/index_of_tree git read-tree "$tree"
    GIT_INDEX_FILE=$room/index_of_tree git check-attr --cached "$@" <"$room/input" >"$room/git" 2>"$room/warnings" || theirs=$?
    ours --source="$tree" "$@"
    as_git --source="$tree" "$@"
    GIT_ATTR_SOURCE=$tree
    export GIT_ATTR_SOURCE
    ours "$@"
    as_git "$@"
    unset GIT_ATTR_SOURCE
    GIT_CONFIG_COUNT=1 GIT_CONFIG_KEY_0=attr.tree GIT_CONFIG_VALUE_0=$tree
    export GIT_CONFIG_COUNT GIT_CONFIG_KEY_0 GIT_CONFIG_VALUE_0
    ours "$@"
    as_git "$@"
    unset GIT_CONFIG_COUNT
}

# Wants a status and this on standard error, and no answer.
refused() {
    wanted=$1
    words=$2
    shift 2
    ours "$@"
    if [ "$status" != "$wanted" ] || [ -s "$room/ours" ]; then failed "check-attr $*: status $status, not $wanted"; fi
    grep -q -e "$words" "$room/errors" || failed "check-attr $* does not say: $words"
    count=$((count + 1))
}

# Wants a status and this text, as newer versions of git have them. Git 2.39.5 does something else, as docs/CHECK_ATTR.md says.
newer() {
    wanted=$1
    printf "$2" >"$room/wanted"
    shift 2
    ours "$@"
    if [ "$status" != "$wanted" ] || ! diff "$room/wanted" "$room/ours"; then
        cat "$room/errors"
        failed "check-attr $* in $PWD: status $status, not $wanted"
    fi
    if [ "$is_new" = yes ]; then same "$@"; else count=$((count + 1)); fi
}

# Forms for the paths of a file, which end with NUL, and for some of them, a line each in $room/some. What compares is `same`, or a
# second word.
each_form() {
    compare=${2:-same}
    cp "$1" "$room/input"
    $compare -z --stdin --all
    tr '\0' '\n' <"$1" >"$room/input"
    $compare --stdin text eol m1
    set --
    while IFS= read -r path; do
        set -- "$@" "$path"
    done <"$room/some"
    $compare -a "$@"
    $compare -z text diff binary -- "$@"
}

: >"$room/input"

part='a made repository'
"$top/tests/made_repository.sh" "$room/made"
cd "$room/made"
git ls-files -z >"$room/paths"
git ls-files -- docs 'two words' | awk 'NR % 9 == 1' >"$room/some"
each_form "$room/paths"
grep -v '["\\]' "$room/some" | sed 's/.*/"&"/' >"$room/input"
same --stdin -a
printf '%s\n' docs docs/ docs/sub/ . ./ docs/. docs/sub/.. docs/./x//sub/../a.c '' nowhere nowhere/at/all/ "$PWD" "$PWD/" \
    "$PWD/docs/a.c" "$PWD/../made/docs/x/" ".git/config" '"docs/\141.c"' '"docs/a.c" and more' '"\303\274"' >"$room/input"
same --stdin -a
same --stdin m1 text -z
for directory in docs docs/sub 'two words/x/sub' .git/../src; do
    cd "$room/made/$directory"
    printf '%s\n' a.c ../a.c .. ../ . '' x/a.c "$room/made/README.md" >"$room/input"
    same --stdin --all
    same -a a.c .. . ./a.c ../../made/README.md
done
ln -s "$room/made" "$room/link"
cd "$room/link/docs"
same -a a.c "$room/link/docs/a.c" "$room/made/docs/a.c" "$room/link" "$room/link/"
cd "$room"
GIT_DIR=$room/made/.git GIT_WORK_TREE=$room/made
export GIT_DIR GIT_WORK_TREE
same -a docs/a.c README.md "$room/made/docs/a.c"
cd made/src
same -a a.c
unset GIT_DIR GIT_WORK_TREE

part='odd names'
git init -q "$room/odd"
cd "$room/odd"
tab=$(printf '\t')
line=$(printf 'two\nlines')
last=$(printf '\377\001')
for directory in . 'a b' 'q"q' "t${tab}t" "$line" 'zü' 'back\slash' '-dash' '#x' '!x'; do
    mkdir -p "./$directory/sub"
    for name in f.c ' f.c' 'f.c ' 'say "hi".c' "t${tab}.c" "$line.c" 'ü.c' "$last.c" 'x\y.c' '\\' '-a' '--' '*.c' '[a]' "$(printf '\177')"; do
        : >"./$directory/$name"
        : >"./$directory/sub/$name"
    done
    printf '* text\n*.c diff=%s\n"say \\"hi\\".c" m1\nsub/*.c eol=lf\n"ü.c" -text\n\\* x\n' "$(echo "$directory" | cksum | cut -d' ' -f1)" >"./$directory/.gitattributes"
done
printf '!no x\n[attr]m1 one -two\n*.c m1\n/q?q/*.c quoted\n"t\\tt/*" tabbed\n"two\\nlines/**" lines\n"*\\377*" high\nz\303\274/sub/* deep\n' >.gitattributes
quietly git add -A
git ls-files -z >"$room/paths"
printf '%s\n' 'a b/ f.c' 'a b/f.c ' 'q"q/say "hi".c' "t${tab}t/t${tab}.c" 'zü/sub/ü.c' "zü/$last.c" 'back\slash/x\y.c' './-dash/-a' '#x' '!x/*.c' '\\' >"$room/some"
for quotes in true false; do
    git config core.quotePath $quotes
    each_form "$room/paths"
    git ls-files >"$room/input"
    same --stdin -a
    same --stdin diff -z
done
same -a -- "$line" "$line/f.c" "$line/sub/$line.c" -dash/-- --
cd "$line/sub"
same -a f.c "../$line.c" .. ../../zü/f.c
mkdir "$room/odd/$last"
cd "$room/odd"
same -a "$last/f.c"
echo '* text' >"$last/.gitattributes"
same -a "$last/f.c"
# Names that look like what the program writes for a line that is left out, before another answer.
git init -q "$room/left_out"
cd "$room/left_out"
mkdir sub
printf '!n x\n* y\n' >sub/.gitattributes
same -a -- "$(printf 'dropped: sub/.gitattributes:1: negative\nsub/f')" sub/f
printf '!n x\n* z\n' >.gitattributes
same -a -- "$(printf 'dropped: .gitattributes:1: negative\nf.c')" "$(printf 'dropped: .gitattributes:1: negative\n')" f.c
same z -- "$(printf 'dropped: .gitattributes:1: negative\nf.c')" "$(printf 'dropped: .gitattributes:1: negative\n')" f.c
cd "$room"

part='files from the index'
git init -q "$room/index"
cd "$room/index"
mkdir -p a/b/c "$line/x" links
printf '[attr]m1 one\n* top\n' >.gitattributes
printf '* a\n[attr]m1 not\n' >a/.gitattributes
printf '* b m1\n\n' >a/b/.gitattributes
printf '* deep\n' >a/b/c/.gitattributes
printf '* lines\n' >"$line/x/.gitattributes"
printf 'f.c linked\n' >links/.gitattributes
ln -s ../a/.gitattributes links/to
quietly git add -A
quietly git commit -q -m made
printf '%s\n' f a/f a/b/f a/b/c/f a/b/c/d/e links/f.c links/to/f >"$room/some"
git ls-files -z >"$room/paths"
each_form "$room/paths"
rm a/.gitattributes .gitattributes "$line/x/.gitattributes"
each_form "$room/paths"
same -a "$line/x/f"
cd a/b
same -a f ../f ../../f
cd ../..
rm -r a "$line"
each_form "$room/paths"
same -a "$line/x/f"
mkdir -p a/b/.gitattributes a/b/c
echo '* changed' >a/.gitattributes
each_form "$room/paths"
rm links/.gitattributes
ln -s ../a/.gitattributes links/.gitattributes
same -a links/f.c
mkdir linked
ln -s ../a/.gitattributes linked/.gitattributes
ln -s a to_a
same -a linked/f to_a/f to_a/b/f
quietly git checkout -q -f .
quietly git checkout -q -b other
echo '* other' >a/.gitattributes
quietly git commit -q -a -m other
quietly git checkout -q main
echo '* ours' >a/.gitattributes
quietly git commit -q -a -m ours
git merge -q other >"$room/said" 2>&1 || true
rm a/.gitattributes
same -a a/f a/b/f
quietly git update-index --add --cacheinfo "160000,$(git rev-parse HEAD),module/.gitattributes"
quietly git update-index --add --cacheinfo "160000,0000000000000000000000000000000000000001,sub/.gitattributes"
same -a module/f sub/f a/b/f
quietly git worktree add -q "$room/worktree" other
mkdir -p .git/info
echo '* info' >.git/info/attributes
cd "$room/worktree"
same -a f a/f

part='files of the user, the system and the repository'
git init -q "$room/files"
cd "$room/files"
mkdir -p sub/deep .git/info "$HOME/.config/git" "$room/xdg/git" "$room/etc"
printf '[attr]m1 top\n[attr]m2 m1 second\n* t=top m1 top=1\n*.d !u\nsub/ directory=sub\ndeep/ directory=deep\n' >.gitattributes
printf '[attr]m2 not\n* t=sub\n!x y\n* sub m2\n' >sub/.gitattributes
printf '* t=deep deep -deeper\n' >sub/deep/.gitattributes
printf '[attr]m1 info\n*.i t=info info\n[attr]m3 m4\n[attr]m4 m3 circle\n*.i m3\n' >.git/info/attributes
printf '[attr]m2 user\n[attr]m1 user1\n* u=user user t=user m2 s\n' >"$HOME/user"
printf '* u=config config\n' >"$HOME/.config/git/attributes"
printf '* u=xdg xdg\n' >"$room/xdg/git/attributes"
printf '* u=below\n' >sub/user
printf '[attr]m1 system\n* s=system u=system system m1 t=system\n' >"$room/etc/gitattributes"
printf '%s\n' f f.i f.d sub/f sub/f.i sub/deep/f sub/deep/f.i sub/deep/f.d sub/ sub sub/deep sub/deep/ sub/deep/. >"$room/some"
tr '\n' '\0' <"$room/some" >"$room/paths"
each_form "$room/paths"
XDG_CONFIG_HOME=$room/xdg
export XDG_CONFIG_HOME
each_form "$room/paths"
XDG_CONFIG_HOME=
same -a f
unset XDG_CONFIG_HOME
for file in "$HOME/user" '~/user' '~' '~root/none' '~no-such-user/x' '%(prefix)/none' sub/user "$room/none" ''; do
    git config core.attributesFile "$file"
    each_form "$room/paths"
    (cd sub && same -a f deep/f.i)
done
for value in '' '~/user'; do
    git config core.attributesFile "$value"
    (unset HOME && GIT_CONFIG_GLOBAL=/dev/null same -a f)
done
git config core.attributesFile '~/user'
git config --add core.attributesFile ":(optional)$room/none"
newer 0 'f.i: u: config\nf.i: config: set\n' u config -- f.i
git config --unset-all core.attributesFile
git config core.attributesFile ":(optional)$HOME/user"
newer 0 'f.i: u: user\nf.i: config: unspecified\n' u config -- f.i
git config core.attributesFile '~/user'
rm .git/info/attributes
each_form "$room/paths"
ln -s ../../sub/.gitattributes .git/info/attributes
each_form "$room/paths"
: >.gitattributes
each_form "$room/paths"
rm .gitattributes
each_form "$room/paths"
printf '* s=%s\n* u\000 v\n\000* w\n* x\n' "$(head -c 2045 /dev/zero | tr '\0' a)" >.gitattributes
printf '* long=%s\n\n  * s=%s\r\n* t\n' "$(head -c 2045 /dev/zero | tr '\0' a)" "$(head -c 2040 /dev/zero | tr '\0' a)" >sub/.gitattributes
printf '\357\273\277* mark\r\n  \r\n# no\r\n\t* text\r\n' >sub/deep/.gitattributes
each_form "$room/paths"
grep -q '^warning: ignoring overly long attributes line 1$' "$room/errors" || failed 'a long line is not reported'
: >"$room/input"
# Byte order marks: git removes that of UTF-8 alone, once, and in files alone.
mkdir marks
for mark in '\357\273\277' '\357\273\277\357\273\277' '\377\376' '\376\377' '\000\000\376\377' '\377\376\000\000' '+/v8' '\303\274'; do
    printf "$mark* a\n* b\n" >marks/.gitattributes
    quietly git add -f marks
    same a b -- marks/f "$(printf "marks/${mark%%\\000*}f")"
    same --cached a b -- marks/f "$(printf "marks/${mark%%\\000*}f")"
done
quietly git rm -q -r --cached marks
mkdir large
printf '* a\n' >large/.gitattributes
truncate -s 104857600 large/.gitattributes
same -a large/f
grep '^warning: ignoring overly' "$room/errors" | diff "$room/warnings" - || failed 'a large file is reported otherwise'
rm -r large
# The system's file is one of a directory /etc of our own, if the machine lets us have it.
cat >"$room/with_etc" <<'END'
mount -t tmpfs none /etc && cp "$1" /etc/gitattributes && shift && exec "$@"
END
if [ "$(git var GIT_ATTR_SYSTEM 2>/dev/null || echo /etc/gitattributes)" = /etc/gitattributes ] &&
    unshare -rm sh "$room/with_etc" "$room/etc/gitattributes" true 2>/dev/null; then
    unset GIT_ATTR_NOSYSTEM
    printf '[attr]m1 top\n* t=top m1\n' >.gitattributes
    for words in '-a' 's u t user system' '--show-origin -a'; do
        unshare -rm sh "$room/with_etc" "$room/etc/gitattributes" git check-attr ${words#--show-origin} -- f f.i sub/f >"$room/git" 2>"$room/warnings"
        unshare -rm sh "$room/with_etc" "$room/etc/gitattributes" "$tool" $words -- f f.i sub/f >"$room/ours" 2>"$room/errors"
        cut -f1 "$room/ours" | cmp -s "$room/git" - || failed "the system's file is read otherwise"
        grep -q 'system' "$room/ours" || failed "the system's file is not read"
        count=$((count + 1))
    done
    GIT_ATTR_NOSYSTEM=yes
    export GIT_ATTR_NOSYSTEM
    unshare -rm sh "$room/with_etc" "$room/etc/gitattributes" "$tool" -a f >"$room/ours" 2>"$room/errors"
    if grep -q system "$room/ours"; then failed "the system's file is read against GIT_ATTR_NOSYSTEM"; fi
    GIT_ATTR_NOSYSTEM=1
else
    echo "check_attr_tool: no directory /etc of our own can be had here, so the system's file is left out"
fi

part='letter case'
git init -q "$room/case"
cd "$room/case"
mkdir -p Sub
printf '*.TXT text\n/sub/*.c diff\nSub/X x\n*.b=B c\nsub/** d\nREADME r=V\n' >.gitattributes
printf '*.TXT eol=lf\nA.c m1\n' >Sub/.gitattributes
quietly git add -A
printf '%s\n' a.txt A.TXT Sub/a.txt sub/a.txt SUB/A.C sub/x Sub/X readme README Sub/a.C "$PWD/Sub/A.c" "$room/CASE/a.txt" >"$room/some"
sed '$d' "$room/some" | tr '\n' '\0' >"$room/paths"
for case in true yes 1 false; do
    git config core.ignoreCase $case
    each_form "$room/paths"
done
printf '[core]\n\tignoreCase\n' >>.git/config
each_form "$room/paths"

part='refusals'
cd "$room/made"
: >"$room/input"
same
same --
same -a
same text
same -- README.md
same -a text -- README.md
same -a --
same --stdin
same --stdin -a README.md
same --stdin text -- README.md
same --unknown text README.md
same -q text README.md
same text -- ../README.md
same text README.md ../x docs/a.c
same text README.md / docs/a.c
same text README.md /tmp/../.. docs/a.c
same text "$room" README.md
same -a -- "$room/made/../madeup" README.md
for name in '-text' 'a b' '' 'a/b' 'ü' 'text=a' '!text'; do
    same text "$name" -- README.md
done
same text README.md --all
same -za README.md
same --no-stdin --stdin --no-all text </dev/null
same --all --no-all README.md docs/a.c
same -a - README.md
same builtin_objectmode.x text.1 _ 0 -- README.md
same text text eol text -- README.md docs/a.c docs/a.c
printf 'README.md\n"docs/a.c\ndocs/a.c\n' >"$room/input"
same --stdin text
printf 'README.md\n"docs/\\q"\ndocs/a.c\n' >"$room/input"
same --stdin -a
same --stdin -a -z
printf 'README.md\n"\\400"\n' >"$room/input"
same --stdin text
printf 'README.md\n../../x\ndocs/a.c' >"$room/input"
same --stdin text
printf 'README.md\r\n\ndocs/a.c' >"$room/input"
same --stdin text
printf 'README.md\0x\n"docs/a.c\\000x"\n"docs\0/a.c"\nREADME.md\n' >"$room/input"
same --stdin text
printf 'README.md\0../made/docs/a.c\0\0docs/a.c' >"$room/input"
same --stdin text
same -z --stdin text
: >"$room/input"
same --stdin text
same text README.md docs/a.c
# What prints a usage on standard output, with this status.
usage() {
    git check-attr "$@" <"$room/input" >"$room/git" 2>"$room/warnings" || theirs=$?
    ours "$@"
    if [ "$status" != "$theirs" ] || ! grep -q '^usage: ' "$room/git" || ! grep -q '^usage: ' "$room/ours"; then
        failed "check-attr $*: status $status, git's is $theirs"
    fi
    count=$((count + 1))
}
usage -h
usage -a -h
usage -ah
usage --no text README.md
if [ "$is_new" = yes ]; then usage --s text README.md; fi
cd "$room"
mkdir -p none
cd none
GIT_CEILING_DIRECTORIES=$room
export GIT_CEILING_DIRECTORIES
same text README.md
same
cd "$room/made/.git"
same text README.md
cd "$room/made"
git config core.ignoreCase maybe
same text README.md
same --unknown
git config --unset core.ignoreCase
for words in '--all=1 README.md' '--no-all=1 README.md' '-all' '-stdin text' '-sz' '--stdi text' \
    '--al README.md' '--no-a text README.md' \
 '-x-' '--all --' 'text -- --' '--all -- --all'; do
    same $words
done
newer 0 'README.md: text: unspecified\n' --end-of-options text README.md
newer 0 'README.md: text: unspecified\n' --end-of-options text -- README.md
newer 255 '' --end-of-options -a README.md
GIT_ATTR_NOSYSTEM=maybe
same text README.md
GIT_ATTR_NOSYSTEM=1
GIT_FLUSH=maybe
export GIT_FLUSH
echo README.md >"$room/input"
ours --stdin text
[ "$status" = 128 ] && grep -q "^fatal: bad boolean environment value 'maybe' for 'GIT_FLUSH'$" "$room/errors" ||
    failed 'a bad GIT_FLUSH is taken'
: >"$room/input"
unset GIT_FLUSH
printf '[core' >"$room/broken"
GIT_CONFIG_GLOBAL=$room/broken
export GIT_CONFIG_GLOBAL
same text README.md
unset GIT_CONFIG_GLOBAL
GIT_TEST_ASSUME_DIFFERENT_OWNER=1
export GIT_TEST_ASSUME_DIFFERENT_OWNER
same text README.md
unset GIT_TEST_ASSUME_DIFFERENT_OWNER
path=$PATH
PATH=$room/none
ours text README.md
PATH=$path
grep -q '^fatal: there is no git on PATH$' "$room/errors" && [ "$status" = 128 ] || failed 'a missing git is told otherwise'

part='the environment'
for trace in 1 2 "$room/trace"; do
    GIT_TRACE=$trace
    export GIT_TRACE
    same text eol -- README.md docs/a.c
    same text README.md ../x
done
unset GIT_TRACE
GIT_CONFIG_COUNT=2 GIT_CONFIG_KEY_0=core.quotePath GIT_CONFIG_VALUE_0=true GIT_CONFIG_KEY_1=core.ignoreCase GIT_CONFIG_VALUE_1=1
export GIT_CONFIG_COUNT GIT_CONFIG_KEY_0 GIT_CONFIG_VALUE_0 GIT_CONFIG_KEY_1 GIT_CONFIG_VALUE_1
same -a DOCS/A.C docs/zürich.C README.MD
unset GIT_CONFIG_COUNT
LC_ALL=de_DE.UTF-8 LANGUAGE=de GIT_LITERAL_PATHSPECS=1
export LANGUAGE GIT_LITERAL_PATHSPECS
same -a docs/zürich.c nowhere/f
same text ../x
LC_ALL=C
unset LANGUAGE GIT_LITERAL_PATHSPECS
GIT_CONFIG=$room/none same -a docs/zürich.c
# Git starts an alias at the top, and names the current directory.
git config alias.ours "!'$tool'"
cd docs
git ours -a a.c ../README.md "$room/made/docs/a.c" >"$room/ours" 2>"$room/errors"
git check-attr -a a.c ../README.md "$room/made/docs/a.c" 2>"$room/warnings" | diff - "$room/ours" ||
    failed 'an alias answers otherwise'
# So does a program of git on PATH where it is called.
mkdir "$room/bin"
ln -s "$tool" "$room/bin/git-yattr"
PATH=$room/bin:$PATH git yattr -a a.c ../README.md "$room/made/docs/a.c" 2>"$room/errors" | diff "$room/ours" - ||
    failed 'git yattr answers otherwise'
GIT_TRACE=$room/trace
export GIT_TRACE
rm -f "$room/trace"
# Git elsewhere is asked where the system's file is.
if [ "$is_usual" = yes ]; then unset GIT_ATTR_NOSYSTEM; fi
ours -a a.c nowhere/f
[ "$(grep -c 'trace: built-in: git' "$room/trace")" = 3 ] ||
    failed "one path takes more than three calls of git: $(cat "$room/trace")"
unset GIT_TRACE
GIT_ATTR_NOSYSTEM=1
export GIT_ATTR_NOSYSTEM

part='the index alone'
cd "$room/index"
each_form "$room/paths" cached
cached -a a/f a/b/f "$line/x/f" links/f.c linked/f
cd a
cached -a f b/f ../f
# Paths in variables are those of where it is called.
mkdir -p "$room/index/away/deep"
cd "$room/index/away/deep"
GIT_DIR=../../.git GIT_WORK_TREE=../.. GIT_INDEX_FILE=.git/index
export GIT_DIR GIT_WORK_TREE GIT_INDEX_FILE
same -a f ../../a/f ../../a/b/f
cached -a f ../../a/f ../../a/b/f
GIT_WORK_TREE=..
same -a f ../f ../a/f a/f
cached -a ../a/f
cd "$room"
GIT_DIR=index/.git GIT_WORK_TREE=index
same -a f a/f a/b/f
cached -a f a/f a/b/f
unset GIT_INDEX_FILE
mkdir alternate
mv index/.git/objects/?? alternate
for names in ../alternate ../none:../alternate "$room/alternate" alternate; do
    GIT_ALTERNATE_OBJECT_DIRECTORIES=$names
    export GIT_ALTERNATE_OBJECT_DIRECTORIES
    same -a f a/f a/b/f
    cached -a f a/f a/b/f
done
unset GIT_DIR GIT_WORK_TREE GIT_ALTERNATE_OBJECT_DIRECTORIES
mv alternate/* index/.git/objects
cd "$room/made"
git ls-files -z >"$room/paths"
git ls-files -- docs | awk 'NR % 9 == 1' >"$room/some"
each_form "$room/paths" cached
: >"$room/input"
GIT_INDEX_FILE=$room/none/index
export GIT_INDEX_FILE
cached -a docs/a.c
same -a docs/a.c
unset GIT_INDEX_FILE
cached --no-cached -a docs/a.c
printf 'no index' >"$room/broken"
GIT_INDEX_FILE=$room/broken cached -a docs/a.c

part='odd directories in the index and in trees'
git init -q "$room/entries"
cd "$room/entries"
missing=$(printf 'x missing\ny')
for directory in 1:x 0: 2: ':0:' 'a b' -x "$line" ' missing' 'x missing' "$missing" HEAD: "$tab" 'é' "$last"; do
    mkdir -p "./$directory/sub"
    printf '* in=%s\n' "$(echo "$directory" | cksum | cut -d' ' -f1)" >"./$directory/.gitattributes"
    printf '* sub\r\n*.c eol=crlf\r\n' >"./$directory/sub/.gitattributes"
    : >"./$directory/sub/f.c"
done
mkdir link gitlink
ln -s '* linked' link/.gitattributes
printf '\357\273\277* marked\n* text\0 cut\n* behind\n' >gitlink/nul
printf '* top\n[attr]m1 one\n' >.gitattributes
quietly git add -A
quietly git commit -q -m made
quietly git update-index --add --cacheinfo "160000,$(git rev-parse HEAD),gitlink/.gitattributes"
quietly git update-index --add --cacheinfo "160000,0000000000000000000000000000000000000001,sub/.gitattributes"
quietly git update-index --add --cacheinfo "100644,$(git rev-parse HEAD:gitlink/nul),nul/.gitattributes"
quietly git commit -q -m made
git tag -a -m tag tagged
git ls-files -z >"$room/paths"
printf '%s\n' 1:x/f 0:/sub/f.c 2:/f :0:/f 'a b/f' -x/f ' missing/f' 'x missing/sub/f' HEAD:/f "$tab/f" é/f "$last/sub/f" \
    link/f gitlink/f nul/f sub/f none/f >"$room/some"
: >"$room/input"
each_form "$room/paths"
each_form "$room/paths" cached
find . -name .gitattributes ! -path ./.gitattributes -exec rm {} +
each_form "$room/paths"
each_form "$room/paths" cached
: >"$room/input"
same -a "$line/f" "$missing/f"
cached -a "$line/f" "$missing/f"
for tree in HEAD HEAD~1 tagged 'HEAD^{tree}' HEAD: "HEAD:a b" "$(git rev-parse --short HEAD)" "$(git rev-parse 'HEAD^{tree}')"; do
    of_tree -a "$line/f" "$missing/f" f sub/f
done
tree=HEAD
each_form "$room/paths" of_tree
: >"$room/input"
cd 'a b'
of_tree -a f ../f sub/f "$room/entries/é/f"
cd ..
for tree in HEAD:.gitattributes 0123456789012345678901234567890123456789; do
    newer 0 'f: top: unspecified\n' --source="$tree" top f
    GIT_ATTR_SOURCE=$tree
    export GIT_ATTR_SOURCE
    newer 0 'f: top: unspecified\n' top f
    newer 0 'f: top: set\n' --cached top f
    newer 0 'f: top: set\n' --source=HEAD top f
    unset GIT_ATTR_SOURCE
done
for tree in none '' HEAD:none ':' "$line"; do
    refused 128 'not a valid tree-ish source' --source "$tree" top f
    refused 128 'not a valid tree-ish source' --source "$tree" --cached top f
    GIT_ATTR_SOURCE=$tree
    export GIT_ATTR_SOURCE
    refused 128 'bad --attr-source or GIT_ATTR_SOURCE' top f
    refused 128 'bad --attr-source or GIT_ATTR_SOURCE' --cached top f
    newer 0 '' --stdin top
    newer 0 'f: top: set\n' --source=HEAD top f
    unset GIT_ATTR_SOURCE
    git config attr.tree "$tree"
    same top f
    git config --unset attr.tree
done

part='bare repositories'
quietly git clone -q --bare "$room/entries" "$room/bare"
mkdir "$room/bare/info" 2>/dev/null || true
cd "$room/bare"
for contents in '' '* info\n[attr]m1 bare\n*.c m1\n'; do
    printf "$contents" >info/attributes
    same top -- f 'a b/f'
    same -a f sub/f.c f/
    printf 'f\n\nsub/f.c\n' >"$room/input"
    same --stdin -a
    : >"$room/input"
    cached -a f sub/f.c
    tree=HEAD
    each_form "$room/paths" of_tree
    : >"$room/input"
    same text ../x
    same text "$room/bare/f"
done
quietly git read-tree HEAD
cached -a f 'a b/f' sub/f.c
rm index
cd refs
same -a f.c
tree=tagged
of_tree -a f.c 'a b/f'
cd "$room"
GIT_DIR=$room/bare
export GIT_DIR
same -a f
of_tree -a f.c 'a b/f'
unset GIT_DIR

part='sha256'
git init -q --object-format=sha256 "$room/sha256"
cd "$room/sha256"
mkdir sub
printf '* top\n' >.gitattributes
printf '* sub\n' >sub/.gitattributes
quietly git add -A
quietly git commit -q -m made
rm sub/.gitattributes
same -a f sub/f
cached -a f sub/f
for tree in HEAD "$(git rev-parse HEAD)" HEAD:; do of_tree -a f sub/f; done
newer 0 'f: top: unspecified\n' --source="$(git rev-parse HEAD | tr '[:alnum:]' 0)" top f

part='corrupt objects'
git init -q "$room/corrupt"
cd "$room/corrupt"
mkdir -p sub/deep
printf '* top\n' >.gitattributes
printf '* sub\n' >sub/.gitattributes
: >sub/deep/f
quietly git add -A
quietly git commit -q -m made
rm sub/.gitattributes
# Writes bytes in the place of a loose object: what follows the two words, compressed, or without them nothing of an object.
spoil() {
    python3 -c '
import os, sys, zlib
path = ".git/objects/%s/%s" % (sys.argv[1][:2], sys.argv[1][2:])
os.chmod(path, 0o644)
with open(path, "wb") as out:
    out.write(zlib.compress(os.fsencode("%s %s" % (*sys.argv[2:4],)) + b"\0* sub\n") if len(sys.argv) > 2 else b"broken")
' "$@"
}
blob=$(git rev-parse :sub/.gitattributes)
tree=$(git rev-parse HEAD:sub)
spoil "$blob"
same -a f sub/f f
cached -a sub/f f
newer 128 'f: top: set\n' --source=HEAD top -- f sub/f f
# Git doesn't see all of these.
for size in 2 7 60 90000000 104857599; do
    spoil "$blob" blob $size
    ours top -- f sub/f
    echo 'f: top: set' | diff - "$room/ours" || failed "a blob that isn't $size long is taken"
    [ "$status" = 128 ] && grep -q "^fatal: object $blob is corrupt$" "$room/errors" || failed "a blob that isn't $size long is taken"
    count=$((count + 1))
done
spoil "$blob" blob 200000000000
ours -a f sub/f
[ "$status" = 0 ] && grep -q "^warning: ignoring overly large gitattributes blob 'sub/.gitattributes'$" "$room/errors" ||
    failed 'an overly large blob is read'
spoil "$blob" tree 40
same -a f sub/f
spoil "$tree"
newer 128 'f: top: set\n' --source=HEAD top -- f sub/f
for size in 6 200000000000 20000000000000000000; do
    spoil "$tree" tree $size
    newer 128 'f: top: set\n' --source=HEAD top -- f sub/f
done

part='sparse checkouts'
git init -q "$room/sparse"
cd "$room/sparse"
mkdir -p in/sub out/sub
for directory in . in in/sub out out/sub; do
    printf '* %s\n' "$(echo "$directory" | tr './' 'ts')" >"$directory/.gitattributes"
    : >"$directory/f"
done
quietly git add -A
quietly git commit -q -m made
git check-attr -a f in/f in/sub/f out/f out/sub/f out/none/f >"$room/whole"
for form in '--cone' '--cone --sparse-index' '--no-cone'; do
    quietly git sparse-checkout set $form in
    [ ! -e out/f ] || failed 'the checkout is not sparse'
    newer 0 "$(cat "$room/whole")\n" -a f in/f in/sub/f out/f out/sub/f out/none/f
    newer 0 "$(cat "$room/whole")\n" --cached -a f in/f in/sub/f out/f out/sub/f out/none/f
    newer 0 "$(cat "$room/whole")\n" --source=HEAD -a f in/f in/sub/f out/f out/sub/f out/none/f
done

part='submodules and modes'
git init -q "$room/modes"
cd "$room/modes"
git init -q sub
printf '* inner\n' >sub/.gitattributes
git -C sub add .gitattributes
quietly git -C sub commit -q -m made
printf '* outer\n' >.gitattributes
mkdir directory
: >plain
: >program
chmod +x program
ln -s plain link
all='plain directory directory/ program link sub'
newer 0 "$(for it in 100644:plain 040000:directory 040000:directory/ 100755:program 120000:link 160000:sub; do
    echo "${it#*:}: builtin_objectmode: ${it%%:*}"
done)\n" builtin_objectmode -- $all
newer 0 'plain: builtin_objectmode: unspecified\nsub: builtin_objectmode: unspecified\n' --cached builtin_objectmode -- plain sub
git add plain program link sub >"$room/said" 2>&1
newer 0 "$(for it in 100644:plain unspecified:directory unspecified:directory/ 100755:program 120000:link 160000:sub; do
    echo "${it#*:}: builtin_objectmode: ${it%%:*}"
done)\n" --cached builtin_objectmode -- $all
rm -rf sub/.git
newer 0 'sub: outer: set\nsub: builtin_objectmode: 160000\n' outer builtin_objectmode -- sub
newer 128 '' builtin_objectmode -- none
newer 128 '' builtin_objectmode outer -- .
newer 128 '' outer builtin_objectmode -- plain/
newer 128 'plain: outer: set\nplain: builtin_objectmode: 100644\n' outer builtin_objectmode -- plain none
same -a plain sub/f sub/none/f
(cd sub && same -a f ../plain)

part='a file beside a directory of its name'
git init -q "$room/namesakes"
cd "$room/namesakes"
mkdir sub
printf 'a/ x\na-b/ y\n' >.gitattributes
printf '/a/ z\n' >sub/.gitattributes
# Each order of four paths: by arguments and by standard input, lines and fields in turn.
form=0
for first in a a-b a.txt a/; do
    for second in a a-b a.txt a/; do
        for third in a a-b a.txt a/; do
            for fourth in a a-b a.txt a/; do
                case "$(printf '%s\n' "$first" "$second" "$third" "$fourth" | sort -u | wc -l)" in 4) ;; *) continue ;; esac
                form=$(((form + 1) % 4))
                case $form in
                0) same -a -- "$first" "$second" "$third" "$fourth" ;;
                1) same -z -a -- "$first" "$second" "$third" "$fourth" ;;
                2)
                    printf '%s\n' "$first" "$second" "$third" "$fourth" >"$room/input"
                    same --stdin -a
                    ;;
                3)
                    printf '%s\0' "$first" "$second" "$third" "$fourth" >"$room/input"
                    same --stdin -a -z
                    ;;
                esac
            done
        done
    done
done
printf '%s\n' sub/a/ a/ sub/a-b a a-b/ sub/a a-b sub/a.txt a.txt >"$room/some"
tr '\n' '\0' <"$room/some" >"$room/paths"
each_form "$room/paths"
: >"$room/input"
same -a a a-b a/
same x z -- a a-b a/ sub/a sub/a/

part='the top, and empty lines'
git init -q "$room/top"
cd "$room/top"
mkdir sub
printf '* y\n' >sub/.gitattributes
for contents in '' '* x\n' '** x\n[attr]m x\nsub/ directory\n* m\n'; do
    printf "$contents" >.gitattributes
    same -a .
    same -z -a ''
    same -a f sub/.. sub ./ .
    same x y -- . '' sub/.. sub/. sub/
    printf '\n' >"$room/input"
    same --stdin -a
    printf 'f\nsub/\n\n' >"$room/input"
    same --stdin -a
    printf '\0\0sub/\0\0' >"$room/input"
    same --stdin -a -z
    : >"$room/input"
done
(cd sub && same -a .. ../ . '' f)
rm .gitattributes sub/.gitattributes
same -a . '' f

part='no directory and no stream'
cd "$room/top"
printf '* x\n' >.gitattributes
mkdir "$room/below"
for tree in "$room/nowhere" ../../nowhere "$room/top/.gitattributes" "$room/below" ..; do
    cp .git/config "$room/config"
    printf '[core]\n\tworktree = %s\n' "$tree" >>.git/config
    same -a f
    same x -- f sub/f
    cp "$room/config" .git/config
done
# What it does with streams that are full or closed, by a line for sh.
streams() {
    theirs=0
    sh -c "git check-attr $1" >"$room/git" 2>"$room/warnings" || theirs=$?
    status=0
    sh -c "\"\$0\" $1" "$tool" >"$room/ours" 2>"$room/errors" || status=$?
    if [ "$status" != "$theirs" ] || ! cmp -s "$room/git" "$room/ours" || ! cmp -s "$room/warnings" "$room/errors"; then
        cat "$room/warnings" "$room/errors"
        failed "check-attr $1: status $status, git's is $theirs"
    fi
    count=$((count + 1))
}
if [ -w /dev/full ]; then
    streams '-a f >/dev/full'
    streams '--stdin -z x <.gitattributes >/dev/full'
    printf '!n x\n* x\n' >.gitattributes
    streams '-a f 2>/dev/full'
    printf '* x\n' >.gitattributes
fi
streams '-a f >&-'
streams '-a f <&-'
streams '-a f 2>&-'
streams '--stdin -a <&-'
streams '-a f <&- >&- 2>&-'
git check-attr -a f >"$room/git"
for limit in 8 9 10 11 12 13 14 16; do
    # A script in the place of git takes descriptors itself.
    if [ "$is_usual" = no ]; then break; fi
    status=0
    (ulimit -n $limit && exec "$tool" -a f) >"$room/ours" 2>"$room/errors" || status=$?
    case $status in
    0) cmp -s "$room/git" "$room/ours" || failed "with $limit descriptors it answers otherwise" ;;
    128) grep -q '^fatal: ' "$room/errors" || failed "with $limit descriptors it does not say what is wrong" ;;
    *) cat "$room/errors" && failed "with $limit descriptors its status is $status" ;;
    esac
    count=$((count + 1))
done

part='JSON'
cd "$room/odd"
quietly git add -A
printf '* x=\377\001"\\ü no\n' >>.git/info/attributes
"$top/tests/check_attr_json.py" "$tool" "$room/odd" || failed 'JSON says something else'
"$top/tests/check_attr_json.py" "$tool" "$room/made" || failed 'JSON says something else'
cd "$room/top"
ours --json x no -- f
printf '{"path":"f","attributes":[{"name":"x","state":"set","source":".gitattributes","line":1,"pattern":"*","macro":null},' >"$room/wanted"
printf '{"name":"no","state":"unspecified","source":null,"line":null,"pattern":null,"macro":null}]}\n' >>"$room/wanted"
diff "$room/wanted" "$room/ours" || failed 'JSON is printed otherwise'
rm .gitattributes
XDG_CONFIG_HOME=$room/none
export XDG_CONFIG_HOME
ours --json -a f ''
unset XDG_CONFIG_HOME
printf '{"path":"f","attributes":[]}\n{"path":"","attributes":[]}\n' | diff - "$room/ours" || failed 'a path without attributes has no JSON'
printf '* x\n' >.gitattributes
for words in --help '--version' '-a --help'; do
    ours $words
    [ "$status" = 0 ] && [ -s "$room/ours" ] && [ ! -s "$room/errors" ] || failed "$words: status $status"
    count=$((count + 1))
done
if command -v groff >/dev/null; then
    groff -man -ww -z "$top/clients/rust/check-attr/man/check-attr.1" 2>&1 | diff /dev/null - || failed 'groff warns of the man page'
else
    echo 'check_attr_tool: there is no groff here, so the man page is left out'
fi

part='a reader that has gone'
cd "$room/made"
git ls-files >"$room/many"
for reader in 'head -n 1' true; do
    for program in 'git check-attr' "$tool"; do
        {
            status=0
            GIT_FLUSH=1 $program --stdin -a <"$room/many" 2>"$room/errors" || status=$?
            echo $status >"$room/status"
        } | $reader >/dev/null
        [ "$(cat "$room/status")" = 141 ] || failed "$program ends with $(cat "$room/status") where its reader has gone"
    done
    [ "$(grep -v ' is left out: ' "$room/errors")" = '' ] || failed 'it says something where its reader has gone'
done
: >"$room/input"

part='answers path by path'
"$top/tests/check_attr_stream.py" "$tool" || failed 'a path is not answered before the next'

part='no plain file'
cd "$room/top"
git init -q "$room/pipes"
cd "$room/pipes"
mkdir sub
printf '* top\n' >.gitattributes
printf '* sub\n' >sub/.gitattributes
quietly git add -A
rm sub/.gitattributes
git config core.attributesFile "$room/none/attributes"
same -a f sub/f
cp "$room/git" "$room/wanted"
mkfifo sub/.gitattributes .git/info/attributes
git config core.attributesFile /dev/zero
timeout 10 "$tool" -a f sub/f >"$room/ours" 2>"$room/errors" || failed 'it waits for a pipe'
cmp "$room/wanted" "$room/ours" || failed 'a pipe is no missing file'
count=$((count + 1))

part='what may not be read'
mkdir "$room/others"
cp -R "$room/files" "$room/others/files"
cp "$tool" "$room/others/check-attr"
cd "$room/others/files"
rm -f .git/info/attributes
printf '* top\n' >.gitattributes
printf '* deep\n' >sub/deep/.gitattributes
printf '[safe]\n\tdirectory = *\n' >"$room/others/config"
git config core.attributesFile "$room/others/files/user"
printf '* user\n' >user
printf '* info\n' >.git/info/attributes
quietly git add -A
chmod -R a+rX "$room/others"
chmod 711 "$room"
# Root may read all, so root runs both as the user 65534.
if [ "$(id -u)" = 0 ]; then
    plainly() { setpriv --reuid=65534 --regid=65534 --clear-groups "$@"; }
else
    plainly() { "$@"; }
fi
GIT_CONFIG_GLOBAL=$room/others/config
export GIT_CONFIG_GLOBAL
for denied in user .git/info/attributes .gitattributes sub/deep/.gitattributes sub/deep sub; do
    chmod 0 $denied
    theirs=0 status=0
    plainly git check-attr -a f sub/f sub/deep/f >"$room/git" 2>"$room/warnings" || theirs=$?
    plainly "$room/others/check-attr" -a f sub/f sub/deep/f >"$room/ours" 2>"$room/errors" || status=$?
    as_git -a "without $denied"
    grep 'Permission denied' "$room/warnings" | sort -u >"$room/wanted"
    [ -s "$room/wanted" ] || failed "$denied can be read"
    grep 'Permission denied' "$room/errors" | sort -u | diff "$room/wanted" - || failed "git warns otherwise of $denied"
    chmod 755 $denied
done
unset GIT_CONFIG_GLOBAL

part='no child is left'
if [ -e /proc/$$/task/$$/children ]; then
    cd "$room/index"
    mkfifo "$room/questions"
    GIT_FLUSH=1 "$tool" --stdin -a <"$room/questions" >"$room/ours" 2>"$room/errors" &
    tool_id=$!
    exec 3>"$room/questions"
    printf 'a/f\na/b/f\n' >&3
    # The process that answers from the index, once it runs.
    child=
    for tries in 1 2 3 4 5 6 7 8 9 10; do
        child=$(cat "/proc/$tool_id/task/$tool_id/children")
        if [ -n "$child" ] && grep -q a/b/f "$room/ours"; then break; fi
        sleep 1
    done
    kill -KILL $tool_id
    exec 3>&-
    wait $tool_id 2>/dev/null || true
    for tries in 1 2 3 4 5 6 7 8 9 10; do
        if [ ! -e "/proc/${child% }" ]; then break; fi
        sleep 1
    done
    if [ -z "$child" ] || [ -e "/proc/${child% }" ]; then failed "a child is left: $child"; fi
    count=$((count + 1))
else
    echo 'check_attr_tool: there is no list of children in /proc, so this is left out: what a kill leaves'
fi

part='what is ours'
git init -q "$room/ours_alone"
cd "$room/ours_alone"
rm -r "$HOME/.config"
mkdir sub "t${tab}"
printf '[attr]vendored -diff third\n*.c text=auto\n!n x\n*.z vendored\n* =a\n[attr]-x y\n* builtin_a\n' >.gitattributes
printf '*.c !text\n[attr]below a\n"q\\"t\\t*" eol=lf\n' >sub/.gitattributes
printf '* tab\n' >"t${tab}/.gitattributes"
cat >"$room/wanted" <<'END'
a.c: text: auto	.gitattributes:2	*.c	-
a.c: eol: unspecified	-	-	-
a.c: diff: unspecified	-	-	-
sub/b.c: text: unspecified	sub/.gitattributes:1	*.c	-
sub/b.c: eol: unspecified	-	-	-
sub/b.c: diff: unspecified	-	-	-
x.z: text: unspecified	-	-	-
x.z: eol: unspecified	-	-	-
x.z: diff: unset	.gitattributes:4	*.z	vendored
"sub/q\"t\t1": text: unspecified	-	-	-
"sub/q\"t\t1": eol: lf	sub/.gitattributes:3	"q\"t\t*"	-
"sub/q\"t\t1": diff: unspecified	-	-	-
END
ours --show-origin text eol diff -- a.c sub/b.c x.z "sub/q\"t${tab}1"
diff "$room/wanted" "$room/ours" || failed '--show-origin says something else'
cat >"$room/wanted" <<'END'
warning: .gitattributes:3 is left out: its pattern is negative
warning: .gitattributes:5 is left out: an attribute has a bad name
warning: .gitattributes:6 is left out: its macro has a bad name
warning: .gitattributes:7 is left out: an attribute has a name that is reserved
warning: sub/.gitattributes:2 is left out: macros are allowed at the top only
END
diff "$room/wanted" "$room/errors" || failed 'the lines that are left out are told otherwise'
cat >"$room/wanted" <<'END'
x.z: vendored: set	.gitattributes:4	*.z	-
x.z: diff: unset	.gitattributes:4	*.z	vendored
x.z: third: set	.gitattributes:4	*.z	vendored
"t\t/x": tab: set	"t\t/.gitattributes:1"	*	-
END
ours --show-origin --all x.z sub/no "t${tab}/x"
sort "$room/wanted" >"$room/sorted"
sort "$room/ours" | diff "$room/sorted" - || failed '--show-origin --all says something else'
ours --show-origin -z third -- x.z
printf 'x.z\0third\0set\0.gitattributes:4\0*.z\0vendored\0' | cmp - "$room/ours" || failed '--show-origin -z says something else'

part='what a repository writes is no end of a field'
git init -q "$room/forged"
cd "$room/forged"
mkdir "d:7${tab}x" 2 2/.gitattributes:1
printf '"[f\\tm\\nf: b: set\\tfake:9\\tpat]" a b\n"[\\000h].c" x\n"[g]\\t-\\nfake" c\n[attr]m d\n"[i]*" m\n' >.gitattributes
printf '* y\n' >"d:7${tab}x/.gitattributes"
printf '* y=:1\n' >2/.gitattributes:1/.gitattributes
printf '!dropped: 1/:1: negative\n* z\n' >2/.gitattributes
cat >"$room/wanted" <<'END'
f: a: set	.gitattributes:1	"[f\tm\nf: b: set\tfake:9\tpat]"	-
f: b: set	.gitattributes:1	"[f\tm\nf: b: set\tfake:9\tpat]"	-
END
ours --show-origin a b -- f
diff "$room/wanted" "$room/ours" || failed '--show-origin is forged by a pattern'
ours --show-origin -a f
diff "$room/wanted" "$room/ours" || failed '--show-origin --all is forged by a pattern'
ours --show-origin -z a b -- f
for name in a b; do
    printf 'f\0%s\0set\0.gitattributes:1\0[f\tm\nf: b: set\tfake:9\tpat]\0-\0' $name
done | cmp - "$room/ours" || failed '--show-origin -z is forged by a pattern'
cat >"$room/wanted" <<'END'
h.c: x: set	.gitattributes:2	"[\000h].c"	-
"g\t-\nfake": c: set	.gitattributes:3	"[g]\t-\nfake"	-
i: m: set	.gitattributes:5	[i]*	-
i: d: set	.gitattributes:5	[i]*	m
"d:7\tx/q": y: set	"d:7\tx/.gitattributes:1"	*	-
2/.gitattributes:1/q: y: :1	2/.gitattributes:1/.gitattributes:1	*	-
2/.gitattributes:1/q: z: set	2/.gitattributes:2	*	-
END
ours --show-origin --all -- h.c "$(printf 'g\t-\nfake')" i "d:7${tab}x/q" 2/.gitattributes:1/q
for file in "$room/wanted" "$room/ours"; do sort "$file" >"$file.sorted"; done
diff "$room/wanted.sorted" "$room/ours.sorted" || failed '--show-origin is forged by a file or a directory'
ours --show-origin -z -a h.c
printf 'h.c\0x\0set\0.gitattributes:2\0"[\\000h].c"\0-\0' | cmp - "$room/ours" || failed '-z does not quote a NUL'
# Differences from git that are meant: docs/DIFFERENCES.md.
printf '/* x\n"a\\000b" y\n' >.gitattributes
ours x y -- . a
printf '.: x: set\n.: y: unspecified\na: x: set\na: y: unspecified\n' | diff - "$room/ours" ||
    failed 'a difference that is meant is none'
git check-attr x y -- . a >"$room/git"
printf '.: x: unspecified\n.: y: unspecified\na: x: set\na: y: set\n' | diff - "$room/git" || failed 'git answers otherwise'
printf '* u\n' >"$room/$last"
git config core.attributesFile "$room/$last"
ours --show-origin u v -- f
printf 'f: u: set\t"%s/\\377\\001:1"\t*\t-\nf: v: unspecified\t-\t-\t-\n' "$room" | diff - "$room/ours" ||
    failed '--show-origin names the file of the user otherwise'

echo "check_attr_tool: $count calls answer as git check-attr does, or are refused in clear words"
