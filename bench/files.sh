#!/bin/sh
# Writes attributes files of many sizes, and a hundred thousand paths, into the current directory.
set -eu

# A hundred thousand paths, of which each has one of ten thousand names and one of ten thousand ends.
awk 'BEGIN { for (i = 0; i < 100000; i++) printf "src/lib%d/part%d/f%d.e%d\n", i % 7, i % 13, i % 10000, (i * 7) % 10000 }' >paths

# The lines of an attributes file as projects have them: ends of names, some names, some directories, and two macros.
typical() {
    echo '* text=auto'
    echo '[attr]generated -diff linguist-generated'
    echo '[attr]vendored -text linguist-vendored'
    for end in c h cc cpp hpp rs go py rb js ts css html xml json toml yaml yml md txt sh pl awk sql java kt swift scala hs ml; do
        echo "*.$end text diff=$end"
    done
    for end in png jpg jpeg gif ico webp pdf zip gz xz bz2 7z jar class so dll exe o a woff woff2 ttf eot mp3 mp4 mov wav avi; do
        echo "*.$end -text -diff -merge"
    done
    for end in bat cmd ps1 sln vcxproj; do echo "*.$end text eol=crlf"; done
    for name in Makefile Dockerfile LICENSE README CHANGELOG configure AUTHORS NOTICE; do echo "$name text eol=lf"; done
    for name in Cargo.lock package-lock.json yarn.lock go.sum poetry.lock; do echo "$name generated"; done
    for directory in vendor third_party node_modules; do echo "$directory/** vendored"; done
    echo 'src/**/gen_*.rs generated'
    echo '/docs/**/*.[ch] -text'
    echo '**/test[0-9]/data/* -text'
    echo '.gitattributes export-ignore'
    echo '.gitignore export-ignore'
    echo '*.e1[0-9] generated'
    echo 'f1* eol=lf'
}

typical >typical
for n in 10 100 1000 10000; do
    awk -v n="$n" 'BEGIN { for (i = 0; i < n; i++) printf "f%d.e%d a%d\n", i, i, i % 10 }' >"names-$n"
    awk -v n="$n" 'BEGIN { for (i = 0; i < n; i++) printf "*.e%d a%d\n", i, i % 10 }' >"ends-$n"
    awk -v n="$n" 'BEGIN { for (i = 0; i < n; i++) printf "lib%d/**/f*%d a%d\n", i % 7, i, i % 10 }' >"globs-$n"
done
