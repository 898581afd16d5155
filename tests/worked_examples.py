#!/usr/bin/env python3
"""Asks git for the worked examples: what `crates/example_tests` proves of the definitions is what `git check-attr` answers. The rows
are the table `worked` of crates/rows/data/scripts too, so the program is compared with the same answers.
usage: worked_examples.py [--write]
With --write it writes the table, and without it fails if the table that is there is another one.

A row has the examples that it is about, the files of a work tree, answers for paths, and the lines that are dropped, if any, with the
reasons of docs/SCRIPT.md. A path that ends in a slash is a directory.
"""
import collections
import os
import re
import subprocess
import sys
import tempfile

import tables

TOP = os.path.dirname(os.path.dirname(os.path.abspath(__file__)))
SET, UNSET, UNSPECIFIED = 'set', 'unset', 'unspecified'
NAME, NEGATIVE = 'attribute-name', 'negative'

Row = collections.namedtuple('Row', 'examples files answers dropped', defaults=[{}])

ROWS = [
    ('any_directories_spelled any_directories_matched', {'': b'**/b a'}, {('x/y/b', 'a'): SET, ('b', 'a'): SET, ('xb', 'a'): UNSPECIFIED}),
    ('bracket_spelled', {'': b'[!a-c] a\n[a b'}, {('d', 'a'): SET, ('b', 'a'): UNSPECIFIED, ('[a', 'b'): UNSPECIFIED}),
    ('pairs_reached', {'': b'*b a\n* b'}, {('a', 'a'): UNSPECIFIED, ('a', 'b'): SET}),
    ('quoted_text_undone', {'': b'"a\\tb" a'}, {('a\tb', 'a'): SET}),
    ('directory_at_the_top_read', {'': b'/d/ a'}, {('d/', 'a'): SET, ('d', 'a'): UNSPECIFIED, ('x/d/', 'a'): UNSPECIFIED}),
    ('patterns_written', {'': b'/d/ a\n\\#x b\n!/d/ c'},
     {('d/', 'a'): SET, ('#x', 'b'): SET, ('d/', 'c'): UNSPECIFIED}, {'.gitattributes:3': NEGATIVE}),
    ('suffix_read base_name_found paths_matched', {'': b'*.c a\n/*.c b\nd/ c'},
     {('a/x.c', 'a'): SET, ('a/x.c', 'b'): UNSPECIFIED, ('a/d/', 'c'): SET, ('a/d', 'c'): UNSPECIFIED}),
    ('below_a_source items_given', {'sub/': b'*.c a\nx b\n[attr]m a'},
     {('sub/x.c', 'a'): SET, ('x.c', 'a'): UNSPECIFIED, ('sub/x.h', 'a'): UNSPECIFIED, ('sub/x', 'b'): SET, ('x', 'b'): UNSPECIFIED}),
    ('names_told_apart words_found', {'': b'* a.b-c_1\n* a -b \n* a/b'},
     {('f', 'a.b-c_1'): SET, ('f', 'a'): SET, ('f', 'b'): UNSET}, {'.gitattributes:3': NAME}),
    ('items_read', {'': b'* s u v w\n* s -u=x v=b=c !w'},
     {('f', 's'): SET, ('f', 'u'): UNSET, ('f', 'v'): 'b=c', ('f', 'w'): UNSPECIFIED}),
    ('items_refused', {'': b'* a --a\n* b =x'}, {('f', 'a'): UNSPECIFIED, ('f', 'b'): UNSPECIFIED},
     {'.gitattributes:1': NAME, '.gitattributes:2': NAME}),
    ('lines_joined', {'': b'a x\nb x\r\nc x'}, {('a', 'x'): SET, ('b', 'x'): SET, ('c', 'x'): SET}),
    ('lines_read', {'': b'[attr]m x\n# *.c\n *.c m -y'}, {('f.c', 'm'): SET, ('f.c', 'x'): SET, ('f.c', 'y'): UNSET}),
    ('lines_kept', {'': b'* a\n* b =x\n!n c'}, {('f', 'a'): SET, ('f', 'b'): UNSPECIFIED, ('n', 'c'): UNSPECIFIED},
     {'.gitattributes:2': NAME, '.gitattributes:3': NEGATIVE}),
    ('candidates_counted', {'': b'*.c a\nx.c b\nd/x c', 'sub/': b'*.c e\n[attr]m e'},
     {('sub/x.c', 'a'): SET, ('sub/x.c', 'b'): SET, ('sub/x.c', 'c'): UNSPECIFIED, ('sub/x.c', 'e'): SET, ('d/x', 'c'): SET,
      ('d/x', 'e'): UNSPECIFIED}),
    ('lists_named slots_named', {'': b'* b -a'}, {('f', 'b'): SET, ('f', 'a'): UNSET}),
    ('later_line_decides', {'': b'* a\n* -a'}, {('f', 'a'): UNSET}),
    ('worked_cycle', {'': b'[attr]a b\n[attr]b a\n* a'}, {('f', 'a'): SET, ('f', 'b'): SET}),
]


def examples():
    """The names of the functions whose contracts are examples."""
    names = {'worked_cycle'}
    directory = f'{TOP}/crates/example_tests/src'
    for file in os.listdir(directory):
        with open(f'{directory}/{file}', encoding='utf-8') as source:
            names.update(re.findall(r'^pub fn (\w+)', source.read(), re.M))
    return names


def asked(tree, path, name):
    """What git tells of an attribute of a path, and its warnings."""
    done = subprocess.run(['git', '-C', tree, 'check-attr', '-z', name, '--', path], check=True, capture_output=True)
    return done.stdout.split(b'\0')[2].decode(), done.stderr.decode()


def differences(row):
    """The answers of git that are other ones, in a work tree with these attributes files, and the lines that it drops otherwise."""
    with tempfile.TemporaryDirectory() as tree:
        subprocess.run(['git', 'init', '-q', tree], check=True)
        for directory, contents in row.files.items():
            os.makedirs(f'{tree}/{directory}', exist_ok=True)
            with open(f'{tree}/{directory}.gitattributes', 'wb') as file:
                file.write(contents)
        told = {ask: asked(tree, *ask) for ask in row.answers}
    other = {ask: told[ask][0] for ask, wanted in row.answers.items() if told[ask][0] != wanted}
    warnings = ''.join(warning for _, warning in told.values())
    # git names the line of an invalid name, and of a negative pattern it names none.
    named = re.findall('is not a valid attribute name: (.+)', warnings)
    if set(named) != {line for line, reason in row.dropped.items() if reason == NAME}:
        other[NAME] = warnings
    if ('Negative patterns are ignored' in warnings) != (NEGATIVE in row.dropped.values()):
        other[NEGATIVE] = warnings
    return other


def scripted(row):
    """The script of a row (docs/SCRIPT.md), and what it writes."""
    records, written = [], [f'dropped: {line}: {reason}\n' for line, reason in row.dropped.items()]
    for directory, contents in row.files.items():
        source = f'{directory}.gitattributes'
        records.append(f'add {"-" if directory else "m"} {len(source)} 0 {len(contents)}\n{source}{contents.decode()}\n')
    for (path, name), state in row.answers.items():
        kind, path = 'd' if path.endswith('/') else 'f', path.rstrip('/')
        records.append(f'names 1\n{name}\nask l s {kind} {len(path.encode())}\n{path}\n')
        written.append(f'{path}: {name}: {state}\n')
    return ''.join(records).encode(), ''.join(written).encode()


def main():
    os.environ |= {'GIT_ATTR_NOSYSTEM': '1', 'GIT_CONFIG_GLOBAL': '/dev/null', 'GIT_CONFIG_SYSTEM': '/dev/null',
                   'XDG_CONFIG_HOME': '/nonexistent', 'LC_ALL': 'C'}
    rows = [Row(*row) for row in ROWS]
    told = {name for row in rows for name in row.examples.split()}
    if told != examples():
        sys.exit(f'worked_examples: without a row, or without an example: {" ".join(sorted(told ^ examples()))}')
    failed = {row.examples: other for row in rows if (other := differences(row))}
    if failed:
        sys.exit(f'worked_examples: git answers otherwise: {failed}')
    head = 'SCRIPT | what git answers, and the lines that are dropped | -'
    tables.keep('worked', head, [(row.examples, (*scripted(row), b'-')) for row in rows], sys.argv[1:] == ['--write'])
    count = sum(len(row.answers) for row in rows)
    print(f'worked_examples: git answers {count} times as {len(told)} examples say, and the table has these answers')


if __name__ == '__main__':
    main()
