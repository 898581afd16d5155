#!/usr/bin/env python3
"""The tables of crates/rows/data/scripts that made_rows.py, hostile_rows.py and worked_examples.py make. A row is a line, whose
fields stand between bars: crates/list_rows/src/row.rt says how bytes are written.

usage: tables.py DIRECTORY
Writes the scripts of these tables to the directory, each as TABLE-NUMBER.script with its text beside it, TABLE-NUMBER.answers.
Those with a malformed record are left out.
"""
import os
import re
import sys

DATA = os.path.join(os.path.dirname(os.path.abspath(__file__)), '..', 'crates', 'rows', 'data', 'scripts')
SCRIPTS = 'hostile', 'made', 'worked'
ESCAPES = {'n': '\n', 'r': '\r', 't': '\t', '\\': '\\'}
ESCAPE_OF = {character: '\\' + letter for letter, character in ESCAPES.items()}
PLAIN = set(map(chr, range(32, 127))) - set('\\{|}')
# What stands eight times or more in a row.
RUN = re.compile(rb'(.{1,64}?)\1{7,}', re.S)


def escaped(data):
    characters = data.decode('latin-1')
    return ''.join(it if it in PLAIN else ESCAPE_OF.get(it, '\\x%02X' % ord(it)) for it in characters)


def field(data):
    """The field that stands for these bytes."""
    text, end = '', 0
    for run in RUN.finditer(data):
        text += escaped(data[end:run.start()]) + '{%d %s}' % (len(run[0]) // len(run[1]), escaped(run[1]))
        end = run.end()
    # A line that begins with # is a comment, and blanks at the ends of a field don't count.
    return re.sub('^[ #]| $', lambda it: '\\x%02X' % ord(it[0]), text + escaped(data[end:]))


def bytes_of(text):
    """What a field stands for."""
    whole = re.sub(r'\{(\d+) ([^}]*)\}', lambda run: run[2] * int(run[1]), text.strip(' '))
    plain = re.sub(r'\\(?:x(..)|(.))', lambda it: chr(int(it[1], 16)) if it[1] else ESCAPES[it[2]], whole)
    return plain.encode('latin-1')


def keep(table, head, rows, write):
    """Writes a table with these rows, or exits if the one that is there is another. A row has a comment, or '', and its fields."""
    lines = ['# ' + head]
    for comment, fields in rows:
        lines += ['# ' + comment] * bool(comment) + [' | '.join(map(field, fields))]
    path, text = os.path.join(DATA, table), '\n'.join(lines) + '\n'
    if write:
        with open(path, 'w', encoding='ascii') as it:
            it.write(text)
        return
    with open(path, encoding='ascii') as it:
        there = it.read().splitlines()
    other = [number for number, pair in enumerate(zip(there, lines), 1) if pair[0] != pair[1]]
    if other or len(there) != len(lines):
        sys.exit(f'{os.path.basename(sys.argv[0])}: {path} is made otherwise: lines {other}, {len(there)} in place of {len(lines)}')


def main(directory):
    for table in SCRIPTS:
        with open(os.path.join(DATA, table), encoding='ascii') as it:
            rows = [line.split('|') for line in it if not line.startswith('#')]
        for number, (script, answers, record) in enumerate(rows, 1):
            if record.strip() != '-':
                continue
            for end, text in ('script', script), ('answers', answers):
                with open(os.path.join(directory, f'{table}-{number}.{end}'), 'wb') as file:
                    file.write(bytes_of(text))


if __name__ == '__main__':
    main(sys.argv[1])
