#!/usr/bin/env python3
# Makes the table `made` of crates/rows/data/scripts: scripts over attributes files that are made by numbers, with the answers
# of `git check-attr`. The same rows are made each time.
# usage: made_rows.py [--write]
# Without --write it compares the rows that are there with those that it makes, so it shows that git still answers so.
import os
import random
import subprocess
import sys
import tempfile

import tables

COUNT = 150

NAMES = ['a', 'b', 'text', 'eol', 'diff', 'm', 'n', 'binary', 'x.y', '_z', 'w-1']
BYTES = [b'a', b'b', b'c', b'a.c', b'ab', b'A', b'x', b'a b', b'd.txt', b'e-1', b'\xc3\xa9', b'.d', b'q"r', b'B.C', b'1', b'aXb']
DIRECTORIES = [b'', b'a', b'b', b'a/b', b'a/b/c', b'x', b'x/a', b'D e']
PATTERN_PARTS = [b'*', b'?', b'a', b'b', b'c', b'.', b'ab', b'A', b'[ab]', b'[!ab]', b'[a-c]', b'[[:alpha:]]', b'[^x]',
                 b'x', b'd', b'\\a', b'\\*', b'txt', b'1', b'-', b'[[:digit:]a]', b'[]a]', b'[\\]]', b'e']


class Made:
    """A repository, as directories with attributes files and paths to ask for."""

    def __init__(self, number):
        self.random = random.Random(number)
        self.fold = self.random.random() < 0.3
        self.files = {}
        self.make_files()
        self.paths = sorted({self.path() for _ in range(24)})
        self.names = self.random.sample(NAMES, self.random.randint(1, len(NAMES)))

    def path(self):
        directory = self.random.choice(DIRECTORIES)
        name = self.random.choice(BYTES)
        return directory + b'/' + name if directory else name

    def pattern(self):
        pick = self.random
        kind = pick.random()
        if kind < 0.15:
            return pick.choice(BYTES)
        if kind < 0.3:
            return b'*' + pick.choice([b'.c', b'.txt', b'b', b'.C', b'c'])
        if kind < 0.4:
            return pick.choice(BYTES) + b'*'
        if kind < 0.5:
            return b'/' + pick.choice([self.path(), b'a/*', b'*/b', b'a', b'*'])
        if kind < 0.65:
            return pick.choice([b'**/', b'a/**/', b'/a/**', b'a/**', b'**/a/**', b'x/**/', b'**/b/']) + pick.choice(
                [b'', b'a', b'*.c', b'?', b'b*'])
        if kind < 0.7:
            return pick.choice([b'a/', b'b/', b'a/b/', b'*/'])
        return b''.join(pick.choice(PATTERN_PARTS) for _ in range(pick.randint(1, 6)))

    def item(self):
        name = self.random.choice(NAMES)
        sign = self.random.choice(['', '', '', '-', '!', '='])
        if sign == '=':
            return name + '=' + self.random.choice(['v', 'lf', 'true', '', 'a=b', '1'])
        return sign + name

    def line(self, top):
        pick = self.random
        if pick.random() < 0.08:
            return pick.choice([b'', b'# text a', b'   ', b'\t', b'#'])
        items = ' '.join(self.item() for _ in range(pick.choice([1, 1, 1, 2, 2, 3]))).encode()
        if top and pick.random() < 0.2:
            return b'[attr]' + pick.choice([b'm', b'n', b'a', b'x.y']) + b' ' + items
        pattern = self.pattern()
        if pattern.startswith((b'!', b'[attr]', b'#', b'"')) or b'**\\' in pattern:
            pattern = b'a' + pattern
        if b' ' in pattern or b'"' in pattern or pick.random() < 0.1:
            pattern = b'"' + pattern.replace(b'\\', b'\\\\').replace(b'"', b'\\"') + b'"'
        blank = pick.choice([b' ', b'\t', b'  '])
        return pick.choice([b'', b'', b' ']) + pattern + blank + items + pick.choice([b'', b'', b'\r', b' '])

    def make_files(self):
        for directory in DIRECTORIES:
            if directory and self.random.random() < 0.55:
                continue
            lines = [self.line(not directory) for _ in range(self.random.randint(1, 9))]
            end = b'' if self.random.random() < 0.2 else b'\n'
            self.files[directory + b'/.gitattributes' if directory else b'.gitattributes'] = b'\n'.join(lines) + end

    def script(self):
        records = []
        for path in sorted(self.files, key=lambda it: (it.count(b'/'), it)):
            macros = b'-' if b'/' in path else b'm'
            contents = self.files[path]
            records.append(b'add %s %d 0 %d\n%s%s\n' % (macros, len(path), len(contents), path, contents))
        names = [name.encode() for name in self.names]
        records.append(b'names %d\n%s' % (len(names), b''.join(name + b'\n' for name in names)))
        case = b'i' if self.fold else b's'
        for path in self.paths:
            records.append(b'ask z %s f %d\n%s\n' % (case, len(path), path))
        return b''.join(records)

    def answers(self):
        """What git says, in a repository of these files."""
        with tempfile.TemporaryDirectory(prefix='made-rows-') as room:
            environment = {'PATH': os.environ['PATH'], 'HOME': room, 'GIT_CONFIG_NOSYSTEM': '1', 'GIT_ATTR_NOSYSTEM': '1', 'LC_ALL': 'C'}

            def git(*words, given=b''):
                return subprocess.run(['git', *words], cwd=room, env=environment, input=given, check=True, stdout=subprocess.PIPE,
                                      stderr=subprocess.PIPE).stdout

            git('init', '-q', '.')
            git('config', 'core.ignorecase', 'true' if self.fold else 'false')
            for path, contents in self.files.items():
                file = os.path.join(os.fsencode(room), path)
                os.makedirs(os.path.dirname(file), exist_ok=True)
                with open(file, 'wb') as it:
                    it.write(contents)
            return git('check-attr', '-z', '--stdin', *self.names, given=b''.join(path + b'\0' for path in self.paths))


def main():
    write = sys.argv[1:] == ['--write']
    made = [Made(number) for number in range(COUNT)]
    rows = [('', (it.script(), it.answers(), b'-')) for it in made]
    tables.keep('made', 'SCRIPT | what git answers | number of its malformed record, or -', rows, write)
    print('made_rows: %d rows are %s' % (COUNT, 'written' if write else 'as git answers'))


main()
