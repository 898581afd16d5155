#!/usr/bin/env python3
"""Writes a commit for `git fast-import`, the same one for each seed: attributes files in most of its directories, and names of
all sorts, some of which are no UTF-8 or hold LF or quotes. Some entries that are called .gitattributes are links, submodules or
directories.
usage: made_tree.py SEED FILES [DIGITS], so many of an object (40)"""
import random
import sys
from typing import Iterator

NAMES = [b'a', b'b.c', b'B.C', b'-d', b'!n', b' ', b'+', b'caf\xc3\xa9', b'caf\xe9', b'\xff\xfe', b'x\ny', b'"q"\\', b"it's",
         b'[a]', b'*', b'#', b'$HOME', b'\x01\x7f', b'...', b'.a', b'tab\there', b'lib.core', b'x.gitattributes',
         b'.gitattributes ']
PATTERNS = [b'*', b'*.c', b'a', b'/a', b'a/**', b'**/-d', b'a/', b'-d/*', b'[^a]*', b'caf?', b'"caf\\351"', b'"\\377*"',
            b'\xff*', b'"x\\ny"', b'\\#', b'\\!n', b'"\\"q*"', b'*.[cC]', b'lib.*', b'/**/a', b'...']
ITEMS = [b'text', b'-text', b'!text', b'diff=cpp', b'-diff', b'merge=union', b'filter=lfs', b'export-ignore', b'-export-ignore',
         b'linguist-vendored', b'linguist-language=C++', b'y=caf\xe9', b'm1', b'-m1', b'!m2', b'm2=v', b'm3', b'binary', b'-binary']
MACROS = [b'[attr]m1 m2 linguist-generated', b'[attr]m2 m1 -diff', b'[attr]-no body']
# Macros of files below the top are left out by git.
BELOW = [b'[attr]m1 below', b'[attr]m3 below -text']


class Tree:
    """A commit that is written entry by entry."""

    def __init__(self, digits: int) -> None:
        self.digits = digits
        self.paths: 'set[bytes]' = set()

    def entry(self, mode: bytes, path: bytes, contents: bytes = b'') -> None:
        if path in self.paths:
            return
        self.paths.add(path)
        quoted = b'"' + b''.join(b'\\%03o' % byte for byte in path) + b'"'
        if mode == b'160000':
            put(b'M 160000 %s %s\n' % (b'1' * self.digits, quoted))
        else:
            put(b'M %s inline %s\ndata %d\n%s\n' % (mode, quoted, len(contents), contents))


def put(text: bytes) -> None:
    sys.stdout.buffer.write(text)


def attributes(pick: random.Random) -> bytes:
    """The lines of an attributes file below its macros."""
    lines = [b' '.join([pick.choice(PATTERNS), *pick.choices(ITEMS, k=pick.randint(1, 4))]) for _ in range(pick.randint(1, 6))]
    odd = [*BELOW, b'', b'# none', b'!a text', b'* -bad+name', b'"no end text']
    lines.insert(pick.randint(0, len(lines)), pick.choice(odd))
    return pick.choice([b'\n', b'\r\n']).join(lines) + pick.choice([b'', b'\n'])


def directories(pick: random.Random, count: int) -> Iterator[bytes]:
    """Directories from the top down, each with a slash at its end, but the top."""
    made = [b'']
    yield b''
    while len(made) < count:
        directory = pick.choice(made) + pick.choice(NAMES) + b'/'
        if directory not in made and directory.count(b'/') < 8:
            made.append(directory)
            yield directory


def main() -> None:
    seed, files = int(sys.argv[1]), int(sys.argv[2])
    pick, tree = random.Random(seed), Tree(int(sys.argv[3]) if len(sys.argv) > 3 else 40)
    put(b'commit refs/heads/main\ncommitter a <a@b.c> 1000000000 +0000\ndata 0\n')
    below = list(directories(pick, files // 8))
    taken = {directory[:-1] for directory in below}
    for directory in below:
        path = directory + b'.gitattributes'
        if not directory or pick.random() < 0.7:
            macros = b'\n'.join(BELOW if directory else MACROS) + b'\n'
            tree.entry(pick.choice([b'100644', b'100755']), path, macros + attributes(pick))
        elif pick.random() < 0.3:
            tree.entry(b'120000', path, b'../.gitattributes')
        elif pick.random() < 0.3:
            tree.entry(b'160000', path)
        elif pick.random() < 0.3:
            tree.entry(b'100644', path + b'/.gitattributes', attributes(pick))
    while len(tree.paths) < files:
        path = pick.choice(below) + pick.choice(NAMES) + pick.choice([b'', b'1', b'.c', b'2.h', b'\xc3\xa9', b'\xe9', b'\n'])
        if path not in taken:
            tree.entry(pick.choice([b'100644', b'100644', b'100755', b'120000', b'160000']), path)


if __name__ == '__main__':
    main()
