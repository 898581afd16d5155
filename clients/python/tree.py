#!/usr/bin/env python3
"""Prints the attributes of each path of a commit, as `git check-attr --cached -z` does over an index of it: the path, NUL, a
name, NUL, its value, NUL. It is run in a repository, bare or not.
usage: tree.py COMMIT [NAME..], all that are specified without names

What decides, in ascending precedence: the attributes files of the commit, that of a directory before those below it, and then
info/attributes. Macros may be defined at the top and in info/attributes alone. The files of the system and of the user are left
out, so that all machines answer alike: they would be added before all others, in the way of info/attributes.
"""
from __future__ import annotations

import os
import re
import subprocess
import sys
from typing import Iterator, NamedTuple, Union

from yektrod import Engine, Error

# Longer lines and larger files are left out, as by git. Memory has limits too: an engine takes up to some 220 bytes for a byte
# of a hostile file. Who can't spare 22 GB lowers MAX_FILE, and has a limit for all files of a commit together.
MAX_LINE, MAX_FILE = 2047, 100 * 1024 * 1024 - 1

TOO_LONG = re.compile(rb'(?m)^[^\n]{%d,}' % (MAX_LINE + 1))
AFTER_NUL = re.compile(rb'\0[^\n]*')
# How many paths are asked for at once.
MANY = 1000


class Entry(NamedTuple):
    """A file, link or submodule of a commit."""
    mode: bytes
    object: bytes
    path: bytes

    def directory(self) -> bytes:
        return os.path.dirname(self.path)

    def is_attributes_file(self) -> bool:
        """Links and submodules are none."""
        return self.mode.startswith(b'100') and os.path.basename(self.path) == b'.gitattributes'


def output_of(*words: str) -> bytes:
    return subprocess.run(['git', *words], stdout=subprocess.PIPE, check=True).stdout


def entries_of(commit: str) -> list[Entry]:
    entries = []
    for entry in output_of('ls-tree', '-r', '-z', '--full-tree', '--end-of-options', commit).split(b'\0')[:-1]:
        words, _, path = entry.partition(b'\t')
        mode, _, name = words.split(b' ')
        entries.append(Entry(mode, name, path))
    return entries


def files_of(entries: list[Entry]) -> Iterator[tuple[Entry, bytes]]:
    """The attributes files of a commit, and what is in them. Shorter paths come first, so each directory before those below."""
    with subprocess.Popen(['git', 'cat-file', '--batch'], stdin=subprocess.PIPE, stdout=subprocess.PIPE) as git:
        assert git.stdin and git.stdout
        for entry in sorted(filter(Entry.is_attributes_file, entries), key=lambda entry: len(entry.path)):
            git.stdin.write(entry.object + b'\n')
            git.stdin.flush()
            words = git.stdout.readline().split()
            if words[1:2] != [b'blob']:
                sys.exit(f'tree: there is no attributes file {entry.path!r}')
            part, left = b'', int(words[2]) + 1  # an LF comes after it
            is_large = left > MAX_FILE + 1
            while left:
                part = git.stdout.read(min(left, 1 << 16) if is_large else left)
                if not part:
                    sys.exit('tree: git failed')
                left -= len(part)
            if not is_large:
                yield entry, part[:-1].partition(b'\0')[0]  # git reads no file of an index past a NUL


def info_attributes() -> bytes:
    path = output_of('rev-parse', '--git-path', 'info/attributes')[:-1]
    try:
        with open(path, 'rb') as file:
            contents = file.read(MAX_FILE + 1)
    except FileNotFoundError:
        return b''
    return contents if len(contents) <= MAX_FILE else b''


def read_by_git(contents: bytes) -> bytes:
    """What git reads of an attributes file: a NUL ends its line, and a line that is too long is empty."""
    return TOO_LONG.sub(b'', AFTER_NUL.sub(b'', contents))


def value_of(state: Union[bool, bytes, None]) -> bytes:
    return state if isinstance(state, bytes) else {True: b'set', False: b'unset', None: b'unspecified'}[state]


def tell(entries: list[Entry], names: list[str]) -> None:
    with Engine() as engine:
        for entry, contents in files_of(entries):
            engine.add_in(read_by_git(contents), entry.directory(), entry.path, allow_macros=not entry.directory())
        engine.add_in(read_by_git(info_attributes()), '', 'info/attributes')
        engine.select(names)
        for first in range(0, len(entries), MANY):
            paths = [entry.path for entry in entries[first:first + MANY]]
            for path, answers in zip(paths, engine.ask_many(paths)):
                for answer in answers:
                    sys.stdout.buffer.write(b'%s\0%s\0%s\0' % (path, answer.name.encode(), value_of(answer.state)))


def main() -> None:
    if len(sys.argv) < 2:
        sys.exit('usage: tree.py COMMIT [NAME..]')
    try:
        tell(entries_of(sys.argv[1]), sys.argv[2:])
    except (Error, MemoryError, subprocess.CalledProcessError) as error:
        sys.exit(f'tree: {error}')


if __name__ == '__main__':
    main()
