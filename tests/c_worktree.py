#!/usr/bin/env python3
"""Compares clients/c/worktree.c with `git check-attr` in a made work tree, whose directories have names of any bytes.
usage: c_worktree.py PROGRAM [SEED]"""
import os
import random
import subprocess
import sys
import tempfile

NAMES = [b'a', b'b.c', b'B.C', b'd', b'caf\xc3\xa9', b'caf\xe9', b'\xff\xfe', b'x\ny', b'q"\\', b' ', b'[a]', b'*', b'#', b'!n',
         b'\x01\x7f', b'...']
PATTERNS = [b'*', b'*.c', b'a', b'/a', b'a/**', b'**/d', b'd/*', b'[^a]*', b'caf?', b'"caf\\351"', b'"\\377*"', b'\xff*',
            b'"x\\ny"', b'\\#', b'"q\\"*"']
# No file of the user or the system.
ALONE = {**os.environ, 'GIT_CONFIG_GLOBAL': '/dev/null', 'GIT_CONFIG_NOSYSTEM': '1', 'GIT_ATTR_NOSYSTEM': '1'}
ITEMS = [b'x', b'-x', b'!x', b'y=1', b'y=caf\xe9', b'-y', b'm', b'!m', b'binary']


def lines(pick: random.Random, is_top: bool) -> bytes:
    """An attributes file. Only that of the top has a macro."""
    rows = [b' '.join([pick.choice(PATTERNS), *pick.choices(ITEMS, k=pick.randint(1, 3))]) for _ in range(pick.randint(1, 4))]
    if pick.random() < 0.3:
        # Git skips a line of 2,048 bytes. A CR before LF is not counted, and a NUL ends its line.
        line = b'* long='.ljust(pick.choice([2047, 2048]), b'v') + pick.choice([b'', b'\r', b'\0 -x'])
        rows.insert(pick.randint(0, len(rows)), line)
    return b'\n'.join([b'[attr]m z -y'] * is_top + rows) + b'\n'


def made(top: bytes, pick: random.Random) -> 'list[bytes]':
    """Makes the directories of a work tree, of which some have an attributes file, and returns their paths."""
    directories = [b'']
    for _ in range(40):
        directory = os.path.join(pick.choice(directories), pick.choice(NAMES))
        if directory not in directories and directory.count(b'/') < 4:
            os.mkdir(os.path.join(top, directory))
            directories.append(directory)
    for directory in directories:
        if directory and pick.random() < 0.1:
            # A link is no attributes file.
            os.symlink(os.path.join(top, b'.gitattributes'), os.path.join(top, directory, b'.gitattributes'))
        elif not directory or pick.random() < 0.7:
            with open(os.path.join(top, directory, b'.gitattributes'), 'wb') as file:
                file.write(lines(pick, not directory))
    return directories


def told(command: 'list[str]', top: bytes, paths: 'list[bytes]') -> 'dict[bytes, dict[bytes, bytes]]':
    """What a command tells of the paths: for each the attributes that are specified."""
    asked = b''.join(path + b'\0' for path in paths)
    # Git warns of long lines and links.
    output = subprocess.run(command, cwd=top, env=ALONE, input=asked, capture_output=True, check=True).stdout
    fields = output.split(b'\0')[:-1]
    answers: 'dict[bytes, dict[bytes, bytes]]' = {path: {} for path in paths}
    for path, name, state in zip(fields[::3], fields[1::3], fields[2::3]):
        answers[path][name] = state
    return answers


def main() -> None:
    program = os.path.abspath(sys.argv[1])
    seed = int(sys.argv[2]) if len(sys.argv) > 2 else 1
    pick = random.Random(seed)
    with tempfile.TemporaryDirectory() as made_at:
        top = os.fsencode(made_at)
        subprocess.run(['git', 'init', '-q', made_at], env=ALONE, check=True)
        directories = made(top, pick)
        paths = list({os.path.join(pick.choice(directories), pick.choice(NAMES)) for _ in range(2000)})
        pick.shuffle(paths)
        wanted = told(['git', '-c', 'core.attributesFile=/dev/null', 'check-attr', '-z', '--stdin', '--all'], top, paths)
        got = told([program], top, paths)
    for path in paths:
        if wanted[path] != got[path]:
            sys.exit(f'c_worktree: seed {seed}: {path!r}: git tells {wanted[path]}, and the client {got[path]}')
    rows = sum(map(len, wanted.values()))
    if not rows:
        sys.exit('c_worktree: no path has an attribute')
    print(f'c_worktree: {rows} attributes of {len(paths)} paths in {len(directories)} directories are as git tells them')


if __name__ == '__main__':
    main()
