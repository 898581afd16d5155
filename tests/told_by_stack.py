#!/usr/bin/env python3
"""Prints what clients/python/tree.py prints of a commit, in another order: a stack is asked for the paths, which come shuffled,
and keeps so little that it reads most files again.
usage: told_by_stack.py SEED COMMIT [NAME..]"""
import os
import random
import sys

sys.path.insert(0, os.path.join(os.path.dirname(os.path.abspath(__file__)), '..', 'clients', 'python'))
import tree
from yektrod import File, Stack


def main() -> None:
    entries = tree.entries_of(sys.argv[2])
    files = {entry.directory(): tree.read_by_git(contents) for entry, contents in tree.files_of(entries)}
    info = File('info/attributes', tree.read_by_git(tree.info_attributes()))
    paths = [entry.path for entry in entries]
    random.Random(int(sys.argv[1])).shuffle(paths)
    Stack.KEPT_CONTENTS, Stack.KEPT_LISTS = 1000, 200_000
    with Stack(files.get, info=info) as stack:
        stack.select(sys.argv[3:])
        for path, answers in zip(paths, stack.ask_many(paths)):
            for answer in answers:
                sys.stdout.buffer.write(b'%s\0%s\0%s\0' % (path, answer.name.encode(), tree.value_of(answer.state)))


if __name__ == '__main__':
    main()
