#!/usr/bin/env python3
"""Writes a path to check-attr, waits for its answer, and writes the next: each is answered before the next one is read, through
pipes, and for a file without -z by the time that 10 seconds have gone. With GIT_FLUSH=0 answers may come at the end alone.

usage: check_attr_stream.py PROGRAM
"""
import os
import select
import subprocess
import sys
import tempfile

SECONDS = 10
PATHS = [b'a.c', b'sub/b.c', b'a.c', b'sub/deep/c', b'sub']


def answer(pipe):
    """What comes next, within ten seconds."""
    ready, _, _ = select.select([pipe], [], [], SECONDS)
    return os.read(pipe, 1 << 16) if ready else b''


def converse(program, words, end, directory):
    """The answers for each path, each waited for."""
    with subprocess.Popen([program, '--stdin', *words], cwd=directory, stdin=subprocess.PIPE, stdout=subprocess.PIPE) as running:
        answers = []
        for path in PATHS:
            os.write(running.stdin.fileno(), path + end)
            answers.append(answer(running.stdout.fileno()))
        running.stdin.close()
        rest = running.stdout.read()
    return answers, rest


def main():
    program = sys.argv[1]
    with tempfile.TemporaryDirectory() as directory:
        subprocess.run(['git', 'init', '-q', directory], check=True)
        os.makedirs(directory + '/sub/deep')
        for name, text in (('', '* top\n*.c text\n'), ('sub/', '* sub\n')):
            with open(directory + '/' + name + '.gitattributes', 'w', encoding='ascii') as file:
                file.write(text)
        for words in (['-a'], ['text', 'top'], ['-z', '-a'], ['-z', 'text', 'sub'], ['--show-origin', '-a'],
                      ['--json', '-a'], ['--json', '-z', 'text']):
            end = b'\0' if '-z' in words else b'\n'
            answers, rest = converse(program, words, end, directory)
            wanted = [subprocess.run([program, *words, '--', path], cwd=directory, stdout=subprocess.PIPE, check=True).stdout
                      for path in PATHS]
            if answers != wanted or rest:
                sys.exit('check_attr_stream: %s: %r is answered in place of %r' % (' '.join(words), answers, wanted))
    print('check_attr_stream: each path is answered before the next')


main()
