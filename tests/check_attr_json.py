#!/usr/bin/env python3
"""Reads what check-attr prints with --json, and builds from it what `git check-attr -z` prints: the same bytes have to come out,
for paths and values of any bytes. Every origin is that of --show-origin -z.

usage: check_attr_json.py PROGRAM REPOSITORY
"""
import base64
import json
import subprocess
import sys

KEYS = ['name', 'state', 'source', 'line', 'pattern', 'macro']
NAMES = ['text', 'diff', 'm1', 'eol', 'x', 'no_such_attribute']


def read(text):
    """The bytes of a text, which is an object if they are no UTF-8."""
    if isinstance(text, dict):
        assert list(text) == ['base64']
        return base64.b64decode(text['base64'], validate=True)
    return text.encode()


def fields(line, with_origin):
    """The fields that are printed with -z for a line of JSON, and with --show-origin."""
    answers = json.loads(line)
    assert list(answers) == ['path', 'attributes']
    for answer in answers['attributes']:
        assert [key for key in answer if key != 'value'] == KEYS
        assert ('value' in answer) == (answer['state'] == 'value')
        yield read(answers['path'])
        yield read(answer['name'])
        yield read(answer.get('value', answer['state']))
        if with_origin:
            yield b'-' if answer['line'] is None else read(answer['source']) + b':%d' % answer['line']
            yield b'-' if answer['pattern'] is None else read(answer['pattern'])
            yield b'-' if answer['macro'] is None else read(answer['macro'])


def main():
    program, repository = sys.argv[1:]
    paths = subprocess.run(['git', 'ls-files', '-z'], cwd=repository, stdout=subprocess.PIPE, check=True).stdout

    def printed(*words):
        return subprocess.run([*words, '--stdin'], cwd=repository, input=paths, stdout=subprocess.PIPE, stderr=subprocess.DEVNULL,
                              check=True).stdout

    for words in (['-z', '-a'], ['-z', *NAMES]):
        lines = printed(program, '--json', *words).split(b'\n')
        assert lines.pop() == b'' and len(lines) == paths.count(b'\0')
        for wanted, with_origin in ((printed('git', 'check-attr', *words), False),
                                    (printed(program, '--show-origin', *words), True)):
            given = b''.join(it + b'\0' for line in lines for it in fields(line, with_origin))
            if given != wanted:
                sys.exit('check_attr_json: %s: the answers differ in %s' % (' '.join(words), repository))
    print('check_attr_json: JSON says of %d paths what git says' % paths.count(b'\0'))


main()
