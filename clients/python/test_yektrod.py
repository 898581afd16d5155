"""Tests of yektrod.py. With directories as arguments it plays their scripts too, and compares with the answers beside them."""
from __future__ import annotations

import os
import sys
import unittest
from concurrent.futures import ThreadPoolExecutor
from typing import Iterator

from yektrod import Added, Answer, Closed, Dropped, Engine, Invalid, Malformed, NoList, NotText, run, version


class Calls(unittest.TestCase):
    def test_selection(self) -> None:
        with Engine() as engine:
            self.assertEqual(engine.add(b'*.sh text eol=lf\n', '.gitattributes'), [])
            self.assertEqual(engine.ask('script.sh', ['text', 'eol']), [
                Answer('text', True, False, '.gitattributes', 1, b'*.sh'),
                Answer('eol', b'lf', False, '.gitattributes', 1, b'*.sh')])
            self.assertEqual(engine.ask('README'), [Answer('text', None), Answer('eol', None)])

    def test_macro(self) -> None:
        with Engine() as engine:
            engine.add(b'*.png binary\n', 'a/.gitattributes')
            self.assertEqual([(it.name, it.state, it.cause) for it in engine.ask(b'a/x.png')],
                             [('binary', True, None), ('diff', False, 'binary'), ('merge', False, 'binary'), ('text', False, 'binary')])
            self.assertEqual(engine.ask(b'b/x.png'), [])
            engine.pop()
            engine.pop()
            self.assertRaises(NoList, engine.pop)

    def test_dropped(self) -> None:
        with Engine() as engine:
            self.assertEqual(engine.add(b'!a b\n\n* =\n', 'f', None), [Dropped(1, 'negative'), Dropped(3, 'attribute-name')])

    def test_refused(self) -> None:
        engine = Engine()
        self.assertRaises(NotText, engine.add, b'', b'\xff')
        self.assertRaises(NotText, engine.select, [b'a', b'\xff'])
        engine.close()
        engine.close()
        self.assertRaises(Closed, engine.pop)
        self.assertRaises(Closed, engine.ask, 'a')
        self.assertRaises(Closed, engine.names)
        self.assertRaises(Closed, engine.found, 0)

    def test_long_texts(self) -> None:
        with Engine() as engine:
            engine.add(b'* a=' + b'v' * 1000 + b'\n', 'f')
            self.assertEqual(engine.ask('x')[0].state, b'v' * 1000)

    def test_many_answers(self) -> None:
        with Engine() as engine:
            engine.add(b''.join(b'* a%d=%s\n' % (number, b'v' * number) for number in range(200)), 'f')
            answers = engine.ask('x')
            self.assertEqual([(it.name, it.state) for it in answers], [(f'a{number}', b'v' * number) for number in range(200)])
            self.assertEqual(engine.ask('x', ['a7'])[0], answers[7])

    def test_any_bytes(self) -> None:
        with Engine() as engine:
            self.assertEqual(engine.add_in(b'* a\n!b c\n', b'caf\xe9/\xff', b'\xfe:1'), Added(1, [Dropped(2, 'negative')]))
            self.assertEqual(engine.ask(b'caf\xe9/\xff/x')[0], Answer('a', True, False, os.fsdecode(b'\xfe:1'), 1, b'*'))
            self.assertEqual(engine.ask(os.fsdecode(b'caf\xe9/\xff/x'))[0].source, os.fsdecode(b'\xfe:1'))
            self.assertEqual(engine.ask(b'caf\xe9/x'), [])
            for directory in ('/a', 'a/', 'a//b', '.', 'a/../b'):
                self.assertRaises(Invalid, engine.add_in, b'', directory, 'f')
            self.assertEqual(engine.add_in(b'', '', '').list_index, 2)

    def test_found(self) -> None:
        with Engine() as engine:
            engine.add_in(b'[attr]m n\n[attr]n x\n*.c m\n* !y\n', '', 'f')
            numbers = {name: number for number, name in enumerate(engine.names())}
            self.assertEqual(list(numbers), ['binary', 'diff', 'merge', 'text', 'm', 'n', 'x', 'y'])
            self.assertIsNone(engine.found(0))
            answer = engine.ask('a.c', ['x'])[0]
            self.assertEqual((answer.state, answer.cause), (True, 'n'))
            self.assertEqual(engine.found(numbers['n']), Answer('n', True, True, 'f', 3, b'*.c', 'm'))
            self.assertEqual(engine.found(numbers['m']), Answer('m', True, True, 'f', 3, b'*.c'))
            engine.ask('a.c', [])
            self.assertEqual(engine.found(numbers['y']), Answer('y', None, False, 'f', 4, b'*'))
            self.assertIsNone(engine.found(numbers['text']))
            self.assertIsNone(engine.found(len(numbers)))

    def test_threads(self) -> None:
        def play(number: int) -> list[bool | bytes | None]:
            return [engine.ask(f'd{number}/x', [f'a{number}', 'b'])[0].state for _ in range(200)]

        with Engine() as engine, ThreadPoolExecutor(8) as threads:
            for number in range(8):
                engine.add_in(b'* a%d=%d\n' % (number, number), f'd{number}', 'f')
            for number, states in enumerate(threads.map(play, range(8))):
                self.assertEqual(set(states), {b'%d' % number})

    def test_version(self) -> None:
        self.assertEqual(len(version()), 3)

    def test_case_and_directories(self) -> None:
        with Engine() as engine:
            engine.add(b'A.c x\nd/ y\n', 'f', None)
            self.assertEqual([len(engine.ask('a.c', fold=fold)) for fold in (False, True)], [0, 1])
            self.assertEqual([len(engine.ask('d', is_dir=kind)) for kind in (True, False, None)], [1, 0, 0])

    def test_run(self) -> None:
        script = b'add - 1 - 4\nf* a\n\nask l s u 1\nx\n'
        self.assertEqual(run(b''), b'')
        self.assertEqual(run(script), b'x: a: set\n')
        self.assertEqual(run(script + b'ask l s u 1\nx\n' * 9999), b'x: a: set\n' * 10000)
        with self.assertRaises(Malformed) as caught:
            run(script + b'pop\nask')
        self.assertEqual((caught.exception.number, caught.exception.text), (4, b'x: a: set\n'))


class Script:
    """Plays a script, and collects what the program writes for it."""

    def __init__(self, text: bytes) -> None:
        self.text, self.at = text, 0
        self.out: list[bytes] = []

    def line(self) -> bytes:
        end = self.text.index(b'\n', self.at)
        line, self.at = self.text[self.at:end], end + 1
        return line

    def take(self, length: bytes | int) -> bytes:
        self.at += int(length)
        return self.text[self.at - int(length):self.at]

    def play(self) -> bytes:
        with Engine() as engine:
            while self.at < len(self.text):
                kind, *words = self.line().split(b' ')
                getattr(self, kind.decode())(engine, *words)
        return b''.join(self.out)

    def add(self, engine: Engine, macros: bytes, source_length: bytes, root_length: bytes, length: bytes) -> None:
        source, root = self.take(source_length), None if root_length == b'-' else self.take(root_length)
        for dropped in engine.add(self.take(length), source, root, macros == b'm'):
            self.out.append(b'dropped: %s:%d: %s\n' % (source, dropped.line, dropped.reason.encode()))
        self.take(1)

    def pop(self, engine: Engine) -> None:
        try:
            engine.pop()
        except NoList:
            pass

    def names(self, engine: Engine, count: bytes) -> None:
        engine.select([self.line() for _ in range(int(count))])

    def ask(self, engine: Engine, form: bytes, case: bytes, kind: bytes, length: bytes) -> None:
        path = self.take(length)
        self.take(1)
        mark, end = (b'\0', b'\0') if form == b'z' else (b': ', b'\n')
        for it in engine.ask(path, None, case == b'i', {b'f': False, b'd': True, b'u': None}[kind]):
            state = it.state if isinstance(it.state, bytes) else {None: b'unspecified', True: b'set', False: b'unset'}[it.state]
            origin = b''
            if form == b'o':
                origin = b'\t-\t-\t-'
                if it.source is not None:
                    origin = b'\t%s:%d\t%s\t%s' % (os.fsencode(it.source), it.line, it.pattern, (it.cause or '-').encode())
            self.out.append(mark.join([path, it.name.encode(), state]) + origin + end)


def played(directory: str) -> Iterator[tuple[str, str]]:
    """The scripts of a directory, each with its answers."""
    for file in sorted(os.listdir(directory)):
        if file.endswith('.script'):
            yield os.path.join(directory, file), os.path.join(directory, file[:-6] + 'answers')


def compare(directories: list[str]) -> None:
    count = 0
    for directory in directories:
        for script, answers in played(directory):
            text, wanted = open(script, 'rb').read(), open(answers, 'rb').read()
            if Script(text).play() != wanted or run(text) != wanted:
                sys.exit(f'test_yektrod: {script} gives other answers')
            count += 1
    print(f'test_yektrod: {count} scripts give their answers')


if __name__ == '__main__':
    compare(sys.argv[1:])
    unittest.main(argv=sys.argv[:1])
