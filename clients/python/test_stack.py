"""Tests of stacks, of many paths at once, and of where the library is looked for."""
from __future__ import annotations

import os
import shutil
import subprocess
import sys
import tempfile
import threading
import unittest
from itertools import chain, repeat
from typing import Callable, Optional, Union
from unittest.mock import DEFAULT, patch

from yektrod import Answer, Closed, Dropped, DroppedLines, Engine, File, Invalid, NotText, Stack

TREE = {b'': b'[attr]m x\n*.c m\n* top\n', b'a': b'*.c -x\n[attr]no z\n', b'a/b': b'!n\n* deep\n', b'a/b/c/d': b'* y=d\n',
        b'caf\xe9': b'* y=caf\n', b'z': b''}
INFO = File('info', b'[attr]m -x\n*.o top=info\n!n\n')
PATHS = [b'f.c', b'a/f.c', b'a/b/f.c', b'a/b/c/d/f.o', b'caf\xe9/f', b'a/b/c/d', b'', b'a/b/', b'z/y/f.o', b'q/f.c', b'a/b/c/f']


class Reads:
    """A reader of a tree, which notes what it is asked for, and fails the last time that it may be called."""

    def __init__(self, tree: dict[bytes, bytes], fails_at: int = -1) -> None:
        self.tree, self.fails_at = tree, fails_at
        self.asked: list[bytes] = []

    def __call__(self, directory: bytes) -> Optional[bytes]:
        self.asked.append(directory)
        if len(self.asked) == self.fails_at:
            raise PermissionError(directory)
        return self.tree.get(directory)


def states(answers: list[Answer]) -> dict[str, Union[bool, bytes, None]]:
    return {answer.name: answer.state for answer in answers}


class Stacks(unittest.TestCase):
    def test_order(self) -> None:
        with Stack(TREE.get, system=File('s', b'* top=s sys\n'), user=File('u', b'* sys=u\n'), info=INFO) as stack:
            self.assertEqual(states(stack.ask('f')), {'top': True, 'sys': b'u'})
            self.assertEqual(states(stack.ask('f.c')), {'m': True, 'x': False, 'top': True, 'sys': b'u'})
            self.assertEqual(states(stack.ask(b'a/b/c/d/f.o')), {'top': b'info', 'deep': True, 'y': b'd', 'sys': b'u'})
            answer = stack.ask(os.fsdecode(b'caf\xe9/f'), ['y'])[0]
            self.assertEqual(answer, Answer('y', b'caf', False, os.fsdecode(b'caf\xe9/.gitattributes'), 1, b'*'))

    def test_directories(self) -> None:
        with Stack({b'': b'd/ x\n', b'd': b'* y\n'}.get) as stack:
            self.assertEqual([states(stack.ask(path)) for path in ('d', 'd/', 'd/f')], [{}, {'x': True}, {'y': True}])
            self.assertEqual(states(stack.ask('d', is_dir=True)), {'x': True})

    def test_each_directory_is_read_once(self) -> None:
        reads = Reads(TREE)
        with Stack(reads, info=INFO) as stack:
            stack.ask_many(PATHS * 3)
        self.assertEqual(sorted(reads.asked), sorted(set(reads.asked)))
        self.assertEqual(reads.asked[:5], [b'', b'a', b'a/b', b'a/b/c', b'a/b/c/d'])

    def test_what_is_kept_is_unseen(self) -> None:
        with Stack(TREE.get, info=INFO) as stack:
            wanted = stack.ask_many(PATHS)
        for contents, lists in ((0, 0), (0, 1 << 20), (20, 5000), (1 << 20, 0)):
            with Stack(TREE.get, info=INFO) as stack:
                stack.KEPT_CONTENTS, stack._kept_lists = contents, lists
                for path, answers in list(zip(PATHS, wanted)) * 2 + list(zip(PATHS, wanted))[::-1]:
                    self.assertEqual(stack.ask(path), answers)

    def test_errors_of_the_reader(self) -> None:
        with Stack(TREE.get, info=INFO) as stack:
            wanted = stack.ask_many(PATHS)
        for fails_at in range(1, 100):
            reads, failed = Reads(TREE, fails_at), 0
            with Stack(reads, info=INFO) as stack:
                stack.KEPT_CONTENTS, stack._kept_lists = 0, 0
                for number, path in enumerate(PATHS):
                    try:
                        self.assertEqual(stack.ask(path), wanted[number])
                    except PermissionError:
                        failed += 1
                        if number:
                            self.assertEqual(stack.ask(PATHS[number - 1]), wanted[number - 1])
                        self.assertEqual(stack.ask(path), wanted[number])
            self.assertEqual(failed, int(fails_at <= len(reads.asked)))
        self.assertGreater(len(reads.asked), len(PATHS))

    def test_out_of_memory(self) -> None:
        with Stack(TREE.get, info=INFO) as stack:
            wanted = stack.ask_many(PATHS)
        fails_at, failed = 0, 1
        while failed:
            fails_at, failed = fails_at + 1, 0
            with Stack(TREE.get, info=INFO) as stack:
                stack._kept_lists = 0
                results: list[object] = [DEFAULT] * fails_at
                results[-1] = MemoryError
                with patch.object(stack._engine, 'add_in', wraps=stack._engine.add_in,
                                  side_effect=chain(results, repeat(DEFAULT))):
                    for path, answers in zip(PATHS, wanted):
                        try:
                            self.assertEqual(stack.ask(path), answers)
                        except MemoryError:
                            failed += 1
                            self.assertEqual(stack.ask(path), answers)
        self.assertGreater(fails_at, len(PATHS))

    def test_dropped(self) -> None:
        with Stack(TREE.get, info=INFO) as stack:
            stack._kept_lists = 0
            stack.ask_many(PATHS * 2)
            self.assertEqual(stack.take_dropped(), [DroppedLines('info', [Dropped(3, 'negative')]),
                                                    DroppedLines('a/b/.gitattributes', [Dropped(1, 'negative')])])
            self.assertEqual(stack.take_dropped(), [])

    def test_case(self) -> None:
        with Stack({b'': b'*.C x\n', b'a': b'* y\n'}.get, fold=True) as stack:
            self.assertEqual([states(stack.ask(path)) for path in ('a/f.c', 'A/f.c')], [{'x': True, 'y': True}, {'x': True}])

    def test_refused(self) -> None:
        stack = Stack(TREE.get, info=INFO)
        for path in ('/', '/a', 'a//', 'a//b', './a', 'a/..', 'a/./b', '..'):
            self.assertRaises(Invalid, stack.ask, path)
        self.assertRaises(NotText, stack.ask, 'a', [b'\xff'])
        self.assertRaises(TypeError, stack.ask, 'a', 'text')
        self.assertEqual(states(stack.ask('a/f')), {'top': True})
        stack.close()
        stack.close()
        self.assertRaises(Closed, stack.ask, 'a/f')
        self.assertRaises(Closed, stack.ask, 'caf/f')

    def test_threads(self) -> None:
        tree = {b'd%d' % number: b'* y=%d\n' % number for number in range(8)}
        with Stack(tree.get) as stack:
            told: list[set[Union[bool, bytes, None]]] = [set() for _ in range(8)]

            def play(number: int) -> None:
                for _ in range(200):
                    told[number] |= {answers[0].state for answers in stack.ask_many([f'd{number}/f', f'd{number}/g'], ['y'])}

            in_threads(play)
            self.assertEqual(told, [{b'%d' % number} for number in range(8)])


def in_threads(play: Callable[[int], None]) -> None:
    threads = [threading.Thread(target=play, args=[number]) for number in range(8)]
    for thread in threads:
        thread.start()
    for thread in threads:
        thread.join()


class Engines(unittest.TestCase):
    def test_many_paths(self) -> None:
        with Engine() as engine:
            engine.add(b'*.c x\n*.h y=1\n', '.gitattributes')
            self.assertEqual(list(map(states, engine.ask_many(['a.c', b'b.h', 'c']))), [{'x': True}, {'y': b'1'}, {}])
            self.assertEqual(list(map(states, engine.ask_many(iter(['a.c', 'c']), ['x']))), [{'x': True}, {'x': None}])
            self.assertEqual(engine.ask_many([]), [])
            self.assertRaises(TypeError, engine.ask, 'a', 'text')

    def test_closed_by_another_thread(self) -> None:
        engine = Engine()
        engine.add(b'* x\n', '.gitattributes')
        ended = []

        def play(number: int) -> None:
            try:
                for asked in range(100000):
                    assert states(engine.ask('f')) == {'x': True}
                    if number == 0 and asked == 50:
                        engine.close()
            except Closed:
                engine.close()
                ended.append(number)

        in_threads(play)
        self.assertEqual(sorted(ended), list(range(8)))


class Libraries(unittest.TestCase):
    """Where the library is looked for: a new process makes an engine."""

    def ends(self, directory: str, **environment: str) -> str:
        kept = {name: value for name, value in os.environ.items() if name not in ('YEKTROD_LIBRARY', 'LD_LIBRARY_PATH')}
        words = ('import yektrod\nprint("imported")\ntry: print(yektrod.Engine().ask("f"))\n'
                 'except yektrod.LibraryNotFound as error: print(error)')
        done = subprocess.run([sys.executable, '-c', words], env={**kept, 'PYTHONPATH': directory, **environment},
                              stdout=subprocess.PIPE, stderr=subprocess.STDOUT, text=True)
        return done.stdout

    def test_places(self) -> None:
        here, library = os.path.dirname(os.path.abspath(__file__)), os.path.realpath(os.environ['YEKTROD_LIBRARY'])
        with tempfile.TemporaryDirectory() as room:
            missing = self.ends(here, LD_LIBRARY_PATH=room)
            self.assertRegex(missing, r'^imported\nthere is no libyektrod\.so\.0 .*YEKTROD_LIBRARY, in /.*, or where the loader')
            self.assertRegex(self.ends(here, YEKTROD_LIBRARY=room + '/none.so'), r'none\.so: cannot open')
            self.assertRegex(self.ends(here, YEKTROD_LIBRARY='libc.so.6'), r'undefined symbol: yektrod_open')
            shutil.copy(library, room + '/libyektrod.so.0')
            self.assertEqual(self.ends(here, LD_LIBRARY_PATH=room), 'imported\n[]\n')
            shutil.copytree(os.path.join(here, 'yektrod'), room + '/yektrod')
            shutil.copy(library, room + '/yektrod/libyektrod.so')
            self.assertEqual(self.ends(room), 'imported\n[]\n')


if __name__ == '__main__':
    unittest.main()
