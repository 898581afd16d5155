"""An engine: lists of attributes files, and what they say of paths."""
from __future__ import annotations

import ctypes
import os
import threading
from types import TracebackType
from typing import Iterable, NamedTuple, Optional, Union

from . import _library
from ._errors import Closed, Error, Invalid, Malformed, NoList, NotText
from ._library import Bytes, Line, Needed, Place, Question, Row, Slot

HAS_VALUE, STATES = 3, (None, True, False)
REASONS = {1: 'macro-name', 2: 'negative', 3: 'attribute-name', 4: 'reserved'}

# A path or a source. A text stands for bytes as the names of files do (os.fsencode), so that any bytes can be told.
Path = Union[str, bytes]


class Answer(NamedTuple):
    """What decides an attribute of a path."""
    name: str
    # True: set; False: unset; bytes: a value; None: unspecified
    state: Union[bool, bytes, None]
    is_macro: bool = False
    # The source of the list, the line (from 1) and the pattern, if a line decides. os.fsencode gives the bytes of the source.
    source: Optional[str] = None
    line: int = 0
    pattern: Optional[bytes] = None
    # The macro that the line names, if the attribute is in its body.
    cause: Optional[str] = None


class Dropped(NamedTuple):
    """A dropped line, and why."""
    line: int
    reason: str


class Added(NamedTuple):
    """A list that was added: its index, from 0, where the built-in list is the first one, and its dropped lines."""
    list_index: int
    dropped: list[Dropped]


def _done(status: int, what: str, invalid: Error) -> None:
    if status == _library.NO_MEMORY:
        raise MemoryError(f'{what}: no memory')
    if status == _library.CLOSED:
        raise Closed(f'{what}: the engine is closed')
    if status == _library.INVALID:
        raise invalid
    if status == _library.NO_LIST:
        raise NoList(f'{what}: there is no list')
    if status != _library.DONE:
        raise Error(f'{what}: status {status}')


def _not_text(what: str) -> NotText:
    return NotText(f'{what}: a text is not UTF-8')


def _bytes(text: Path) -> bytes:
    return os.fsencode(text)


def as_names(names: Iterable[Path]) -> list[bytes]:
    if isinstance(names, (str, bytes)):
        raise TypeError('one name stands in a list')
    return [_bytes(name) for name in names]


def _passed(text: bytes) -> Bytes:
    return Bytes(text, len(text))


def version() -> tuple[int, int, int]:
    """The version of the library: major, minor and patch."""
    number: int = _library.library().yektrod_version()
    return number >> 16, number >> 8 & 255, number & 255


def run(script: bytes) -> bytes:
    """Plays a script (docs/SCRIPT.md) over an engine of its own, and returns what the program writes for it."""
    script, room, library = bytes(script), 1 << 16, _library.library()
    written, malformed = ctypes.c_size_t(), ctypes.c_size_t()
    while True:
        out = ctypes.create_string_buffer(room)
        status = library.yektrod_run(script, len(script), out, room, written, malformed)
        if status != _library.NO_MEMORY and written.value > room:
            room = written.value
            continue
        if status == _library.MALFORMED:
            raise Malformed(malformed.value, out.raw[:written.value])
        _done(status, 'run', _not_text('run'))
        return out.raw[:written.value]


def _answer(row: tuple[int, ...], text: bytes) -> Answer:
    """An answer, whose texts stand in their order from `at` on, one directly after the other."""
    state, flags, line, _, _, _, at, name_length, value_length, source_length, pattern_length, cause_length = row
    value_at = at + name_length
    source_at = value_at + value_length
    value = text[value_at:source_at] if state == HAS_VALUE else STATES[state]
    name, is_macro = text[at:value_at].decode(), flags & _library.IS_MACRO != 0
    if not flags & _library.HAS_SOURCE:
        return Answer(name, value, is_macro)
    pattern_at = source_at + source_length
    cause_at = pattern_at + pattern_length
    cause = text[cause_at:cause_at + cause_length].decode() if flags & _library.HAS_CAUSE else None
    return Answer(name, value, is_macro, os.fsdecode(text[source_at:pattern_at]), line, text[pattern_at:cause_at], cause)


class Engine:
    """Lists of attributes files, and the names that are looked up in them. It begins with the built-in list.

    It may be used by any thread: each call waits until the one before has ended.
    """

    def __init__(self) -> None:
        self._library, self._slot = _library.library(), Slot()
        # Held by each sequence of calls that has to be whole: other threads run while ctypes calls.
        self._lock = threading.Lock()
        # Rooms for answers and their texts, which grow.
        self._rows, self._text = (Row * 16)(), ctypes.create_string_buffer(1024)
        _done(self._library.yektrod_open(self._slot), 'open', _not_text('open'))

    def __enter__(self) -> Engine:
        return self

    def __exit__(self, kind: Optional[type[BaseException]], error: Optional[BaseException],
                 trace: Optional[TracebackType]) -> None:
        self.close()

    def __del__(self) -> None:
        if hasattr(self, '_text'):
            self.close()

    def close(self) -> None:
        """Frees the engine, when the call of another thread has ended. A second close does nothing."""
        with self._lock:
            self._library.yektrod_close(self._slot)

    def add(self, contents: bytes, source: Path, root: Optional[Path] = '', allow_macros: bool = True) -> list[Dropped]:
        """Adds the list of an attributes file as the last one, which takes precedence. Returns the dropped lines.

        The patterns apply to the paths in the directory of `source`, as it is seen from `root`; if `root` is None, to all paths.
        Both have to be UTF-8.
        """
        contents, source, named = bytes(contents), _bytes(source), _bytes(root or b'')
        count = ctypes.c_size_t()
        with self._lock:
            status = self._library.yektrod_add(self._slot, contents, len(contents), source, len(source), named, len(named),
                                          root is not None, allow_macros, count)
            _done(status, 'add', _not_text('add'))
            return self._dropped(count.value)

    def add_in(self, contents: bytes, directory: Path, source: Path, allow_macros: bool = True) -> Added:
        """Adds the list of an attributes file as the last one, which takes precedence.

        The patterns apply to the paths below `directory`, of any bytes and without a slash at either end; if it is empty, to all
        paths. `source`, of any bytes, is told with the answers.
        """
        contents, place = bytes(contents), Place(_passed(_bytes(directory)), _passed(_bytes(source)))
        number, count = ctypes.c_size_t(), ctypes.c_size_t()
        with self._lock:
            status = self._library.yektrod_add_in(self._slot, contents, len(contents), place, allow_macros, number, count)
            _done(status, 'add_in', Invalid(f'add_in: {directory!r} is no directory of a repository'))
            return Added(number.value, self._dropped(count.value))

    def _dropped(self, count: int) -> list[Dropped]:
        line, dropped = Line(), []
        for number in range(count):
            _done(self._library.yektrod_dropped(self._slot, number, line), 'dropped', _not_text('dropped'))
            dropped.append(Dropped(line.line, REASONS[line.reason]))
        return dropped

    def pop(self) -> None:
        """Removes the last list."""
        with self._lock:
            _done(self._library.yektrod_pop(self._slot), 'pop', _not_text('pop'))

    def select(self, names: Iterable[Path] = ()) -> None:
        """Selects the names that are looked up from here on. No names select all."""
        texts = as_names(names)
        with self._lock:
            self._select(texts)

    def _select(self, texts: list[bytes]) -> None:
        rows = (Bytes * max(len(texts), 1))(*map(_passed, texts))
        _done(self._library.yektrod_select(self._slot, rows, len(texts)), 'select', _not_text('select'))

    def ask(self, path: Path, names: Optional[Iterable[Path]] = None, fold: bool = False,
            is_dir: Optional[bool] = False) -> list[Answer]:
        """The answers for a path: one for each selected name, or, without a selection, one for each that is specified.

        With `names`, these are selected before. `fold` is whether letters match in either case, and `is_dir` whether the path is
        a directory, if that is known.
        """
        return self.ask_many([path], names, fold, is_dir)[0]

    def ask_many(self, paths: Iterable[Path], names: Optional[Iterable[Path]] = None, fold: bool = False,
                 is_dir: Optional[bool] = False) -> list[list[Answer]]:
        """The answers for each of the paths, in their order, as `ask` gives them. No other call comes between."""
        asked, texts = [_bytes(path) for path in paths], None if names is None else as_names(names)
        with self._lock:
            if texts is not None:
                self._select(texts)
            return [self._ask(Question(_passed(path), fold, -1 if is_dir is None else bool(is_dir))) for path in asked]

    def _ask(self, question: Question) -> list[Answer]:
        needed = Needed()
        while True:
            status = self._library.yektrod_ask_into(self._slot, question, self._rows, len(self._rows),
                                                    self._text, len(self._text), needed)
            if status != _library.BUFFER_TOO_SMALL:
                break
            self._grow(needed.rows, needed.text)
        _done(status, 'ask', _not_text('ask'))
        text = ctypes.string_at(self._text, needed.text)
        rows = ctypes.string_at(self._rows, needed.rows * _library.ROW.size)
        return [_answer(row, text) for row in _library.ROW.iter_unpack(rows)]

    def _grow(self, rows: int, text: int) -> None:
        if rows > len(self._rows):
            self._rows = (Row * rows)()
        if text > len(self._text):
            self._text = ctypes.create_string_buffer(text)

    def found(self, number: int) -> Optional[Answer]:
        """The answer to the last question for the attribute with this number, whatever is selected, or None.

        It is there for each selected name that a line decides, and for each macro that is the cause of an answer, of its cause,
        and so on; without a selection for all.
        """
        row, needed = Row(), ctypes.c_size_t()
        with self._lock:
            while True:
                status = self._library.yektrod_found(self._slot, number, row, self._text, len(self._text), needed)
                if status != _library.BUFFER_TOO_SMALL:
                    break
                self._grow(0, needed.value)
            if status == _library.NOT_FOUND:
                return None
            _done(status, 'found', _not_text('found'))
            return _answer(_library.ROW.unpack(row), ctypes.string_at(self._text, needed.value))

    def names(self) -> list[str]:
        """The names of attributes and macros, by their numbers."""
        count = ctypes.c_size_t()
        with self._lock:
            _done(self._library.yektrod_names(self._slot, count), 'names', _not_text('names'))
            return [self._name(number) for number in range(count.value)]

    def _name(self, number: int) -> str:
        needed = ctypes.c_size_t()
        status = self._library.yektrod_name(self._slot, number, self._text, len(self._text), needed)
        if status == _library.BUFFER_TOO_SMALL:
            self._grow(0, needed.value)
            status = self._library.yektrod_name(self._slot, number, self._text, len(self._text), needed)
        _done(status, 'name', _not_text('name'))
        return ctypes.string_at(self._text, needed.value).decode()
