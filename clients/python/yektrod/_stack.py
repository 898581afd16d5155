"""The attributes files of a tree, in git's order."""
from __future__ import annotations

import os
import threading
from itertools import takewhile
from types import TracebackType
from typing import Callable, Iterable, NamedTuple, Optional

from ._engine import Answer, Dropped, Engine, Path, as_names
from ._errors import Invalid

# What a reader tells of a directory: the contents of its attributes file, or None if it has none. The top directory is empty;
# others have a slash at neither end.
Reader = Callable[[bytes], Optional[bytes]]


class File(NamedTuple):
    """An attributes file that belongs to no directory: what it is called in answers, and what is in it."""
    source: Path
    contents: bytes


class DroppedLines(NamedTuple):
    """The dropped lines of a file, one at least."""
    source: str
    lines: list[Dropped]


class _Entry:
    """The attributes file of a directory."""

    def __init__(self, directory: bytes, above: Optional[_Entry], contents: bytes) -> None:
        # The nearest file above.
        self.directory, self.above = directory, above
        # None: to be read again.
        self.contents: Optional[bytes] = contents
        # How many bytes its list takes in an engine, about: so many for itself, for each of its lines and for each byte.
        self.weight = 2000 + 300 * contents.count(b'\n') + 16 * len(contents)
        # Where its list stands among those of the tree, if it does. Then those of the files above stand below it.
        self.position: Optional[int] = None


def _chain(entry: Optional[_Entry]) -> list[_Entry]:
    """A file and those above, that of the highest directory first."""
    chain = []
    while entry is not None:
        chain.append(entry)
        entry = entry.above
    return chain[::-1]


class Stack:
    """Looks up the paths of a tree, in any order, and reads the attributes files on their way when a directory is first entered.

    In ascending precedence these are the system's file, the user's, those of the directories from the top down to that of the
    path, and info/attributes. Macros may be defined in all but the files below the top.

        files = {b'': b'*.md text\\n', b'docs': b'*.md eol=lf\\n'}
        with Stack(files.get) as stack:
            print(stack.ask('docs/guide/first.md', ['eol'])[0].state)    # b'lf'

    `fold` is whether letters match in either case. Any thread may use a stack, and each call waits until the one before has
    ended; the reader may not use it. Of contents 8 MB are kept, and of lists that don't apply to the path some 10 MB: a file
    beyond them is read again when it is needed again. What is known of a directory takes some 200 bytes.
    """
    KEPT_CONTENTS, KEPT_LISTS = 8 << 20, 10 << 20

    def __init__(self, reader: Reader, *, system: Optional[File] = None, user: Optional[File] = None,
                 info: Optional[File] = None, fold: bool = False) -> None:
        self._reader, self._info, self._fold = reader, info, fold
        # With `fold` the list of `a` would apply below `A` too, where git reads another file: no other stands then.
        self._kept_lists = 0 if fold else self.KEPT_LISTS
        # Of each directory that was entered the nearest file: its own, or one above.
        self._nearest: dict[bytes, Optional[_Entry]] = {}
        # The files of the tree whose lists stand, how many bytes these take, and whether that of info/attributes stands above.
        self._standing: list[_Entry] = []
        self._weight = 0
        self._info_stands = False
        # The directory whose lists stand, if they do.
        self._directory: Optional[bytes] = None
        self._contents_size = 0
        self._dropped: list[DroppedLines] = []
        self._told: set[bytes] = set()
        self._lock = threading.Lock()
        self._engine = Engine()
        for file in (system, user):
            if file is not None:
                self._add(file.contents, b'', os.fsencode(file.source))

    def __enter__(self) -> Stack:
        return self

    def __exit__(self, kind: Optional[type[BaseException]], error: Optional[BaseException],
                 trace: Optional[TracebackType]) -> None:
        self.close()

    def close(self) -> None:
        """Frees the engine, when the call of another thread has ended. A second close does nothing."""
        with self._lock:
            self._engine.close()

    def select(self, names: Iterable[Path] = ()) -> None:
        """Selects the names that are looked up from here on. No names select all."""
        texts = as_names(names)
        with self._lock:
            self._engine.select(texts)

    def ask(self, path: Path, names: Optional[Iterable[Path]] = None, is_dir: Optional[bool] = False) -> list[Answer]:
        """The answers for a path, as `Engine.ask` gives them. A path that ends in a slash is a directory, whatever `is_dir` is;
        the attributes file in a directory doesn't apply to the directory itself.

        What the reader raises comes out of here. The stack is then as it was, and the same can be asked again.
        """
        return self.ask_many([path], names, is_dir)[0]

    def ask_many(self, paths: Iterable[Path], names: Optional[Iterable[Path]] = None,
                 is_dir: Optional[bool] = False) -> list[list[Answer]]:
        """The answers for each of the paths, in their order, as `ask` gives them. No other call comes between."""
        asked, texts = [os.fsencode(path) for path in paths], None if names is None else as_names(names)
        with self._lock:
            if texts is not None:
                self._engine.select(texts)
            return [self._ask(path, is_dir) for path in asked]

    def take_dropped(self) -> list[DroppedLines]:
        """The dropped lines of the files that were added since the last call, once for each file. Definitions of
        macros in files below the top are dropped without being told."""
        with self._lock:
            taken, self._dropped = self._dropped, []
            return taken

    def _ask(self, path: bytes, is_dir: Optional[bool]) -> list[Answer]:
        if path.endswith(b'/') and path != b'/':
            path, is_dir = path[:-1], True
        directory, slash, name = path.rpartition(b'/')
        if name in (b'.', b'..') or (path and not name) or path.startswith(b'/'):
            raise Invalid(f'ask: {path!r} is no path of a tree')
        if directory != self._directory:
            self._enter(directory)
        return self._engine.ask(path, None, self._fold, is_dir)

    def _enter(self, directory: bytes) -> None:
        """Has the lists of a directory stand. Nothing has changed if the reader raises."""
        chain = _chain(self._entry(directory))
        kept = len(self._standing)
        if self._weight - sum(entry.weight for entry in chain if entry.position is not None) > self._kept_lists:
            kept = sum(1 for _ in takewhile(lambda pair: pair[0] is pair[1], zip(self._standing, chain)))
        wanted = [entry for entry in chain if entry.position is None or entry.position >= kept]
        contents = [entry.contents if entry.contents is not None else self._reader(entry.directory) or b'' for entry in wanted]
        self._directory = None
        if wanted or kept < len(self._standing):
            self._take_off(kept)
            for entry, text in zip(wanted, contents):
                self._push(entry, text)
        if self._info is not None and not self._info_stands:
            self._add(self._info.contents, b'', os.fsencode(self._info.source))
            self._info_stands = True
        self._directory = directory

    def _entry(self, directory: bytes) -> Optional[_Entry]:
        """The nearest file of a directory. Directories that were not entered before are, from the highest one on."""
        unknown = []
        while directory not in self._nearest:
            unknown.append(directory)
            if not directory:
                break
            directory, _, name = directory.rpartition(b'/')
            if name in (b'', b'.', b'..'):
                raise Invalid(f'ask: {unknown[0]!r} is no directory of a tree')
        nearest = self._nearest.get(directory)
        for directory in reversed(unknown):
            contents = self._reader(directory)
            if contents:
                nearest = _Entry(directory, nearest, contents)
                self._contents_size += len(contents)
            self._nearest[directory] = nearest
        return nearest

    def _take_off(self, kept: int) -> None:
        """Removes the list of info/attributes, and those of the tree above the first ones, so many of which stay."""
        if self._info_stands:
            self._engine.pop()
            self._info_stands = False
        while len(self._standing) > kept:
            self._engine.pop()
            entry = self._standing.pop()
            entry.position = None
            self._weight -= entry.weight

    def _push(self, entry: _Entry, contents: bytes) -> None:
        """Adds the list of a file of the tree. Those of the files above stand, and the one of info/attributes doesn't."""
        source = entry.directory + b'/.gitattributes' if entry.directory else b'.gitattributes'
        self._add(contents, entry.directory, source)
        entry.position = len(self._standing)
        self._standing.append(entry)
        self._weight += entry.weight
        if self._contents_size > self.KEPT_CONTENTS and entry.contents is not None:
            self._contents_size -= len(entry.contents)
            entry.contents = None

    def _add(self, contents: bytes, directory: bytes, source: bytes) -> None:
        added = self._engine.add_in(contents, directory, source, not directory)
        if added.dropped and source not in self._told:
            self._told.add(source)
            self._dropped.append(DroppedLines(os.fsdecode(source), added.dropped))
