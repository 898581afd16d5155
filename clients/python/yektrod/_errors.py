"""Why a call fails."""
from __future__ import annotations


class Error(Exception):
    """A call that could not be answered."""


class LibraryNotFound(Error, OSError):
    """There is no library, or it lacks a function."""


class Closed(Error):
    """The engine is closed."""


class Invalid(Error, ValueError):
    """An argument that is out of range."""


class NotText(Invalid):
    """A text is not UTF-8."""


class NoList(Error, IndexError):
    """There is no list to remove."""


class Malformed(Error, ValueError):
    """A record of a script is malformed: `number` is its number, from 1, and `text` what the records before it write."""

    def __init__(self, number: int, text: bytes) -> None:
        super().__init__(f'run: malformed record {number}')
        self.number, self.text = number, text
