"""The functions of libyektrod.so, as ctypes calls them. The library is loaded by the first call of `library`."""
from __future__ import annotations

import ctypes
import functools
import os
import struct
from typing import Any

from ._errors import LibraryNotFound

HERE = os.path.dirname(os.path.abspath(__file__))
# What the functions return.
DONE, NO_MEMORY, CLOSED, NOT_FOUND, INVALID, NO_LIST, BUFFER_TOO_SMALL, MALFORMED = range(8)
# The flags of a row.
IS_MACRO, HAS_SOURCE, HAS_CAUSE = 1, 2, 4


class Slot(ctypes.Structure):
    _fields_ = [('engine', ctypes.c_void_p), ('live', ctypes.c_bool)]


class Bytes(ctypes.Structure):
    _fields_ = [('at', ctypes.c_char_p), ('length', ctypes.c_size_t)]


class Line(ctypes.Structure):
    _fields_ = [('line', ctypes.c_size_t), ('reason', ctypes.c_int32)]


class Place(ctypes.Structure):
    _fields_ = [('directory', Bytes), ('source', Bytes)]


class Question(ctypes.Structure):
    _fields_ = [('path', Bytes), ('fold', ctypes.c_bool), ('is_dir', ctypes.c_int32)]


class Needed(ctypes.Structure):
    _fields_ = [('rows', ctypes.c_size_t), ('text', ctypes.c_size_t)]


class Row(ctypes.Structure):
    _fields_ = [('state', ctypes.c_int32), ('flags', ctypes.c_uint32)] + [(name, ctypes.c_size_t) for name in (
        'line', 'list', 'name', 'cause', 'at', 'name_length', 'value_length', 'source_length', 'pattern_length', 'cause_length')]


# A Row, which is read in one step so.
ROW = struct.Struct('@iI10N')


@functools.lru_cache(maxsize=None)
def library() -> ctypes.CDLL:
    """The library that YEKTROD_LIBRARY names, else the one beside this file, else the one that the loader finds."""
    beside = [os.path.join(HERE, name) for name in ('libyektrod.so.0', 'libyektrod.so')]
    path = os.environ.get('YEKTROD_LIBRARY') or next((path for path in beside if os.path.exists(path)), 'libyektrod.so.0')
    try:
        return _declared(ctypes.CDLL(path))
    except (OSError, AttributeError) as error:
        raise LibraryNotFound(f'there is no libyektrod.so.0 that can be used at YEKTROD_LIBRARY, in {HERE}, or where the loader '
                              f'looks: {error}') from None


def _declared(library: ctypes.CDLL) -> ctypes.CDLL:
    slot, size, number, flag = ctypes.POINTER(Slot), ctypes.c_size_t, ctypes.c_int32, ctypes.c_bool
    text, count, row = [ctypes.c_char_p, size], ctypes.POINTER(size), ctypes.POINTER(Row)
    parameters: dict[str, list[Any]] = {
        'open': [], 'pop': [], 'close': [],
        'add': text + text + text + [flag, flag, count],
        'add_in': text + [ctypes.POINTER(Place), flag, count, count],
        'dropped': [size, ctypes.POINTER(Line)],
        'select': [ctypes.POINTER(Bytes), size],
        'ask_into': [ctypes.POINTER(Question), row, size, *text, ctypes.POINTER(Needed)],
        'found': [size, row, *text, count],
        'names': [count],
        'name': [size, *text, count],
    }
    for name, types in parameters.items():
        function = getattr(library, 'yektrod_' + name)
        function.argtypes = [slot] + types
        function.restype = None if name == 'close' else number
    library.yektrod_run.argtypes = text + text + [count, count]
    library.yektrod_run.restype = number
    library.yektrod_version.restype = ctypes.c_uint32
    return library
