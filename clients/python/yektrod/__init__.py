"""The gitattributes of paths, by the proved engine in libyektrod.so.

    with Engine() as engine:
        engine.add(b'*.sh text eol=lf\\n', '.gitattributes')
        for answer in engine.ask('script.sh', ['text', 'eol']):
            print(answer.name, answer.state)     # text True, then eol b'lf'

A `Stack` reads the attributes files of a tree when they are needed. The library is looked for when an engine is first made: at
YEKTROD_LIBRARY, beside this file, and where the loader looks.
"""
from ._engine import Added, Answer, Dropped, Engine, Path, run, version
from ._errors import Closed, Error, Invalid, LibraryNotFound, Malformed, NoList, NotText
from ._stack import DroppedLines, File, Reader, Stack

__all__ = ['Added', 'Answer', 'Closed', 'Dropped', 'DroppedLines', 'Engine', 'Error', 'File', 'Invalid', 'LibraryNotFound',
           'Malformed', 'NoList', 'NotText', 'Path', 'Reader', 'Stack', 'run', 'version']
