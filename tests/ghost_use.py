#!/usr/bin/env python3
"""Checks that each source uses all names that its `ghost use` lines import, which the prover doesn't. It takes a second."""
import glob
import os
import re
import sys

USE = re.compile(r'^ghost use [^;{]*?([^;{.]*)(?:\{([^}]*)\})?;$', re.MULTILINE)


def names(use):
    """The names that a line imports, as the file knows them."""
    whole, listed = use.groups()
    return [name.split(' as ')[-1].strip() for name in (listed or whole).split(',') if name.strip()]


def is_used(name, text):
    """Whether each part of the name is in the text: of `◌++◌` that is `++`."""
    return all(re.search(rf'(?<!\w){re.escape(part)}(?!\w)' if part.isidentifier() else re.escape(part), text) for part in name.split('◌') if part)


def main():
    os.chdir(os.path.join(os.path.dirname(os.path.abspath(__file__)), '..'))
    unused = []
    for path in sorted(glob.glob('crates/*/src/**/*.rt', recursive=True)):
        with open(path, encoding='utf-8') as file:
            text = file.read()
        rest = USE.sub('', text)
        unused += [f'{path}: {name}' for use in USE.finditer(text) for name in names(use) if not is_used(name, rest)]
    if unused:
        sys.exit('\n'.join(['ghost_use: names that the file imports and does not use:', *unused]))
    print('ghost_use: each name is used')


if __name__ == '__main__':
    main()
