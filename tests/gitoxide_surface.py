#!/usr/bin/env python3
"""Compares the public surfaces of two crates, as rustdoc tells them: types, variants, fields, functions, and implementations of traits,
also of `Send` and `Sync`. Where a type is shown, and how its own functions are split, may differ.

usage: gitoxide_surface.py DIRECTORY DIRECTORY, those of the pages of the crates
"""
import os
import re
import sys

ITEM = re.compile(r'<(?:section|span|div|h4) id="((?:variant|structfield|method|associatedtype|impl)[.-][^"]*)"')


def surface(directory):
    """The items of the pages of a crate."""
    items = set()
    for room, _, pages in os.walk(directory):
        for page in pages:
            if not re.match(r'(struct|enum|fn|type|trait)\.', page):
                continue
            items.add(page)
            with open(os.path.join(room, page), encoding='utf-8') as file:
                text = file.read()
            items |= {f'{page} {name}' for name in ITEM.findall(text) if not name.startswith('impl') or '-for-' in name}
    return items


def main():
    if len(sys.argv) != 3:
        sys.exit(__doc__)
    first, second = map(surface, sys.argv[1:])
    for items, words in ((first - second, 'missing'), (second - first, 'more')):
        for item in sorted(items):
            print(f'gitoxide_surface: {words}: {item}')
    print(f'gitoxide_surface: {len(first)} items, {len(first - second)} are missing, {len(second - first)} more')
    sys.exit(first != second)


main()
