#!/usr/bin/env python3
"""Checks bounds on what the program costs, which no contract states. Valgrind counts, so other work on the machine changes nothing.

usage: bounds.py [PROGRAM] [--only WORD,..]

PROGRAM is crates/check_attr_cli/out/check_attr_cli if none is given. Each row compares two scripts, of which the second asks or
adds more. What is counted are instructions, requests for memory, or the bytes that were asked for; a bound is on the quotient of
both counts, or on their difference for each thing that the second script has more. Status 1 says that a bound is broken.
"""
import argparse
import re
import subprocess
import sys
import tempfile
from pathlib import Path

import hostile
import measure
from hostile import add, ask, select, words


class Counter:
    def __init__(self, program, room):
        self.program, self.room = program, Path(room)

    def command(self, script):
        given = self.room / "given"
        given.write_bytes(script)
        return measure.Command([self.program], given)

    def instructions(self, script):
        return self.command(script).instructions(self.room)

    def memory(self, script):
        """The requests for memory of a run, and the bytes that it asked for."""
        command = self.command(script)
        with open(command.given, "rb") as given:
            ran = subprocess.run(["valgrind", *command.words], stdin=given, capture_output=True, text=True, check=True)
        found = re.search(r"total heap usage: ([\d,]+) allocs, [\d,]+ frees, ([\d,]+) bytes", ran.stderr)
        return [int(count.replace(",", "")) for count in found.groups()]

    def quotient(self, script, sizes):
        """By how much the instructions grow where the script grows twofold, beyond what twofold is."""
        few, many = (self.instructions(script(size)) for size in sizes)
        return many / few / (sizes[1] / sizes[0])

    def paths(self, script, sizes):
        """By how much the instructions of a path grow with the size: those of 600 paths less those of 200."""
        few, many = (self.instructions(script(size, 600)) - self.instructions(script(size, 200)) for size in sizes)
        return many / few

    def requests(self, script, sizes):
        few, many = (self.memory(script(size))[0] for size in sizes)
        return (many - few) / (sizes[1] - sizes[0])

    def bytes(self, script, sizes):
        few, many = (self.memory(script(size))[1] for size in sizes)
        return (many - few) / (sizes[1] - sizes[0])


def known(count):
    """A list that makes so many names known."""
    return add(b"x " + words(count).encode() + b"\n")


LONG = b"[" + b"ab" * 5_000 + b"c]"
WHOLE = "assets/" * 7 + "%07d.bin"


def whole_paths(count):
    return add("".join(WHOLE % index + " a\n" for index in range(count)).encode()) + b"".join(
        ask(WHOLE % index) for index in range(count))


def listed_paths(count, paths):
    """A list of so many paths, and as many of them as are asked for, from all over it: each is a hit."""
    return add("".join(WHOLE % index + " a\n" for index in range(count)).encode()) + b"".join(
        ask(WHOLE % (index * 37 % count)) for index in range(paths))


def deep_paths(depth, paths):
    """A list of a directory so deep, among others, and as many paths in the directory."""
    directory = "directory/" * depth
    return add(b"* a\n") * 5 + add(b"* b\n", directory + ".gitattributes") + ask(directory + "b") * paths


# Each with its name, what is compared, the count, the script, two sizes, and the most that the result may be.
BOUNDS = [
    ("alike-hashes", "names that share a hash, and a path for each: instructions grow no faster than twofold",
     Counter.quotient, lambda n: add("".join(name + " a\n" for name in hostile.crowd(n)).encode()) + b"".join(
         map(ask, hostile.crowd(n))), (1_000, 2_000), 1.2),
    ("whole-paths", "whole paths, and each asked: instructions grow no faster than twofold",
     Counter.quotient, whole_paths, (1_000, 2_000), 1.2),
    ("paths-listed", "paths that a list has, asked one by one: what a path costs does not grow with the list",
     Counter.paths, listed_paths, (1_000, 16_000), 1.2),
    ("directory-kept", "paths in one directory, eight times as deep: its directories are looked up, and not hashed again",
     Counter.paths, deep_paths, (4, 32), 2),
    ("names-known", "paths without a selection: what a path costs does not grow with the names that are known",
     Counter.paths, lambda n, paths: known(n) + ask("b") * paths, (200, 3_200), 1.2),
    ("names-found", "paths without a selection, with two answers each: the same",
     Counter.paths, lambda n, paths: known(n) + add(b"* a0 a%d\n" % (n - 1)) + ask("b") * paths, (200, 3_200), 1.2),
    ("names-selected", "paths with a selection of one: what a path costs does not grow with the names that are known",
     Counter.paths, lambda n, paths: known(n) + select(["a1"]) + ask("b") * paths, (200, 3_200), 1.2),
    ("path-memory", "a path asks for no memory: requests a path",
     Counter.requests, lambda n: add(b"* a\n*.c b\n") + select(["a"]) + ask("x.c") * n, (1_000, 3_000), 0.05),
    ("pattern-memory", "a pattern of 10,000 bytes that decides is stored once: bytes a path",
     Counter.bytes, lambda n: add(b"* b\n" + LONG + b" a\n") + select(["b"]) + ask("c") * n, (100, 300), 1_000),
    ("text-memory", "a name and a value that were just read are not stored again: requests an item",
     Counter.requests, lambda n: add(b"* " + (b"n" * 60 + b"=" + b"v" * 60 + b" ") * n + b"\n"), (1_000, 3_000), 0.05),
    ("idle-memory", "a line of a list that gives paths nothing is stored once: requests a line",
     Counter.requests, lambda n: add(b"?\n" * n), (1_000, 3_000), 1.2),
    ("selected-memory", "a selected text that follows itself is not stored again: requests a name",
     Counter.requests, lambda n: select(["a"] * n), (1_000, 3_000), 0.05),
]


def main():
    options = argparse.ArgumentParser(description=__doc__, formatter_class=argparse.RawDescriptionHelpFormatter)
    options.add_argument("program", nargs="?", help="the program to measure")
    options.add_argument("--only", metavar="WORD,..", help="the bounds that have one of the words in their names")
    options = options.parse_args()
    if not measure.has_valgrind():
        sys.exit(2)
    broken = 0
    with tempfile.TemporaryDirectory() as room:
        counter = Counter(measure.program_of(options.program), room)
        for name, what, count, script, sizes, most in BOUNDS:
            if measure.is_wanted(name, options.only):
                found = count(counter, script, sizes)
                broken += found > most
                print(f"{name:16} {found:12,.2f} of {most:8,.2f} {'!' if found > most else ' '} {what}", flush=True)
    print(f"bounds: {broken} are broken")
    sys.exit(1 if broken else 0)


if __name__ == "__main__":
    main()
