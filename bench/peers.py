#!/usr/bin/env python3
"""Measures what a path costs in check_attr, git, gitoxide's crate gix-attributes and libgit2, over the same inputs. By hand.

usage: peers.py [PROGRAM] [--quick] [--only WORD,..] [--markdown] [--readme] [--runs N] [--limit SECONDS]
       peers.py --curves     adds the crate's rows to path_cost.csv, after table.py --curves

PROGRAM is crates/check_attr_cli/out/check_attr_cli if none is given. The crate is played by upstream/run.sh, which fetches and
builds it in UPSTREAM_DIR, or in a directory that is removed, and libgit2 (Debian: libgit2-dev) by peers_libgit2.c. A peer that
can't be built is left out, and named. The workloads are those of table.py, with three attributes of each path. All answers are
compared with PROGRAM's.

  instructions   by callgrind, a path: those of many paths less those of few, as in table.py
  time           processor time of the whole run over git's: medians of runs that take turns
"""
import argparse
import csv
import os
import shlex
import subprocess
import tempfile
from itertools import zip_longest
from pathlib import Path

import measure
import table
from measure import Command, say

PEERS = ("check_attr", "git", "gix-attributes", "libgit2")
OURS, GIT, CRATE, LIBGIT2 = range(4)
HEAD = ("workload", "instructions: check_attr", *PEERS[1:], "git, ms", "time over git's: check_attr", *PEERS[CRATE:])
WIDTHS = (-58, 26, 12, 16, 14, 10, 29, 16, 9)
WORKLOADS = {
    "typical": table.of_typical,
    "names": lambda quick: table.of_kind("names", 10_000, quick),
    "globs": lambda quick: table.of_kind("globs", 1_000, quick),
    "exact": lambda quick: table.of_kind("exact", 1_000, quick),
    "macros": table.of_macros,
    "reading": table.of_reading,
}


def output_of(*words, **more):
    """What a program prints, or None if it isn't here or fails."""
    try:
        done = subprocess.run(words, stdin=subprocess.DEVNULL, capture_output=True, text=True, **more)
    except OSError as error:
        return say(error)
    return say(f"{words[0]}: {done.stderr.strip()}") if done.returncode else done.stdout.strip()


def built_crate(room):
    """The program that plays the crate, and the crate with its version."""
    room = Path(os.environ.get("UPSTREAM_DIR") or room).resolve()
    if output_of(measure.BENCH / "upstream/run.sh", "measured", env={**os.environ, "UPSTREAM_DIR": str(room)}) is None:
        return None, None
    crate = next((room / "crates/registry").glob(f"{PEERS[CRATE]}-*"))
    return room / "target/release/upstream", " ".join(crate.name.rsplit("-", 1))


def built_libgit2(room):
    """The program that asks libgit2, and libgit2 with its version."""
    program, flags = room / "libgit2", output_of("pkg-config", "--cflags", "--libs", "libgit2")
    source = measure.BENCH / "peers_libgit2.c"
    if flags is None or output_of("cc", "-O2", source, *shlex.split(flags), "-o", program) is None:
        return None, None
    return program, f"libgit2 {output_of('pkg-config', '--modversion', 'libgit2')}"


def answers(command, limit):
    """The lines that a program prints; None if it takes longer than the limit."""
    with open(command.given, "rb") as given:
        try:
            done = subprocess.run(command.words, stdin=given, stdout=subprocess.PIPE, cwd=command.directory, check=True,
                                  env={**os.environ, **measure.GIT_ENVIRONMENT}, timeout=4 * limit)
        except subprocess.TimeoutExpired:
            return None
    return done.stdout.splitlines()


class Bench(table.Bench):
    """That of table.py, with two programs more."""

    def __init__(self, program, room, options):
        super().__init__(program, room, options)
        self.crate, crate = built_crate(self.room)
        self.libgit2, libgit2 = built_libgit2(self.room) if self.git else (None, None)
        self.versions = [version for version in (crate, libgit2) if version]
        self.missing = [peer for peer, there in zip(PEERS[GIT:], (self.git, self.crate, self.libgit2)) if not there]
        self.differ = []

    def commands(self, work, files, paths, repository):
        ours, git = super().commands(work, files, paths, repository)
        crate = Command([self.crate, "measured"], ours.given) if self.crate else None
        libgit2 = Command([self.libgit2, *work.names], git.given, git.directory) if git and self.libgit2 else None
        return ours, git, crate, libgit2

    def instructions(self, work):
        """The instructions of each program for a path: for the others of fewer paths where git tries many lines for each."""
        if not self.valgrind:
            return [None] * len(PEERS)
        few, many, divisor = work.few_and_many_of_git()
        others = [self.difference(work, (few, many), divisor, index) for index in range(GIT, len(PEERS))]
        return [self.difference(work, *work.runs(), OURS), *others]

    def compare(self, work, commands):
        ours = answers(commands[OURS], self.limit)
        for peer, command in zip(PEERS[GIT:], commands[GIT:]):
            other = answers(command, self.limit) if command else None
            if command and other is None:
                self.differ.append(f"{peer} was not compared in {work.title}: it took more than {4 * self.limit} s.")
            apart = [pair for pair in zip_longest(ours, other or ours) if pair[0] != pair[1]]
            if apart:
                self.differ.append(f"{peer} answers otherwise in {work.title}: {len(apart):,} of {len(ours):,} answers.")
                say(f"{self.differ[-1]} The first is {apart[0][1]}, and here {apart[0][0]}")

    def row(self, work):
        counts = self.instructions(work)
        commands = self.commands(work, work.files, work.paths, self.repository(work.files) if self.git else None)
        self.compare(work, commands)
        times = measure.alternating(commands, self.runs, self.limit)

        def ratio(index):
            if not commands[index] or not times[GIT]:
                return ""
            return table.two_digits(times[index] / times[GIT]) if times[index] else f"> {self.limit / times[GIT]:.0f}"

        git = f"{1000 * times[GIT]:,.0f}" if times[GIT] else ""
        return (work.title, *map(table.three_digits, counts), git, ratio(OURS), ratio(CRATE), ratio(LIBGIT2))


def peers(bench, options):
    report = measure.Report("peers", options.markdown, options.readme)
    report.head(HEAD, WIDTHS)
    for name, make in WORKLOADS.items():
        if measure.is_wanted(name, options.only):
            report.row(bench.row(make(options.quick)), WIDTHS)
    report.line()
    for line in [*bench.differ, *(f"{peer} is left out: it is not here, or can't be built." for peer in bench.missing)]:
        report.line(line)
    report.line(f"Measured {', '.join([measure.machine(), *bench.versions])}.")
    report.end()


def curves(bench):
    """Instructions a path of the crate, for the kinds and the numbers of lines that path_cost.csv has."""
    with open(table.CURVES, newline="", encoding="ascii") as file:
        rows = [row for row in csv.DictReader(file) if row["program"] != PEERS[CRATE]]
    for kind, lines in dict.fromkeys((row["kind"], int(row["lines"])) for row in rows):
        work = table.of_kind(kind, lines, False, max(1000, table.counted(lines)))
        few, many, divisor = work.few_and_many_of_git()
        count = bench.difference(work, (few, many), divisor, CRATE)
        rows.append({"kind": kind, "lines": lines, "program": PEERS[CRATE], "instructions": f"{count:.0f}"})
        say(f"{kind}, {lines:,} lines")
    with open(table.CURVES, "w", newline="", encoding="ascii") as file:
        writer = csv.DictWriter(file, rows[0], lineterminator="\n")
        writer.writeheader()
        writer.writerows(rows)
    print(f"{table.CURVES} has the rows of {bench.versions[0]}. Measured {measure.machine()}.")


def main():
    options = argparse.ArgumentParser(description=__doc__, formatter_class=argparse.RawDescriptionHelpFormatter)
    options.add_argument("program", nargs="?", help="the program to measure")
    options.add_argument("--quick", action="store_true", help="smaller rows")
    options.add_argument("--only", metavar="WORD,..", help=f"the rows with one of the words in their names: {' '.join(WORKLOADS)}")
    options.add_argument("--markdown", action="store_true", help="print the table in Markdown")
    options.add_argument("--readme", action="store_true", help="the same, and put it into README.md")
    options.add_argument("--runs", type=int, default=5, help="how many runs a median is of")
    options.add_argument("--limit", type=int, default=120, help="the seconds after which a run is ended")
    options.add_argument("--curves", action="store_true", help="add the crate's rows to path_cost.csv")
    options.set_defaults(stack=table.STACK, check_attr=table.CHECK_ATTR)
    options = options.parse_args()
    with tempfile.TemporaryDirectory() as room:
        bench = Bench(measure.program_of(options.program), room, options)
        if not options.curves:
            peers(bench, options)
        elif bench.crate and bench.valgrind:
            curves(bench)


if __name__ == "__main__":
    main()
