#!/usr/bin/env python3
"""Measures what a path costs in check_attr, beside git.

usage: table.py [PROGRAM] [--quick] [--only WORD,..] [--markdown] [--readme] [--scale F] [--runs N]
                [--limit SECONDS] [--stack PROGRAM] [--check-attr PROGRAM]
       table.py [PROGRAM] --curves [--quick]     writes path_cost.csv, which chart.py draws

PROGRAM is crates/check_attr_cli/out/check_attr_cli if none is given. Each row is a workload: attributes files, three attributes
to look up, and paths. Both programs have to print the same answers. Git runs with GIT_FLUSH=0: without it, it writes after every
path. The rows stack-.. are of another program in the place of check_attr: the example `paths` of the Rust package, which reads
the attributes files of the work tree itself, as `cargo build --release --examples` in clients/rust builds it. The rows
check-attr-.. are of check-attr, as `make check-attr` builds it; all processes that it starts are counted. Columns:

  script         the size of the script that check_attr reads: the files and the paths
  time           processor time of the whole run, which reads the files too: medians of runs that take turns, and their ratio
  instructions   by callgrind, a path: those of many paths less those of 100, so that start and reading are left out
  memory         the most that the whole run held
"""
import argparse
import filecmp
import math
import os
import statistics
import subprocess
import sys
import tempfile
from pathlib import Path

import inputs
import measure
from measure import Command, OverLimit, say

CURVES = measure.BENCH / "path_cost.csv"
STACK = measure.BENCH.parent / "clients/rust/target/release/examples/paths"
CHECK_ATTR = measure.BENCH.parent / "clients/rust/target/release/check-attr"
# So many paths are asked before those that are counted: by then what reading left to free is freed.
FEW = 100
HEAD = ("workload", "paths", "script, KB", "time, ms", "git", "ratio", "instructions a path", "git", "memory, KB", "git")
WIDTHS = (-80, 10, 11, 10, 10, 8, 21, 13, 12, 11)


class Workload:
    """Attributes files by directory, names, and paths; and how many of the paths are asked under callgrind."""

    unit = "path"
    few = FEW
    # Whether our program is the one that reads the files of the work tree itself, and the directories of that tree that have no
    # file.
    reads_tree = False
    is_counted = True
    directories = ()

    def __init__(self, title, files, names, paths, counted):
        self.title, self.files, self.names, self.paths = title, files, names, paths
        self.counted = min(counted, len(paths))

    def script(self, paths):
        for directory, text in self.files:
            yield inputs.add(directory, text, macros=not directory)
        yield inputs.select(self.names)
        yield from map(inputs.ask, paths)

    def few_and_many(self):
        """The files and the paths of two runs under callgrind, and by what their difference is divided."""
        return self.first_and_all(self.few, self.counted)

    def runs(self):
        """The files and the paths of runs of our program. The median of the differences, divided by a number, is what counts."""
        few, many, divisor = self.few_and_many()
        return [few, many], divisor

    def few_and_many_of_git(self):
        """The same for git, which is asked fewer paths where it tries many lines for each."""
        return self.few_and_many()

    def first_and_all(self, few, count):
        blocks = max(1, count // 20)
        apart = len(self.paths) / blocks
        many = [path for block in range(blocks) for path in self.paths[int(block * apart):][:20]][:count]
        return (self.files, many[:few]), (self.files, many), len(many) - few


class OfKind(Workload):
    """Paths that are looked up in lines of one kind."""

    few = 500

    def runs(self):
        """Eight runs, each of 500 paths more: the steps where a buffer of the script grows, or moves, are not the median."""
        _, (files, many), _ = self.first_and_all(self.few, 8 * self.few)
        return [(files, many[:count]) for count in range(self.few, 9 * self.few, self.few)], self.few

    def few_and_many_of_git(self):
        return self.first_and_all(FEW, self.counted)


class Reading(Workload):
    """A file that is read for one path: what a line of it costs."""

    unit = "line"

    def few_and_many(self):
        return ([("", b"")], self.paths), (self.files, self.paths), self.files[0][1].count(b"\n")


class Walk(Workload):
    """Directories in the order of a walk: each one's file is added when it is entered, and popped when it is left."""

    def __init__(self, title, steps, names, counted, unit="path"):
        self.steps, self.unit = steps, unit
        files = [(directory, text) for directory, text, _ in steps if text is not None]
        super().__init__(title, files, names, [path for _, _, paths in steps for path in paths], counted)

    def script(self, paths):
        yield inputs.select(self.names)
        left, entered = len(paths), []
        for directory, text, below in self.steps:
            if left <= 0:
                return
            while entered and not directory.startswith(entered[-1]):
                entered.pop()
                yield b"pop\n"
            if text is not None:
                entered.append(directory)
                yield inputs.add(directory, text, macros=not directory)
            yield from map(inputs.ask, below[:left])
            left -= len(below)

    def few_and_many(self):
        return (self.files, self.paths[:FEW]), (self.files, self.paths[:self.counted]), self.counted - FEW


class Stack(Workload):
    """Paths that a program looks up in a work tree, and the options of that program and of git."""

    reads_tree = True
    program = "stack"
    words, git_words = (), ("--stdin",)

    def __init__(self, title, files, directories, paths, counted):
        super().__init__(title, files, inputs.THREE_NAMES, paths, counted)
        self.directories = directories

    def prepare(self, repository):
        """Does what is left to do in a repository that has the files. Returns the directory to run in."""
        return repository


class CheckAttr(Stack):
    """Paths that check-attr looks up in a work tree."""

    program = "check-attr"
    is_counted = False

    def __init__(self, title, files, directories, paths, words=("--stdin",), names=inputs.SEVEN_NAMES, git_words=None):
        super().__init__(title, files, directories, paths, 0)
        self.words, self.names = words, names
        self.git_words = git_words or words


class CheckAttrOfIndex(CheckAttr):
    """The same, of the index alone, of a tree in a bare repository, or where the work tree lacks some files."""

    is_bare, missing = False, ()

    def prepare(self, repository):
        def git(*words, given=None):
            return subprocess.run(["git", *words], cwd=repository, input=given, stdout=subprocess.PIPE, check=True).stdout

        git("add", "--all")
        blob = git("hash-object", "-w", "--stdin", given=b"").strip()
        git("update-index", "--index-info", given=b"".join(b"100644 %s\t%s\n" % (blob, it.encode()) for it in self.paths))
        made = git("-c", "user.name=x", "-c", "user.email=x", "commit-tree", "-m", "made", git("write-tree").strip())
        git("update-ref", "HEAD", made.strip())
        git("repack", "-a", "-d", "-q")
        for directory in self.missing:
            (repository / directory / ".gitattributes").unlink()
        if not self.is_bare:
            return repository
        git("config", "core.bare", "true")
        return repository / ".git"


# How many paths are asked: fewer where git tries many lines for each.

def timed(lines, quick):
    return max(1000, min(100_000, 50_000_000 // lines) // (5 if quick else 1))


def counted(lines, quick=False):
    return max(2 * FEW, min(2000, 3_000_000 // lines) // (4 if quick else 1))


KINDS = {"names": inputs.names, "ends": inputs.ends, "exact": inputs.exact, "globs": inputs.globs}
TITLES = {"names": "names", "ends": "suffixes `*.eN`", "exact": "exact paths", "globs": "globs `dirN/**/x?[a-c]*.gen`"}


def of_kind(kind, lines, quick, paths=None):
    text, asked = KINDS[kind](lines, max(paths or timed(lines, quick), 8 * OfKind.few))
    return OfKind(f"{lines:,} {TITLES[kind]}", [("", text)], inputs.THREE_NAMES, asked, counted(lines, quick))


def of_typical(quick):
    text, paths = inputs.typical(timed(1, quick))
    lines = text.count(b"\n")
    return Workload(f"typical, {lines} lines", [("", text)], inputs.TYPICAL_NAMES, paths, counted(1, quick))


def of_macros(quick):
    text, paths = inputs.macros(timed(2500, quick))
    lines = text.count(b"\n")
    return Workload(f"macros, {lines:,} lines", [("", text)], ["m0", "m77", "m150"], paths, counted(1, quick))


def of_reading(quick):
    text = inputs.large(124_000 // (10 if quick else 1))
    lines = text.count(b"\n")
    title = f"reading {len(text) / 1e6:.1f} MB, {lines:,} lines; instructions a line"
    return Reading(title, [("", text)], inputs.THREE_NAMES, ["src/core/main.c"], 1)


def of_standing(lists, quick):
    files, paths = inputs.standing(lists, timed(lists, quick))
    title = f"{lists:,} standing lists, a path below two"
    made = Workload(title, files, inputs.THREE_NAMES, paths, max(1_000, counted(lists, quick)))
    # By then the tables of an outcome that is asked in many directories have grown, too.
    made.few = 500
    return made


def monorepo_title(steps):
    files = sum(text is not None for _, text, _ in steps)
    paths = sum(len(below) for _, _, below in steps)
    return f"made monorepo: {paths:,} paths, {len(steps):,} directories, {files:,} files"


def of_monorepo(scale):
    steps = list(inputs.monorepo(scale))
    files = [(directory, text) for directory, text, _ in steps if text is not None]
    paths = [path for _, _, below in steps for path in below]
    return Workload(monorepo_title(steps) + ", all standing", files, inputs.THREE_NAMES, paths, counted(len(files)))


def of_walk(scale):
    steps = list(inputs.monorepo(scale))
    return Walk(monorepo_title(steps) + ", walked", steps, inputs.THREE_NAMES, 20_000)


def of_directories(names, quick):
    """One path in each directory, whose file of one line is added for it and popped after it."""
    count = 500 if quick else 2000
    steps = [("", inputs.known(names), ["a.c"])]
    steps += [(f"f{index}/", b"*.c a1 -a2 a3=v\n", [f"f{index}/main.c"]) for index in range(count)]
    title = f"add, ask, pop; {names:,} names known, 3 selected"
    return Walk(title, steps, ["a1", "a2", "a3"], max(50, counted(names) // 4), unit="directory")


def of_stack(quick, is_shuffled=False):
    files, directories, paths = inputs.below_files(timed(1, quick))
    title = f"stack: {len(files)} files in {len(directories):,} directories, paths {'shuffled' if is_shuffled else 'in order'}"
    return Stack(title, files, directories, inputs.shuffled(paths) if is_shuffled else paths, 5 * counted(1, quick))


def of_stack_without_files(quick):
    files, directories, paths = inputs.without_files(20_000 // (5 if quick else 1))
    title = f"stack: {len(directories):,} directories without a file, a path each"
    return Stack(title, files, directories, paths, 5 * counted(1, quick))


def of_stack_monorepo(scale):
    steps = list(inputs.monorepo(scale))
    files = [(directory, text) for directory, text, _ in steps if text is not None]
    paths = [path for _, _, below in steps for path in below]
    return Stack("stack: " + monorepo_title(steps), files, [directory for directory, _, _ in steps], paths, 20_000)


def of_check_attr(quick, make=CheckAttr, what="", is_shuffled=False, **more):
    files, directories, paths = inputs.below_files(timed(1, quick))
    order = "shuffled" if is_shuffled else "in order"
    title = f"check-attr{what}: {len(files)} files in {len(directories):,} directories, paths {order}"
    return make(title, files, directories, inputs.shuffled(paths) if is_shuffled else paths, **more)


def of_check_attr_bare(quick):
    work = of_check_attr(quick, CheckAttrOfIndex, " --source, bare; git --cached", words=("--stdin", "--source=HEAD"),
                         git_words=("--stdin", "--cached"))
    work.is_bare = True
    return work


def of_check_attr_without_files(quick):
    files, directories, paths = inputs.without_files(20_000 // (5 if quick else 1))
    missing = directories[::len(directories) // 50]
    title = f"check-attr: {len(directories):,} directories without a file, a path each, {len(missing)} files in the index alone"
    files += [(directory, inputs.of_directory(0)) for directory in missing]
    work = CheckAttrOfIndex(title, files, directories, paths, names=inputs.THREE_NAMES)
    work.missing = missing
    return work


def of_check_attr_monorepo(scale):
    steps = list(inputs.monorepo(scale))
    files = [(directory, text) for directory, text, _ in steps if text is not None]
    paths = [path for _, _, below in steps for path in below]
    directories = [directory for directory, _, _ in steps]
    return CheckAttr("check-attr: " + monorepo_title(steps), files, directories, paths, names=inputs.THREE_NAMES)


def workloads(quick, scale):
    """The name of each row, and how its workload is made."""
    made = {"typical": lambda: of_typical(quick)}

    def several(name, sizes, make):
        for size in sizes:
            made[f"{name}-{size}"] = lambda size=size: make(size, quick)

    several("names", (10, 10_000), lambda size, quick: of_kind("names", size, quick))
    several("ends", (10, 10_000), lambda size, quick: of_kind("ends", size, quick))
    several("globs", (10, 1_000), lambda size, quick: of_kind("globs", size, quick))
    made["macros"] = lambda: of_macros(quick)
    several("exact", (1_000,) if quick else (1_000, 16_000, 100_000), lambda size, quick: of_kind("exact", size, quick))
    several("standing", (10, 1_000) if quick else (10, 100, 1_000, 10_000), of_standing)
    made["reading"] = lambda: of_reading(quick)
    made["monorepo-standing"] = lambda: of_monorepo(scale)
    made["monorepo-walked"] = lambda: of_walk(scale)
    several("directories", (10, 1_000) if quick else (10, 100, 1_000, 10_000), of_directories)
    made["stack-in-order"] = lambda: of_stack(quick)
    made["stack-shuffled"] = lambda: of_stack(quick, is_shuffled=True)
    made["stack-without-files"] = lambda: of_stack_without_files(quick)
    made["stack-monorepo"] = lambda: of_stack_monorepo(scale)
    made["check-attr-in-order"] = lambda: of_check_attr(quick)
    made["check-attr-shuffled"] = lambda: of_check_attr(quick, is_shuffled=True)
    made["check-attr-all"] = lambda: of_check_attr(quick, what=" -a", words=("--stdin", "-a"), names=())
    made["check-attr-cached"] = lambda: of_check_attr(quick, CheckAttrOfIndex, " --cached", words=("--stdin", "--cached"))
    made["check-attr-bare"] = lambda: of_check_attr_bare(quick)
    made["check-attr-without-files"] = lambda: of_check_attr_without_files(quick)
    made["check-attr-one-path"] = lambda: CheckAttr("check-attr: a path", [("", inputs.TYPICAL.encode())], [], ["src/main.c"])
    made["check-attr-monorepo"] = lambda: of_check_attr_monorepo(scale)
    return made


class Bench:
    """A directory to work in, the program, and what the machine has beside it."""

    def __init__(self, program, room, options):
        self.program, self.room, self.runs, self.limit = program, Path(room), options.runs, options.limit
        self.git, self.valgrind, self.time = measure.has_git(), measure.has_valgrind(), measure.has_time()
        self.others = {"stack": str(Path(options.stack).resolve()), "check-attr": str(Path(options.check_attr).resolve())}
        self.differ = []

    def can(self, work):
        """Whether a workload can be measured: what reads a work tree needs its program, and git for the work tree."""
        return not work.reads_tree or self.git and os.access(self.others[work.program], os.X_OK)

    def repository(self, files, directories=()):
        """A git repository with these files in its directories, and with these directories."""
        directory = Path(tempfile.mkdtemp(dir=self.room))
        subprocess.run(["git", "init", "-q", str(directory)], check=True)
        for below in directories:
            (directory / below).mkdir(parents=True, exist_ok=True)
        for below, text in files:
            (directory / below).mkdir(parents=True, exist_ok=True)
            (directory / below / ".gitattributes").write_bytes(text)
        return directory

    def commands(self, work, files, paths, repository):
        """The program over the script of these files and paths, and git over the paths in that repository."""
        script = self.room / "script"
        before, work.files = work.files, files
        with open(script, "wb") as out:
            out.writelines(() if work.reads_tree else work.script(paths))
        work.files = before
        ours = Command([self.program], script)
        if not repository:
            return ours, None
        asked = self.room / "paths"
        asked.write_text("".join(path + "\n" for path in paths))
        if not work.reads_tree:
            return ours, Command(["git", "check-attr", "--stdin", *work.names], asked, repository)
        ours = Command([self.others[work.program], *work.words, *work.names], asked, repository)
        return ours, Command(["git", "check-attr", *work.git_words, *work.names], asked, repository)

    def instructions(self, work):
        """The instructions of both programs for a path."""
        if not self.valgrind or not work.is_counted:
            return None, None
        few, many, divisor = work.few_and_many_of_git()
        return self.difference(work, *work.runs(), 0), self.difference(work, (few, many), divisor, 1)

    def difference(self, work, runs, divisor, index):
        """The instructions of the program at an index of the pair, ours or git, for a path."""
        counts, repository = [], None
        for files, paths in runs:
            if (index or work.reads_tree) and self.git and (repository is None or files is not runs[0][0]):
                repository = self.repository(files, work.directories)
            counts.append(self.count(self.commands(work, files, paths, repository)[index]))
        return None if None in counts else statistics.median(more - less for less, more in zip(counts, counts[1:])) / divisor

    def count(self, command):
        try:
            return command and command.instructions(self.room, 20 * self.limit)
        except OverLimit:
            return None

    def peaks(self, name, pair):
        """The most memory that each run held; their answers are compared."""
        peaks, answers = [], [self.room / "answers-ours", self.room / "answers-git"]
        for command, told in zip(pair, answers):
            try:
                with open(told, "wb") as out:
                    peaks.append(command and command.peak(self.room, self.limit, out)[0])
            except OverLimit:
                peaks.append(None)
        if None not in peaks and not filecmp.cmp(*answers, shallow=False):
            self.differ.append(name)
            say(f"{name}: git answers otherwise")
        return peaks

    def row(self, name, work):
        counts = self.instructions(work)
        repository = self.repository(work.files, work.directories) if self.git else None
        if work.reads_tree:
            repository = work.prepare(repository)
        pair = self.commands(work, work.files, work.paths, repository)
        size = (self.room / "script").stat().st_size
        limits = [command and self.limit for command in pair]
        peaks = (None, None)
        if self.time:
            peaks = self.peaks(name, pair)
            pair = [command if peak else None for command, peak in zip(pair, peaks)]
        times = measure.alternating(pair, self.runs, self.limit)
        return Row(work, size, times, counts, peaks, limits)


class Row:
    """What was measured of a workload, ours before git's; None where it was not, or took more than the limit."""

    def __init__(self, work, size, times, counts, peaks, limits):
        self.work, self.size, self.times, self.counts, self.peaks, self.limits = work, size, times, counts, peaks, limits

    def cells(self):
        ours, git = self.times
        ratio = "" if None in (ours, git) else two_digits(ours / git)
        if ours is None and git:
            ratio = f"> {two_digits(self.limits[0] / git)}"
        title = self.work.title + ("; instructions a directory" if self.work.unit == "directory" else "")
        times = [self.time(index) for index in (0, 1)]
        counts = [three_digits(count) for count in self.counts]
        peaks = ["" if peak is None else f"{peak:,}" for peak in self.peaks]
        size = f"{math.ceil(self.size / 1024):,}" if self.size else ""
        return (title, f"{len(self.work.paths):,}", size, *times, ratio, *counts, *peaks)

    def time(self, index):
        if self.times[index] is None:
            return f"> {1000 * self.limits[index]:,.0f}" if self.limits[index] else ""
        return f"{1000 * self.times[index]:,.0f}"


def three_digits(number):
    if number is None:
        return ""
    if number < 1000:
        return f"{number:.0f}"
    unit = 10 ** (math.floor(math.log10(number)) - 2)
    return f"{round(number / unit) * unit:,}"


def two_digits(number):
    return f"{float(f'{number:.2g}'):g}"


def table(bench, options):
    rows = workloads(options.quick, options.scale or (1 / 60 if options.quick else 1))
    report = measure.Report("table", options.markdown, options.readme)
    report.head(HEAD, WIDTHS)
    for name, make in rows.items():
        if not measure.is_wanted(name, options.only):
            continue
        work = make()
        if bench.can(work):
            report.row(bench.row(name, work).cells(), WIDTHS)
        else:
            say(f"{name} is left out: there is no git, or no program {bench.others[work.program]}")
    report.line()
    report.line(f"Measured {measure.machine()}.")
    report.end()


def curves(bench, options):
    """Instructions a path over the number of lines, of each kind of pattern."""
    sizes = (10, 100, 1_000) if options.quick else (10, 32, 100, 316, 1_000, 3_162, 10_000)
    with open(CURVES, "w", encoding="ascii") as out:
        print("kind,lines,program,instructions", file=out)
        for kind in KINDS:
            for lines in sizes:
                work = of_kind(kind, lines, options.quick, max(1000, counted(lines)))
                for program, count in zip(("check_attr", "git"), bench.instructions(work)):
                    if count is not None:
                        print(f"{kind},{lines},{program},{count:.0f}", file=out, flush=True)
                say(f"{kind}, {lines:,} lines")
    print(f"{CURVES} is written. Measured {measure.machine()}.")


def main():
    options = argparse.ArgumentParser(description=__doc__, formatter_class=argparse.RawDescriptionHelpFormatter)
    options.add_argument("program", nargs="?", help="the program to measure")
    options.add_argument("--quick", action="store_true", help="smaller rows: some two minutes on a machine without other work")
    options.add_argument("--only", metavar="WORD,..", help="the rows that have one of the words in their names, as names,reading")
    options.add_argument("--markdown", action="store_true", help="print the table in Markdown")
    options.add_argument("--readme", action="store_true", help="the same, and put it into README.md")
    options.add_argument("--scale", type=float, help="the size of the made monorepo: 1 is a million paths")
    options.add_argument("--runs", type=int, default=5, help="how many runs a median is of")
    options.add_argument("--limit", type=int, default=120, help="the seconds after which a run is ended")
    options.add_argument("--stack", default=STACK, help="the program of the rows stack-.., clients/rust's example paths")
    options.add_argument("--check-attr", default=CHECK_ATTR, help="the program of the rows check-attr-..")
    options.add_argument("--curves", action="store_true", help="write path_cost.csv")
    options = options.parse_args()
    with tempfile.TemporaryDirectory() as room:
        bench = Bench(measure.program_of(options.program), room, options)
        (curves if options.curves else table)(bench, options)
    if bench.differ:
        sys.exit(f"git answers otherwise: {', '.join(bench.differ)}")


if __name__ == "__main__":
    main()
