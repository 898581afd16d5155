#!/usr/bin/env python3
"""Measures inputs that were made to hold the program, or to take its memory, at n, 2n and 4n.

usage: hostile.py [PROGRAM] [--only WORD,..] [--markdown] [--readme] [--scale F] [--limit SECONDS] [--memory MB]

PROGRAM is crates/check_attr_cli/out/check_attr_cli if none is given. 4n is some 2 MB of input, or what --scale makes of it. A run
is ended after the limit of processor time (10 s), and may take no more memory than 4,096 MB. If n alone takes more, the row is
measured at n/8, n/4 and n/2 (the mark says n/8), or at an eighth of these. Columns:

  input, output  the kilobytes of both at the greatest size that ended
  seconds        processor time at n, 2n and 4n, less that of an empty script; the least of three runs where they are short
  power          of the bytes of input and output, with which the time grows: 1 is linear, 2 quadratic
  memory         the most that the greatest run held, and its bytes for each byte of input

A row is marked with ! if it takes more than half a second for 2 MB of input and output, or if the power is above 1.3 and the
time above 50 ms; status 1 says that some row is marked.

In Markdown there are fewer columns: of the greatest size that ended, and the mark tells which one did not. Rows that aren't marked
have to take 0.3 s for 2 MB, or 100 bytes for a byte of input; a line tells the most of all others.
"""
import argparse
import functools
import math
import random
import shutil
import string
import subprocess
import sys
import tempfile
from pathlib import Path

import measure
from measure import Command, OverLimit

HEAD = ("case", "what", "input, KB", "output", "n: seconds", "2n", "4n", "power", "memory, KB", "a byte", "")
WIDTHS = (-26, -100, 11, 9, 12, 10, 10, 7, 12, 8, 7)
BRIEF = ("case", "what", "KB", "seconds", "power", "a byte", "")
BRIEF_WIDTHS = (-1, -1, 1, 1, 1, 1, -1)
CASES = {}


class Case:
    def __init__(self, make, size, arguments):
        self.make, self.size, self.arguments = make, size, arguments
        self.name = make.__name__.replace("_", "-")
        self.what = make.__doc__.strip()


def case(size, arguments=()):
    """A function that makes the input of this size n."""

    def note(make):
        CASES[make.__name__.replace("_", "-")] = Case(make, size, arguments)
        return make

    return note


# Records of a script, and files of lines.

def add(text, source="x", macros=True, root=""):
    return b"add %s %d %d %d\n%s%s%s\n" % (
        b"m" if macros else b"-", len(source), len(root), len(text), source.encode(), root.encode(), text)


def select(names):
    return b"names %d\n%s" % (len(names), "".join(name + "\n" for name in names).encode())


def ask(path, form="l", case="s"):
    return b"ask %s %s f %d\n%s\n" % (form.encode(), case.encode(), len(path), path.encode())


def lines(count, form):
    """A file of lines; a # stands for the number of the line."""
    return "".join(form.replace("#", str(index)) + "\n" for index in range(count)).encode()


def words(count, form="a#"):
    return " ".join(form.replace("#", str(index)) for index in range(count))


def spelling(number, length):
    """A spelling of one name by capitals and small letters, by the bits of a number."""
    return "".join(chr(65 + at | (number >> at & 1) << 5) for at in range(length))


POP = b"pop\n"


# What is only read.

@case(2 ** 18)
def bracket_classes(n):
    """a pattern of `[` and n times `[:`"""
    return add(b"[" + b"[:" * n + b" a\n")


@case(2 ** 18)
def bracket_classes_closed(n):
    """a pattern of `[`, n times `[:`, and `x]`"""
    return add(b"[" + b"[:" * n + b"x] a\n")


@case(2 ** 19)
def brackets(n):
    """a pattern of n times `[`"""
    return add(b"[" * n + b" a\n")


@case(2 ** 18)
def stars(n):
    """a pattern of n times `*a`"""
    return add(b"*a" * n + b" a\n")


@case(2 ** 17)
def directory_stars(n):
    """a pattern of n times `**/`"""
    return add(b"**/" * n + b"a a\n")


@case(2 ** 18)
def quote(n):
    """a quoted pattern of n escapes"""
    return add(b'"' + b'\\"' * n + b'" a\n')


@case(2 ** 18)
def open_quote(n):
    """a quoted pattern of n escapes without its last quote"""
    return add(b'"' + b'\\"' * n + b" a\n")


@case(2 ** 14)
def broken_quotes(n):
    """n lines of a quote that isn't closed"""
    return add(lines(n, '"' + "a" * 25 + " a"))


MULTIPLIER, SEED, LOW = 0x9E37_79B9_7F4A_7C15, 0x243F_6A88_85A3_08D3, 2 ** 64 - 1
LETTERS = string.ascii_letters + string.digits


@functools.lru_cache(None)
def cancelling():
    """16 letters, and 8 that are what a hasher that multiplies blocks of 16 bytes is at after them.

    The block that begins with the 8 makes a factor 0, so that the hasher is at 0 after it, whatever its other 8 bytes are.
    """
    chance = random.Random("cancelling")
    while True:
        block = "".join(chance.choices(LETTERS, k=16)).encode()
        low, high = (int.from_bytes(block[at:at + 8], "little") for at in (0, 8))
        product = (low ^ SEED + 48) * (high ^ MULTIPLIER)
        state = (product & LOW ^ product >> 64).to_bytes(8, "little")
        if all(chr(byte) in LETTERS for byte in state):
            return (block + state).decode()


def crowd(n):
    """n names of 48 bytes that share one hash of std's fast hasher."""
    front = cancelling()
    return ["%s%08d%s" % (front, index, "A" * 16) for index in range(n)]


@case(10_500)
def colliding_names(n):
    """a line of n names of 48 bytes, made to have one hash"""
    return add(b"* " + " ".join(crowd(n)).encode() + b"\n")


@case(10_500)
def crowded_names(n):
    """n plain names that share the hash by which they are looked up, and 2,000 paths"""
    names = crowd(n)
    asks = (ask(name) for name in names[:2_000])
    return add("".join(name + " a\n" for name in names).encode()) + b"".join(asks)


class CannotMake(Exception):
    """The input of a case can't be made here, for this reason."""


def names_of_one_bucket(n):
    """n names of six bytes that share one of 8,192 buckets of a table by std's hash, made in some 10 s for 270,000."""
    if not shutil.which("cc"):
        raise CannotMake("there is no cc, the C compiler that crowd.c needs")
    with tempfile.TemporaryDirectory() as room:
        crowd = Path(room) / "crowd"
        subprocess.run(["cc", "-O3", "-o", crowd, Path(__file__).with_name("crowd.c")], check=True)
        return subprocess.run([crowd, str(n), "13"], stdout=subprocess.PIPE, check=True).stdout.decode().split()


@case(67_500)
def crowded_attributes(n):
    """a line of n names that share a bucket of a table by std's hash"""
    return add(b"* " + " ".join(names_of_one_bucket(n)).encode() + b"\n")


@case(67_500)
def scattered_attributes(n):
    """a line of n other names of six bytes, in no order"""
    chance = random.Random("scattered")
    names = {"".join(chance.choices(string.ascii_letters + string.digits, k=6)): None for _ in range(n)}
    return add(b"* " + " ".join(names).encode() + b"\n")


@case(10_500)
def long_names(n):
    """a line of n other names of 48 bytes"""
    return add(b"* " + " ".join("%024d%08d%s" % (index * 7, index, "A" * 16) for index in range(n)).encode() + b"\n")


@case(9_500)
def like_values(n):
    """n values of 48 bytes that end and begin alike, and one path"""
    front = cancelling()
    values = " ".join("a%d=%s%08d%s" % (index, front, index, "A" * 16) for index in range(n))
    return add(b"* " + values.encode() + b"\n") + ask("b")


@case(2 ** 15, ["--lines"])
def lines_told(n):
    """n lines for `--lines`"""
    return lines(n, "*.c text a#")


# Lists that come and go.

@case(30_000)
def macros_twice(n):
    """two lists of n lines `[attr]m`, one pop"""
    return 2 * add(b"[attr]m\n" * n) + POP


@case(20_000)
def macro_lists(n):
    """n lists of `[attr]m`, n pops"""
    return add(b"[attr]m\n") * n + POP * n


@case(13_000)
def macro_lists_again(n):
    """n lists of `[attr]m`, then n times one more and a pop"""
    return add(b"[attr]m\n") * n + (add(b"[attr]m\n") + POP) * n


@case(27_000)
def lists(n):
    """n lists of `* a`"""
    return add(b"* a\n") * n


@case(23_000)
def lists_popped(n):
    """n lists of `* a`, n pops"""
    return add(b"* a\n") * n + POP * n


@case(27_000)
def lists_asked(n):
    """n lists of `* a`, and one path"""
    return add(b"* a\n") * n + ask("b")


@case(13_000)
def new_names(n):
    """n times: a list with a new name, its pop, a path"""
    return b"".join(add(b"x a%d\n" % index) + POP + ask("b") for index in range(n))


@case(14_000)
def known_names(n):
    """n names known, then n times: an empty list, its pop, a path"""
    return add(b"x " + words(n).encode() + b"\n") + (add(b"") + POP + ask("b")) * n


@case(22_000)
def known_names_asked(n):
    """n names known, then n paths that no line matches"""
    return add(b"x " + words(n).encode() + b"\n") + ask("b") * n


@case(13_000)
def new_names_selected(n):
    """a name selected, then n times: a list with a new name, its pop, a path"""
    return select(["b"]) + new_names(n)


@case(18_000)
def selections(n):
    """n names known, then n times: a selection of one, a path"""
    return add(b"x " + words(n).encode() + b"\n") + b"".join(select(["a%d" % index]) + ask("b") for index in range(n))


@case(8_000)
def directories(n):
    """n lists of n directories, and a path in each"""
    return b"".join(add(b"* a\n", f"f{index}/x") for index in range(n)) + b"".join(
        ask(f"f{index}/b") for index in range(n))


@case(8_000)
def directories_folded(n):
    """the same, asked without regard to case"""
    return b"".join(add(b"* a\n", f"f{index}/x") for index in range(n)) + b"".join(
        ask(f"F{index}/b", case="i") for index in range(n))


@case(2 ** 18)
def deep_path(n):
    """ten paths of n directories together, three lists above them"""
    path = "a/" * (n // 10) + "b"
    return add(b"*.c a\n") + add(b"b a\n", "a/x") + add(b"a/b a\n", "a/a/a/x") + ask(path) * 10


@case(2 ** 18)
def deep_lists(n):
    """lists of directories in directories, n bytes together, and a path below all"""
    deep = math.isqrt(n)
    return b"".join(add(b"* a\n", "a/" * index + "x") for index in range(deep)) + ask("a/" * deep + "b")


# What is asked.

@case(30_000)
def causes(n):
    """n answers that the last of n names causes, in the form o"""
    names = words(n).encode()
    return add(b"x " + names + b"\n[attr]z " + names + b"\n* z\n") + ask("b", "o")


@case(30_000)
def causes_in_a_chain(n):
    """a chain of n macros, in the form o"""
    return add("".join(f"[attr]a{index} a{index + 1}\n" for index in range(n)).encode() + b"* a0\n") + ask("b", "o")


@case(30_000)
def ring(n):
    """a ring of n macros"""
    return add("".join(f"[attr]a{index} a{(index + 1) % n}\n" for index in range(n)).encode() + b"* a0\n") + ask("b")


@case(2 ** 17)
def lengths_of_suffixes(n):
    """2 sqrt(n) suffixes of as many lengths, n lines `? a`, and one path"""
    longest = 2 * math.isqrt(n)
    text = "".join("*" + "a" * index + " a\n" for index in range(1, longest)) + "? a\n" * n
    return add(text.encode()) + ask("a" * longest)


@case(2 ** 18)
def suffixes_passed(n):
    """suffixes `*a`, `*aa`, .. of n bytes, and paths `za` of as many"""
    text = "".join("*" + "a" * index + " a\n" for index in range(1, math.isqrt(2 * n)))
    return add(text.encode()) + ask("za") * (n // 16)


@case(2 ** 18)
def prefixes_passed(n):
    """prefixes `a*`, `aa*`, .. of n bytes, and paths `az` of as many"""
    text = "".join("a" * index + "* a\n" for index in range(1, math.isqrt(2 * n)))
    return add(text.encode()) + ask("az") * (n // 16)


@case(2 ** 18)
def prefixes_of_paths_passed(n):
    """prefixes `a/*`, `a/a/*`, .. of n bytes, and paths `a/z/b` of as many"""
    text = "".join("a/" * index + "* a\n" for index in range(1, math.isqrt(n)))
    return add(text.encode()) + ask("a/z/b") * (n // 20)


@case(4_500)
def long_paths(n):
    """n whole paths of 60 bytes that differ at their ends, and as many asked"""
    form = "assets/" * 7 + "%07d.bin"
    text = "".join(form % index + " a\n" for index in range(n))
    return add(text.encode()) + b"".join(ask(form % (2 * index)) for index in range(n))


@case(7_000)
def capitals(n):
    """n names that differ in case alone, and as many asked with regard to it"""

    names = [spelling(index, 20) for index in range(n)]
    return add("".join(name + " a\n" for name in names).encode()) + b"".join(map(ask, names))


@case(40_000)
def one_suffix(n):
    """n lines `*.c` that set different names, and one path"""
    return add(lines(n, "*.c a#")) + ask("b.c")


@case(2 ** 18)
def long_base_name(n):
    """1,000 lines of suffixes, and ten paths of n bytes together"""
    return add(b"".join(b"*%s%d a\n" % (b"a" * (index % 100), index) for index in range(1000))) + ask("a" * (n // 10)) * 10


@case(2 ** 19)
def long_value(n):
    """a value of n bytes that decides and isn't shown, and 2,000 paths"""
    return add(b"* b\n* a=" + b"v" * n + b"\n") + select(["b"]) + ask("c") * 2000


@case(2 ** 19)
def long_pattern(n):
    """a pattern of n bytes that decides and isn't shown, and 2,000 paths"""
    return add(b"* b\n[" + b"ab" * (n // 2) + b"c] a\n") + select(["b"]) + ask("c") * 2000


@case(2 ** 18)
def long_patterns_in_turn(n):
    """two patterns of n bytes, 1,024 lines apart, that decide in turn and aren't shown, and 2,000 paths"""
    front = b"[" + b"ab" * (n // 2)
    lines = b"* b\n" + front + b"c] a\n" + b"\n" * 1_023 + front + b"d] a\n"
    return add(lines) + select(["b"]) + (ask("c") + ask("d")) * 1_000


@case(2 ** 18)
def long_sources_in_turn(n):
    """two lists with sources of n bytes that decide in turn and aren't shown, and 2,000 paths"""
    source = "x" * n
    lists = add(b"* b\n") + add(b"c a\n", source + "c") + add(b"d a\n", source + "d")
    return lists + select(["b"]) + (ask("c") + ask("d")) * 1_000


@case(2 ** 18)
def long_lines_asked(n):
    """lines of items `!a#` that match, each of 2,047 bytes, n bytes together, and 20 paths"""
    items = (f" !a{index:05x}" for index in range(n // 8))
    text = "".join("*" + "".join(next(items) for _ in range(255)).ljust(2046) + "\n" for _ in range(n // 2048))
    return add(text.encode()) + ask("b") * 20


@case(2 ** 18)
def stars_asked(n):
    """lines `*b*a x`, n bytes together, and ten paths of 4,095 bytes `a`"""
    return add(b"*b*a x\n" * (n // 7)) + ask("a" * 4_095) * 10


@case(2 ** 18)
def stretches_asked(n):
    """lines `*a?b*a x`, n bytes together, and ten paths of 4,095 bytes `a`"""
    return add(b"*a?b*a x\n" * (n // 9)) + ask("a" * 4_095) * 10


# Products: both factors grow with n.

@case(8_700)
def macros_between(n):
    """n macros, then n times: an empty list, a path, its pop, a path"""
    return add(lines(n, "[attr]m# x")) + (add(b"") + ask("b") + POP + ask("b")) * n


@case(9_500)
def body_between(n):
    """a macro of n items, then n times: an empty list, a path, its pop, a path"""
    return add(b"[attr]m " + words(n).encode() + b"\n") + (add(b"") + ask("b") + POP + ask("b")) * n


@case(18_000)
def idle_lists_asked(n):
    """n lists without lines, and n paths"""
    return add(b"") * n + ask("b") * n


@case(14_000)
def macro_lists_asked(n):
    """n lists of `[attr]m`, and n paths"""
    return add(b"[attr]m\n") * n + ask("b") * n


@case(7_000)
def spellings_of_a_directory(n):
    """n lists in spellings of one directory that differ in case, and n paths below another one"""
    lists = (add(b"* a\n", spelling(index, 18) + "/x") for index in range(n))
    return b"".join(lists) + ask(spelling(2 ** 18 - 1, 18) + "/b") * n


@case(2 ** 18)
def long_pattern_asked(n):
    """a pattern of n bytes that decides, and n / 14 paths"""
    return add(b"[" + b"ab" * (n // 2) + b"c] a\n") + ask("c") * (n // 14)


@case(2 ** 18)
def long_source_asked(n):
    """a source of n bytes that decides, and n / 14 paths"""
    return add(b"* a\n", "x" * n) + ask("c") * (n // 14)


@case(5_000)
def lists_long_name(n):
    """n lists of nine lines `*.a x`, and a name of 32 n bytes"""
    return add(b"*.a x\n" * 9) * n + ask("b" * (32 * n))


@case(5_000)
def lists_long_extension(n):
    """the same, and a name whose extension has 32 n bytes"""
    return add(b"*.a x\n" * 9) * n + ask("." + "b" * (32 * n))


@case(5_000)
def lists_long_path(n):
    """n lists of nine lines `/a x`, and a path of 32 n bytes"""
    return add(b"/a x\n" * 9) * n + ask("b/" * (16 * n) + "b")


@case(5_000)
def lists_long_path_folded(n):
    """n lists of nine lines `a/b* x`, and a path of 32 n bytes, without regard to case"""
    return add(b"a/b* x\n" * 9) * n + ask("B/" * (16 * n) + "b", case="i")


@case(25_000)
def items_asked(n):
    """a line of n items `!a#`, and n paths"""
    return add(b"* " + words(n, "!a#").encode() + b"\n") + ask("b") * n


@case(13_000)
def selections_of_macros(n):
    """n macros, then n times: a selection of one, a path"""
    return add(lines(n, "[attr]m# x")) + b"".join(select([f"m{index}"]) + ask("b") for index in range(n))


# What is written.

@case(1_250)
def answers(n):
    """n names selected, and n / 5 paths"""
    return select([f"a{index}" for index in range(n)]) + ask("some/path/of/a/file") * (n // 5)


@case(1_250)
def answers_of_one(n):
    """n names selected, and a path of 8 n bytes"""
    return select([f"a{index}" for index in range(n)]) + ask("a" * (8 * n))


@case(1_250)
def dropped(n):
    """n dropped lines, of a source of 8 n bytes"""
    return add(b"!b a\n" * n, "x" * (8 * n))


# What is kept.

@case(2 ** 18)
def short_lines(n):
    """n lines `?`"""
    return add(b"?\n" * n)


@case(2 ** 18)
def short_lines_and_one(n):
    """n lines `?`, and `* a`"""
    return add(b"?\n" * n + b"* a\n")


@case(2 ** 19)
def empty_names(n):
    """n empty names selected"""
    return select([""] * n)


@case(2 ** 17)
def lines_of_one_name(n):
    """n lines `* a`"""
    return add(b"* a\n" * n)


@case(2 ** 15)
def lines_of_16_bytes(n):
    """n lines `*.e0000000 text`"""
    return add(b"".join(b"*.e%07d text\n" % index for index in range(n)))


@case(2 ** 14)
def lines_of_a_path(n):
    """n lines of a path of 26 bytes and `text`"""
    return add(b"".join(b"assets/level/t%07d.psd text\n" % index for index in range(n)))


@case(80_000)
def names_of_a_line(n):
    """a line of n names"""
    return add(b"* " + words(n).encode() + b"\n")


@case(80_000)
def body(n):
    """a macro of n items"""
    return add(b"[attr]m " + words(n).encode() + b"\n")


class Bench:
    def __init__(self, program, room, options):
        self.program, self.room, self.limit, self.memory = program, Path(room), options.limit, options.memory * 2 ** 20
        self.start = 0
        self.start = min(self.run(b"", [])[2] for _ in range(5))

    def run(self, text, arguments):
        """The bytes that were written, the peak memory in KB, and the processor time."""
        given, told = self.room / "given", self.room / "told"
        given.write_bytes(text)
        command = Command([self.program, *arguments], given)
        with open(told, "wb") as out:
            peak, seconds = command.peak(self.room, self.limit, out, self.memory)
        if seconds < 0.5:
            seconds = min([seconds, *(command.seconds(self.limit, self.memory) for _ in range(2))])
        return told.stat().st_size, peak, max(0.001, seconds - self.start)

    def row(self, case, scale):
        """The row at n, 2n and 4n; if the first of them takes too much, at an eighth of n, and then at an eighth of that."""
        for part in (1, 8, 64):
            runs, seconds = self.sizes(case, scale / part)
            if runs:
                break
        return Row(case, runs, seconds, part)

    def sizes(self, case, scale):
        runs, seconds = [], []
        for factor in (1, 2, 4):
            text = case.make(max(1, int(case.size * scale * factor)))
            try:
                written, peak, time = self.run(text, case.arguments)
            except OverLimit as over:
                seconds.append(f"> {self.limit}" if str(over) == "time" else "no memory")
                break
            runs.append((len(text), written, peak, time))
            seconds.append(f"{time:.3f}" if time < 1 else f"{time:.1f}")
        return runs, seconds + [""] * (3 - len(seconds))


class Row:
    def __init__(self, case, runs, seconds, part):
        self.case, self.runs, self.seconds, self.part = case, runs, seconds, part

    def power(self):
        if len(self.runs) < 2:
            return None
        (first, then, _, before), (last, later, _, after) = self.runs[0], self.runs[-1]
        return math.log(after / before) / math.log((last + later) / (first + then))

    def is_marked(self):
        if len(self.runs) < 3 or self.part > 1:
            return True
        return self.for_two_mb() > 0.5 or self.power() > 1.3 and self.runs[-1][3] > 0.05

    def is_dear(self):
        return self.is_marked() or self.for_two_mb() >= 0.3 or self.a_byte() >= 100

    def for_two_mb(self):
        """The seconds of the greatest run, or those of 2 MB if it has more."""
        given, written, _, time = self.runs[-1]
        return time / max(1, (given + written) / 2e6)

    def a_byte(self):
        """The memory of the greatest run for each byte of its input."""
        given, _, peak, _ = self.runs[-1]
        return 1024 * peak / given

    def cells(self):
        given, written, peak, _ = self.runs[-1] if self.runs else (0, 0, 0, 0)
        sizes = [f"{size / 1024:,.0f}" if given else "" for size in (given, written)]
        memory = [f"{peak:,}", f"{self.a_byte():,.0f}"] if given else ["", ""]
        return (self.case.name, self.case.what, *sizes, *self.seconds, self.told_power(), *memory, self.mark())

    def brief(self):
        """The cells in Markdown."""
        if not self.runs:
            return (self.case.name, self.case.what, "", "", "", "", f"{self.mark()}, n: {self.seconds[0]}")
        given, written, _, _ = self.runs[-1]
        ended = len(self.runs)
        over = f", {2 ** ended}n: {self.seconds[ended]}" if ended < 3 else ""
        return (self.case.name, self.case.what, f"{(given + written) / 1024:,.0f}", self.seconds[ended - 1], self.told_power(),
                f"{self.a_byte():,.0f}", self.mark() + over)

    def told_power(self):
        return "" if self.power() is None else f"{self.power():.1f}"

    def mark(self):
        if not self.is_marked():
            return ""
        return f"! n/{self.part}" if self.part > 1 else "!"


def main():
    options = argparse.ArgumentParser(description=__doc__, formatter_class=argparse.RawDescriptionHelpFormatter)
    options.add_argument("program", nargs="?", help="the program to measure")
    options.add_argument("--only", metavar="WORD,..", help="the cases that have one of the words in their names")
    options.add_argument("--markdown", action="store_true", help="print the table in Markdown")
    options.add_argument("--readme", action="store_true", help="the same, and put it into README.md")
    options.add_argument("--scale", type=float, default=1, help="a factor on n")
    options.add_argument("--limit", type=int, default=10, help="the seconds after which a run is ended")
    options.add_argument("--memory", type=int, default=4096, help="the megabytes that a run may take")
    options = options.parse_args()
    if not measure.has_time():
        sys.exit(2)
    rows = []
    report = measure.Report("hostile", options.markdown, options.readme)
    with tempfile.TemporaryDirectory() as room:
        bench = Bench(measure.program_of(options.program), room, options)
        head, widths = (BRIEF, BRIEF_WIDTHS) if report.markdown else (HEAD, WIDTHS)
        report.head(head, widths)
        for name, made in CASES.items():
            if measure.is_wanted(name, options.only):
                try:
                    row = bench.row(made, options.scale)
                except CannotMake as why:
                    report.line(f"{name} is not measured: {why}.")
                    continue
                rows.append(row)
                if not report.markdown or row.is_dear():
                    report.row(row.brief() if report.markdown else row.cells(), widths)
    report.line()
    others = [row for row in rows if not row.is_dear()]
    if report.markdown and others:
        most = max(map(Row.for_two_mb, others)), max(map(Row.a_byte, others))
        report.line(f"{len(others)} others take at most {most[0]:.2f} s for 2 MB, and {most[1]:.0f} bytes of memory for a byte of input.")
        report.line()
    marked = sum(map(Row.is_marked, rows))
    report.line(f"{marked} cases are marked. Measured {measure.machine()}.")
    report.end()
    sys.exit(1 if marked else 0)


if __name__ == "__main__":
    main()
