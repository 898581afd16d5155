"""Runs programs, and measures them: processor time, peak memory, instructions."""
import os
import platform
import resource
import shutil
import signal
import statistics
import subprocess
import sys
import threading
import time
from pathlib import Path

BENCH = Path(__file__).resolve().parent
BUILT = BENCH.parent / "crates/check_attr_cli/out/check_attr_cli"
TIME = shutil.which("time") or "/usr/bin/time"

# What git may read beside the files of a workload: nothing of the machine's or the user's.
GIT_ENVIRONMENT = {
    "GIT_FLUSH": "0",
    "GIT_CONFIG_NOSYSTEM": "1",
    "GIT_ATTR_NOSYSTEM": "1",
    "HOME": "/nonexistent",
    "XDG_CONFIG_HOME": "/nonexistent",
}


def is_wanted(name, only):
    """Whether a row is asked for: a word with a digit at its end is a row's whole name, another one any part of it."""
    return not only or any(word == name if word[-1:].isdigit() else word in name for word in only.split(","))


class OverLimit(Exception):
    """A run took more processor time, time or memory than it may."""


def say(text):
    print(text, file=sys.stderr, flush=True)


def program_of(given):
    """The program to measure: the one that is given, or the one that the gate built."""
    program = Path(given).resolve() if given else BUILT
    if not os.access(program, os.X_OK):
        sys.exit(f"there is no program {program}: build it by `rt run` in crates/check_attr_cli, or give its path")
    return str(program)


def has_valgrind():
    if shutil.which("valgrind"):
        return True
    say("valgrind is not here (Debian: apt-get install valgrind): no instructions are counted")
    return False


def has_git():
    if shutil.which("git"):
        return True
    say("git is not here: it is left out")
    return False


def has_time():
    if os.access(TIME, os.X_OK):
        return True
    say("GNU time is not here (Debian: apt-get install time): no memory is measured")
    return False


class Command:
    """A program with its arguments, the directory it runs in, and the file that it reads."""

    def __init__(self, words, given, directory=None):
        self.words, self.given, self.directory = [str(word) for word in words], given, directory

    def _run(self, words, limit, out=subprocess.DEVNULL, memory=None):
        """Runs it to its end. Returns the resources that it used, as the system counted them."""

        def restrict():
            if limit:
                resource.setrlimit(resource.RLIMIT_CPU, (int(limit) + 1, int(limit) + 1))
            if memory:
                resource.setrlimit(resource.RLIMIT_AS, (memory, memory))

        with open(self.given, "rb") as given:
            child = subprocess.Popen(
                words, stdin=given, stdout=out, stderr=subprocess.PIPE, cwd=self.directory,
                env={**os.environ, **GIT_ENVIRONMENT}, preexec_fn=restrict, start_new_session=True,
            )
        # A machine with other work gives a run less than a processor.
        clock = threading.Timer(4 * limit + 10 if limit else 86_400, os.killpg, (child.pid, signal.SIGKILL))
        clock.start()
        try:
            with child.stderr:
                told = child.stderr.read()
            _, status, used = os.wait4(child.pid, 0)
        except KeyboardInterrupt:
            os.killpg(child.pid, signal.SIGKILL)
            raise
        finally:
            clock.cancel()
        child.returncode = os.waitstatus_to_exitcode(status)
        if child.returncode in (-signal.SIGKILL, -signal.SIGXCPU, 128 + signal.SIGKILL, 128 + signal.SIGXCPU):
            raise OverLimit("time")
        if memory and b"out of memory" in told:
            raise OverLimit("memory")
        if child.returncode:
            sys.exit(f"{' '.join(words)} < {self.given}: status {child.returncode}\n{told.decode(errors='replace')}")
        return used

    def seconds(self, limit=None, memory=None):
        """The processor time of a run, of the system for it included."""
        used = self._run(self.words, limit, memory=memory)
        return used.ru_utime + used.ru_stime

    def peak(self, room, limit=None, out=subprocess.DEVNULL, memory=None):
        """The most kilobytes that a run held, and its processor time.

        GNU time tells it: the system counts a child of this process as large as this process is.
        """
        told = Path(room) / "peak"
        used = self._run([TIME, "-q", "-f", "%M", "-o", str(told), *self.words], limit, out, memory)
        return int(told.read_text().split()[-1]), used.ru_utime + used.ru_stime

    def instructions(self, room, limit=None):
        """The instructions of a run, as callgrind counts them: the same at each run, within a hundredth."""
        told = Path(room) / "callgrind"
        self._run(["valgrind", "-q", "--tool=callgrind", f"--callgrind-out-file={told}", *self.words], limit)
        with open(told, encoding="utf-8", errors="replace") as lines:
            for line in lines:
                if line.startswith(("summary:", "totals:")):
                    return int(line.split()[1])
        sys.exit(f"callgrind counted nothing for {' '.join(self.words)}")


def alternating(commands, runs, limit):
    """The median processor time of each command, run in turn. Runs of more than a few seconds are not made again."""
    times = [[] for _ in commands]
    for _ in range(runs):
        for command, own in zip(commands, times):
            if command is None or own == [None]:
                continue
            try:
                own.append(command.seconds(limit))
            except OverLimit:
                own[:] = [None]
        if max((own[-1] or limit for own in times if own), default=0) > 20:
            break
    return [statistics.median(own) if own and own[0] is not None else None for own in times]


class Report:
    """Lines that are printed as they come; of those in Markdown, README.md can be given a copy, between its marks."""

    def __init__(self, block, markdown, readme):
        self.block, self.markdown, self.readme, self.lines = block, markdown or readme, readme, []

    def line(self, text=""):
        print(text, flush=True)
        self.lines.append(text)

    def row(self, cells, widths):
        """Cells of these widths, those of a negative width to the left."""
        if self.markdown:
            return self.line("| " + " | ".join(cells) + " |")
        self.line("".join(f"{cell:<{-width}}" if width < 0 else f"{cell:>{width}}" for cell, width in zip(cells, widths)))

    def head(self, cells, widths):
        self.row(cells, widths)
        if self.markdown:
            self.line("|" + "|".join("---" if width < 0 else "--:" for width in widths) + "|")

    def end(self):
        if self.readme:
            readme = BENCH / "README.md"
            marks = [f"<!-- {self.block} -->\n", f"<!-- end of {self.block} -->"]
            before, rest = readme.read_text().split(marks[0])
            after = rest.split(marks[1])[1]
            readme.write_text(before + marks[0] + "\n".join(self.lines) + "\n" + marks[1] + after)


def machine():
    """A line that says what was measured, and on what."""
    model = platform.processor() or platform.machine()
    try:
        for line in open("/proc/cpuinfo", encoding="utf-8"):
            if line.startswith("model name"):
                model = line.split(":", 1)[1].strip()
                break
    except OSError:
        pass

    def told(*words):
        try:
            return subprocess.run(words, capture_output=True, text=True, check=True, cwd=BENCH).stdout.strip()
        except (OSError, subprocess.CalledProcessError):
            return ""

    commit = told("git", "rev-parse", "--short", "HEAD")
    parts = [time.strftime("%Y-%m-%d"), commit and f"commit {commit}", model,
             f"{os.cpu_count()} processors", "load %.1f" % os.getloadavg()[0], told("git", "--version"),
             told("valgrind", "--version")]
    return ", ".join(part for part in parts if part)
