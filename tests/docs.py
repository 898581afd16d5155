#!/usr/bin/env python3
"""Runs the commands of the pages, and compares what they print with what the pages show.

An `sh` block is run by sh from the top of the repository, and has to end with status 0. If a `text` block follows in the same
section, it is what the commands write to standard output. A `text` block without commands is the contents of a file
examples/*.answers. A `rust` block is a part of a program examples/*.rt.in, which examples/run.sh runs, or of an example of the Rust
package. Links lead to files and headings that are there, and the README has at most 130 lines of at most 120 columns.

Directories below /tmp are made in a directory of their own for each page. There /tmp/yektrod is the directory of tools/c-library that
YEKTROD_DIRECTORY names; without it blocks that use the library are left out, which is reported. Nothing is proved: `rt run <
stdin` is answered by the program that the gate has built, and blocks with other commands that prove are left out, which is
reported. The pages are read side by side, in some two minutes: `rt try` takes most of that.

usage: docs.py [--top DIRECTORY] [PAGE..], all pages without any
With --top the pages are those of a directory, as of a release, and begin there.
"""
import argparse
import concurrent.futures
import glob
import os
import re
import shutil
import subprocess
import sys
import tempfile
import textwrap

OURS = os.path.realpath(os.path.join(os.path.dirname(os.path.abspath(__file__)), '..'))
PARSER = argparse.ArgumentParser(usage=__doc__)
PARSER.add_argument('--top', default=OURS)
PARSER.add_argument('pages', nargs='*')
ARGUMENTS = PARSER.parse_args()
TOP = os.path.realpath(ARGUMENTS.top)
PROGRAM = 'crates/check_attr_cli/out/check_attr_cli'
RUST = 'clients/rust/yektrod/examples'
WITH_COMMANDS = ['README.md', 'CONTRIBUTING.md', 'docs/SCRIPT.md', 'docs/LIBRARY.md', 'docs/FROM_GITOXIDE.md',
                 'docs/CHECK_ATTR.md', 'docs/C.md', 'docs/PYTHON.md', 'docs/RUST.md', 'examples/README.md']
# What proves, and so takes too long here. The gate itself runs all but most wrong bodies.
PROVES = re.compile(r'\brt (run|ci|check|test|lib|verdict|all|must-fail|plant|tidy|names)\b|\.ci/run|mutants\.py')
SECONDS = 900
LIBRARY = os.environ.get('YEKTROD_DIRECTORY')


class Block:
    """A fenced block: its language, its text, the line that it begins in, and the heading that it follows."""

    def __init__(self, language, text, line, heading):
        self.language, self.text, self.line, self.heading = language, text, line, heading


def blocks_of(page):
    found, heading, opened = [], 0, None
    for number, line in enumerate(read(page).split('\n'), 1):
        if line.startswith('```'):
            if opened:
                found.append(Block(opened[0], ''.join(opened[2]), opened[1], heading))
                opened = None
            else:
                opened = (line[3:].strip(), number, [])
        elif opened:
            opened[2].append(line + '\n')
        elif line.startswith('#'):
            heading = number
    return found


def read(path):
    with open(os.path.join(TOP, path), encoding='utf-8') as file:
        return file.read()


def examples(ending, directory='examples'):
    names = sorted(it for it in os.listdir(os.path.join(TOP, directory)) if it.endswith(ending))
    return {name: read(os.path.join(directory, name)) for name in names}


class Checks:
    """What was wrong, and what was looked at."""

    def __init__(self):
        self.wrong, self.ran, self.compared, self.left_out = [], 0, 0, 0

    def fail(self, page, line, words):
        self.wrong.append('%s:%d: %s' % (page, line, words))
        print('docs: ' + self.wrong[-1], file=sys.stderr, flush=True)

    def page(self, page):
        room, last = tempfile.mkdtemp(), None
        if LIBRARY:
            os.symlink(os.path.realpath(LIBRARY), os.path.join(room, 'yektrod'))
        for block in blocks_of(page):
            if block.language == 'sh':
                self.run(page, block, room)
                last = block
            elif block.language == 'text':
                self.text(page, block, last)
                last = None
            elif block.language == 'rust':
                self.code(page, block)
        shutil.rmtree(room)

    def run(self, page, block, room):
        block.output = None
        commands = block.text.replace('rt run < stdin', 'out/check_attr_cli < stdin')
        if PROVES.search(commands):
            self.leave_out(page, block, 'it proves')
            return
        if 'dist/yektrod-' in commands and not glob.glob('dist/yektrod-*'):
            self.leave_out(page, block, 'there is no release in dist')
            return
        if not LIBRARY and '/tmp/yektrod/' in commands:
            self.leave_out(page, block, 'YEKTROD_DIRECTORY names no library for C')
            return
        try:
            done = subprocess.run(['sh', '-c', commands.replace('/tmp/', room + '/')], cwd=TOP, env=environment(room),
                                  stdin=subprocess.DEVNULL, stdout=subprocess.PIPE, stderr=subprocess.PIPE, timeout=SECONDS)
        except subprocess.TimeoutExpired:
            self.fail(page, block.line, 'the commands have not ended after %d seconds' % SECONDS)
            return
        self.ran += 1
        block.output = done.stdout.decode('utf-8', 'replace').replace(room + '/', '/tmp/')
        block.errors = done.stderr.decode('utf-8', 'replace')
        if done.returncode != 0:
            self.fail(page, block.line, 'status %d\n%s%s' % (done.returncode, block.output, block.errors))

    def leave_out(self, page, block, why):
        self.left_out += 1
        print('docs: %s:%d is left out, since %s: %s' % (page, block.line, why, block.text.split('\n')[0]))

    def text(self, page, block, commands):
        if commands is None or commands.heading != block.heading:
            if block.text not in examples('.answers').values():
                self.fail(page, block.line, 'no command prints this, and no file examples/*.answers has it')
        elif commands.output is not None:
            self.compared += 1
            if commands.output != block.text:
                self.fail(page, block.line, 'the commands print\n%s%s' % (commands.output, commands.errors))

    def code(self, page, block):
        wanted = textwrap.dedent(block.text).rstrip('\n').split('\n')
        for program in [*examples('.rt.in').values(), *examples('.rs', RUST).values()]:
            lines = program.split('\n')
            for start in range(len(lines) - len(wanted) + 1):
                part = '\n'.join(lines[start:start + len(wanted)])
                if textwrap.dedent(part).split('\n') == wanted:
                    self.compared += 1
                    return
        self.fail(page, block.line, 'no program of examples/ has this code')

    def links(self, page):
        text = without_blocks(page)
        for found in re.finditer(r'\]\(([^)\s]+)\)', text):
            target, _, anchor = found[1].partition('#')
            line = text.count('\n', 0, found.start()) + 1
            if re.match(r'[a-z]+:', target):
                continue
            path = os.path.normpath(os.path.join(os.path.dirname(page), target)) if target else page
            if not os.path.exists(os.path.join(TOP, path)):
                self.fail(page, line, 'there is no ' + path)
            elif anchor and anchor not in anchors(path):
                self.fail(page, line, '%s has no heading #%s' % (path, anchor))

    def readme(self):
        lines = read('README.md').rstrip('\n').split('\n')
        if len(lines) > 130:
            self.fail('README.md', len(lines), 'it has more than 130 lines')
        for number, line in enumerate(lines, 1):
            if len(line) > 120:
                self.fail('README.md', number, 'the line has more than 120 columns')


def without_blocks(page):
    """The text of a page, with an empty line for each line of a fenced block."""
    return re.sub(r'(?ms)^```.*?^```$', lambda block: '\n' * block[0].count('\n'), read(page))


def anchors(page):
    headings = re.findall(r'(?m)^#+ +(.*?) *$', without_blocks(page))
    return {re.sub(r'[^\w\- ]', '', it.lower()).replace(' ', '-') for it in headings}


def environment(room):
    """That of a user without attributes files and configuration of their own. A cargo of rustup finds its toolchains."""
    kept = {name: value for name, value in os.environ.items() if not name.startswith(('GIT_', 'XDG_', 'YEKTROD_'))}
    home = os.path.join(room, 'home')
    os.makedirs(home, exist_ok=True)
    rust = {'RUSTUP_HOME': os.environ.get('RUSTUP_HOME', os.path.expanduser('~/.rustup')), 'CARGO_NET_OFFLINE': 'true',
            'CARGO_TARGET_DIR': os.path.join(room, 'target')}
    return {**kept, **rust, 'HOME': home, 'GIT_CONFIG_NOSYSTEM': '1', 'GIT_ATTR_NOSYSTEM': '1', 'LC_ALL': 'C',
            'PYTHONDONTWRITEBYTECODE': '1'}


def main():
    os.chdir(TOP)
    if not ARGUMENTS.pages and not os.access(PROGRAM, os.X_OK):
        sys.exit('docs: there is no program %s: build it by `rt ci`, or by `rt run` in its crate' % PROGRAM)
    checks = Checks()
    if TOP == OURS:
        checks.readme()
    for page in sorted(glob.glob('*.md') + glob.glob('*/*.md')):
        checks.links(page)
    with concurrent.futures.ThreadPoolExecutor(4) as pool:
        for done in [pool.submit(checks.page, page) for page in ARGUMENTS.pages or WITH_COMMANDS]:
            done.result()
    if checks.wrong:
        sys.exit('docs: %d places are wrong' % len(checks.wrong))
    print('docs: %d blocks of commands ran, %d left out, %d texts and pieces of code are as shown'
          % (checks.ran, checks.left_out, checks.compared))


main()
