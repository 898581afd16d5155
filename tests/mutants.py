#!/usr/bin/env python3
"""Mutants: wrong bodies of functions, which the prover must refuse. They stand in crates/*/wrong-bodies.edits, and in files
crates/*/must-fail/*.edit, which `rt ci` tries.

usage: mutants.py                  checks that each can be applied: it takes a second and proves nothing
       mutants.py sample           tries those that each gate tries, and six others of two crates, drawn by the crates' files
       mutants.py all              tries all, which takes an hour of two processors
       mutants.py CRATE [NAME..]   tries those of a crate, or only these

A file of mutants has the text of each below a line `== NAME`, with an empty line between two of them, in the order of their
names. The text is a line `file: src/..`, and pairs of lines `old: ..` and `new: ..`. Each `old:` text has to stand exactly
once in its file (that of a later pair in what the earlier ones made), and no `new:` text may be its `old:` text. A line
`gate: always` at the head says that each gate tries it. A file of must-fail has one such text.

A mutant leaves the contracts that proofs rest on as they are, and no proof rests on another body: so mutants of different
functions are tried at once. A copy of the crate gets them, and `rt check --only` proves the functions that they change. What
these call in the crate has a hole for a proof, since `rt ci` has the real one. A mutant is refused if the prover leaves a goal
of a changed function open, or finds an error in its proof. One that changes no function is tried alone, over the whole crate.
`sample` and `all` stand over the libraries that `rt ci` has built in this tree, and CRATE over what `rt check` keeps.
"""
import concurrent.futures
import glob
import hashlib
import os
import re
import shutil
import subprocess
import sys
import tempfile

TOP = os.path.realpath(os.path.join(os.path.dirname(os.path.abspath(__file__)), '..'))
FILE = 'wrong-bodies.edits'
ALWAYS = 'gate: always'
HEAD = re.compile(r'( *)(?:pub(?:\([a-z]+\))? )?(?:const )?(?:unsafe )?(?:extern "C" )?fn (\w+)')
BLOCK = re.compile(r'(impl|pub trait|trait)\b(?:<[^>]*>)? *(?:(.*?) for )?([\w:]+).*')
HOLE = '''use Rattle.{path}.Statement.{{statement}}

pub {name}_spec : {{M : Type 1}} → statement M
{name}_spec = ?
'''
STAMP = '''
import os, sys
sys.path.insert(0, sys.argv[1])
import rtlib

for crate in rtlib.crates_below(os.getcwd()):
    stamp = os.path.join(os.path.dirname(crate.rlib), 'stamp')
    if os.path.isdir(crate.rlib) and not os.path.exists(stamp):
        with open(stamp, 'w', encoding='utf-8') as file:
            file.write(crate.stamp())
'''
# What the prover says of a proof only because it names what the mutant took away.
LOST = re.compile(r'has no field|is not in scope|has no `|was not admitted')
KINDS = {
    'refused': 'refused at a value or a goal',
    'lost': 'refused only for a lost name, which says little of the contract',
    'limit': 'refused only by a limit of the prover, which says less of the contract',
    'untried': 'not tried, since it does not compile or the prover ended early',
    'proved': 'PROVED, so a contract is too weak',
}


class Wrong(Exception):
    """A mutant that can't be applied."""


def read(path):
    with open(path, encoding='utf-8', newline='') as file:
        return file.read()


def split(text):
    """The mutants of a file: pairs of a name and a text."""
    parts = re.split('^== (.*)\n', text, flags=re.MULTILINE)[1:]
    return [(name, body.rstrip('\n') + '\n') for name, body in zip(parts[::2], parts[1::2])]


def faults_of(text):
    """What is wrong with a file of mutants, a sentence each."""
    names = [name for name, _ in split(text)]
    if '\n'.join(f'== {name}\n{body}' for name, body in split(text)) != text:
        yield 'it is not mutants below lines `== NAME`, with an empty line between two of them'
    for name in names:
        if not re.fullmatch('[a-z0-9_]+', name):
            yield f'this is no name of a mutant: {name}'
    for before, after in zip(names, names[1:]):
        if not before < after:
            yield f'{before} and {after} are not in the order of names'


def functions_of(text):
    """The functions of a file: for each its first and last line, the type and the trait of its block, and its name."""
    lines = text.split('\n')
    block, found = (None, None, None), []
    for at, line in enumerate(lines):
        if begun := BLOCK.match(line):
            block = begun.groups()
        elif line.startswith('}'):
            block = (None, None, None)
        if head := HEAD.match(line):
            kind, of_trait, of_type = block if head[1] else (None, None, None)
            last = (head[1] + '}', head[1] + '{}')
            ends = [n for n in range(at, len(lines)) if lines[n] in last or n == at and lines[n].endswith(';')]
            if kind in (None, 'impl') and ends:
                found.append((at, ends[0], of_type, of_trait, head[2]))
    return found


def module_of(file):
    return re.sub('^(lib|main)$', '', file[len('src/') : -len('.rt')]).replace('/', '::')


def path_of(*parts):
    return '::'.join(part for part in parts if part)


class Crate:
    def __init__(self, name):
        self.name, self.directory = name, os.path.join(TOP, 'crates', name)
        paths = glob.glob(self.directory + '/src/**/*.rt', recursive=True)
        self.files = {os.path.relpath(path, self.directory): read(path) for path in paths}
        if not self.files:
            sys.exit(f'mutants: there is no crate {name}')
        self.types = {}
        for file, text in self.files.items():
            for of_type in re.findall(r'^(?:pub(?:\([a-z]+\))? )?(?:struct|enum) (\w+)', text, re.MULTILINE):
                self.types[of_type] = module_of(file)

    def texts(self):
        """The names of the mutants with their texts: those of the crate's file, and those that `rt ci` tries."""
        kept = os.path.join(self.directory, FILE)
        alone = sorted(glob.glob(self.directory + '/must-fail/*.edit'))
        listed = split(read(kept)) if os.path.exists(kept) else []
        return listed, [(os.path.basename(path).removesuffix('.edit'), read(path)) for path in alone]

    def path(self, file, function):
        """The path by which the prover names a function, or its end where that is enough."""
        _, _, of_type, of_trait, name = function
        if not of_type:
            return path_of(module_of(file), name)
        if not of_trait:
            return path_of(self.types.get(of_type, module_of(file)), of_type, name)
        words = re.findall(r'&|\w\w+', re.sub(r"'\w+ ?", '', of_trait.split('::')[-1]))
        return of_type + ''.join('Ref' if word == '&' else word[0].upper() + word[1:] for word in words) + '::' + name

    def paths(self):
        """The paths of the functions that can have a hole for a proof: those of no trait, and not exported to C."""
        for file, text in self.files.items():
            for function in functions_of(text):
                if not function[3] and 'extern "C"' not in text.split('\n')[function[0]]:
                    yield self.path(file, function)


class Mutant:
    """A mutant, with the paths of the functions that it changes."""

    def __init__(self, crate, name, text):
        self.crate, self.name, self.text = crate, name, text
        self.functions = set()

    def is_always_tried(self):
        return self.text.startswith(ALWAYS)

    def lot(self, seed):
        """What decides when it is drawn."""
        return hashlib.sha256(f'{seed} {self.crate.name} {self.name}'.encode()).digest()

    def apply(self, files):
        """The changed files, of which some may have been changed by others."""
        files, file, old, pairs = dict(files), None, None, 0
        for line in self.text.removeprefix(ALWAYS + '\n').rstrip('\n').split('\n'):
            if line.startswith('file: '):
                file = line[len('file: ') :].strip()
                if file not in self.crate.files:
                    raise Wrong(f'there is no file {file}')
            elif line.startswith('old: ') and file:
                old = line[len('old: ') :]
                text = files.get(file, self.crate.files[file])
                if text.count(old) != 1:
                    raise Wrong(f'this text occurs {text.count(old)} times in {file}: {old.strip()}')
            elif line.startswith('new:') and old:
                new = line[len('new: ') :]
                if new.strip() == old.strip():
                    raise Wrong(f'the new text is the old one: {old.strip()}')
                self.note(file, self.crate.files[file] if self.crate.files[file].count(old) == 1 else text, old)
                files[file], old, pairs = text.replace(old, new, 1), None, pairs + 1
            else:
                raise Wrong(f'this line has no place in a mutant: {line}')
        if old is not None or not pairs:
            raise Wrong('it does not end with a pair of `old:` and `new:`')
        return files

    def note(self, file, text, old):
        """Notes the function in which a text stands."""
        at = text.count('\n', 0, text.index(old) + len(old) - len(old.lstrip()))
        for function in functions_of(text):
            if function[0] <= at <= function[1]:
                self.functions.add(self.crate.path(file, function))

    def wrote(self, line):
        """Whether this line is the mutant's."""
        return any(new.strip() and new in line for new in re.findall('^new: (.*)$', self.text, re.MULTILINE))


class Round:
    """Mutants of a crate that are tried at once."""

    def __init__(self, mutants):
        self.mutants, self.files = [], {}
        for mutant in mutants:
            self.files = mutant.apply(self.files)
            self.mutants.append(mutant)

    def has_added(self, mutant):
        """Adds a mutant unless it changes what another does."""
        if not mutant.functions or any(not it.functions or it.functions & mutant.functions for it in self.mutants):
            return False
        try:
            self.files = mutant.apply(self.files)
        except Wrong:
            return False
        self.mutants.append(mutant)
        return True


def rounds_of(mutants):
    rounds = []
    for mutant in mutants:
        mutant.apply({})
        if not any(it.has_added(mutant) for it in rounds):
            rounds.append(Round([mutant]))
    return rounds


def link(source, to):
    try:
        os.link(source, to)
    except OSError:
        shutil.copy2(source, to)


def copy_crates(room):
    """Copies the crates, with the libraries that are built."""
    subprocess.run([TOP + '/tests/copy_crates.sh', room], check=True)
    for built in glob.glob(TOP + '/crates/*/out/rlib'):
        shutil.copytree(built, os.path.join(room, os.path.relpath(built, TOP)), copy_function=link)


def stamp(room):
    """Has rt take the libraries of `rt ci`, which have no stamp since they fit only one another: else it proves them again."""
    kit = os.path.join(os.path.dirname(subprocess.check_output(['rt', 'doc'], text=True).split('\n')[0]), 'bin')
    subprocess.run([sys.executable, '-B', '-c', STAMP, kit], cwd=room, check=True)


def write(path, text):
    """Writes a file anew: its old text may be linked elsewhere."""
    if os.path.lexists(path):
        os.remove(path)
    os.makedirs(os.path.dirname(path), exist_ok=True)
    with open(path, 'w', encoding='utf-8', newline='') as file:
        file.write(text)


def put_holes(crate, directory, changed):
    for path in set(crate.paths()) - changed:
        at = os.path.join(directory, 'proofs', *path.split('::'))
        for name in ('Answers', 'Invariants'):
            if os.path.exists(f'{at}/{name}.antt'):
                os.remove(f'{at}/{name}.antt')
        inside = f'{crate.name}.proofs.{path.replace("::", ".")}'
        write(at + '/Proof.antt', HOLE.format(path=inside, name=path.split('::')[-1]))


def prove(crate, these, room):
    """What the prover says of a copy of the crate with these mutants."""
    changed = set().union(*(it.functions for it in these.mutants))
    directory = os.path.join(room, 'crates', crate.name)
    for part in ('src', 'proofs'):
        shutil.rmtree(os.path.join(directory, part), ignore_errors=True)
        shutil.copytree(os.path.join(crate.directory, part), os.path.join(directory, part))
    for file, text in these.files.items():
        write(os.path.join(directory, file), text)
    if changed:
        put_holes(crate, directory, changed)
    words = ['rt', 'check', '--jobs', '1', *(word for path in sorted(changed) for word in ('--only', path))]
    ran = subprocess.run(words, cwd=directory, stdout=subprocess.PIPE, stderr=subprocess.STDOUT, text=True, errors='replace')
    return ran.stdout


def is_of(path, function):
    """Whether the prover's name is of the function, or of a closure in it."""
    end = re.search(r'([A-Z]\w*::)?\w+$', function)[0]
    return f'::{path}'.endswith('::' + function) or f'::fn::{end}::' in f'::{path}'


def judge(mutant, said):
    """The kind of what was said of a mutant, and the first line of it."""
    kinds = {}
    for path, verdict in re.findall(rf'^fn {mutant.crate.name}::(.*?): (.*)$', said, re.MULTILINE):
        if mutant.functions and not any(is_of(path, it) for it in mutant.functions):
            continue
        found = re.findall(rf'^\./proofs/{re.escape(path.replace("::", "/"))}/\w+\.antt:.*?: error: (.*)$', said, re.MULTILINE)
        goals = re.findall('`search` did not prove (`[^`]*`)', verdict)
        if goals or any(not LOST.search(it) for it in found):
            kinds.setdefault('refused', f'{path}: {next(iter(goals + found))}')
        elif found or verdict.startswith('no proof: expected'):
            kinds.setdefault('lost', f'{path}: {next(iter(found), verdict)}')
        elif verdict.startswith('could not tell'):
            kinds.setdefault('limit', f'{path}: {verdict}')
        else:
            kinds.setdefault('proved', path)
    return next(((kind, kinds[kind]) for kind in KINDS if kind in kinds), ('untried', said.strip().split('\n')[-1]))


def unreadable(crate, these, said):
    """The mutants that don't compile, each with the error."""
    for file, line, error in re.findall(r'^(src/\S+\.rt):(\d+):\d+: (error\[.*)$', said, re.MULTILINE):
        text = these.files.get(file, crate.files[file]).split('\n')[int(line) - 1]
        for mutant in these.mutants:
            if mutant.wrote(text):
                yield mutant, error


def try_round(crate, these, room):
    """What each mutant came to: its kind, and a line that says why."""
    while these.mutants:
        said = prove(crate, these, room)
        lost = dict(unreadable(crate, these, said))
        yield from ((mutant, 'untried', error) for mutant, error in lost.items())
        if not lost:
            yield from ((mutant, *judge(mutant, said)) for mutant in these.mutants)
            return
        these = Round([it for it in these.mutants if it not in lost])


def try_rounds(room, crate, rounds):
    """The results of rounds, one after another in a copy of the crates."""
    results = []
    with tempfile.TemporaryDirectory(dir=os.path.dirname(room)) as copy:
        shutil.copytree(room, copy, copy_function=link, dirs_exist_ok=True)
        for these in rounds:
            for mutant, kind, text in try_round(crate, these, copy):
                results.append((kind, mutant))
                print(f'{crate.name}/{mutant.name}: {kind}: {text[:200]}', flush=True)
    return results


def crates():
    """The crates that have mutants."""
    paths = glob.glob(f'{TOP}/crates/*/{FILE}') + glob.glob(TOP + '/crates/*/must-fail')
    return [Crate(name) for name in sorted({os.path.basename(os.path.dirname(path)) for path in paths})]


def sum_of_crates():
    """A sum of the crates' files."""
    found = hashlib.sha256()
    for at, directories, names in os.walk(TOP + '/crates'):
        directories[:] = sorted(it for it in directories if it != 'out')
        for name in sorted(names):
            with open(os.path.join(at, name), 'rb') as file:
                found.update(name.encode() + b'\0' + file.read())
    return found.hexdigest()


def sample():
    """The crates with the mutants that a gate tries, which are none that change no function: these take too long."""
    mutants = [Mutant(crate, *it) for crate in crates() for it in crate.texts()[0]]
    mutants = [it for it in mutants if it.apply({}) and it.functions]
    seed = sum_of_crates()
    others = sorted((it for it in mutants if not it.is_always_tried()), key=lambda it: it.lot(seed))
    drawn = list(dict.fromkeys(it.crate for it in others))[:2]
    chosen = [it for it in mutants if it.is_always_tried()] + [it for it in others if it.crate in drawn][:6]
    for crate in dict.fromkeys(it.crate for it in chosen):
        yield crate, [it for it in chosen if it.crate is crate]


def named(these, names):
    """The crates with all their mutants, or with those that are named."""
    for crate in these:
        found = dict(sum(crate.texts(), []))
        if missing := set(names) - set(found):
            sys.exit(f'mutants: {crate.name} has no mutant {min(missing)}')
        yield crate, [Mutant(crate, name, found[name]) for name in names or sorted(found)]


def check():
    count, told = 0, []
    for crate in crates():
        kept = os.path.join(crate.directory, FILE)
        told += [f'{crate.name}/{FILE}: {fault}' for fault in (faults_of(read(kept)) if os.path.exists(kept) else ())]
        for name, text in sum(crate.texts(), []):
            count += 1
            try:
                Mutant(crate, name, text).apply({})
            except Wrong as fault:
                told.append(f'{crate.name}/{name}: {fault}')
    if told or not count:
        sys.exit('\n'.join(['mutants: some do not apply:', *told]))
    print(f'mutants: all {count} apply')


def try_all(chosen, is_built):
    """Side by side, but one after another where the first has to prove the crates below."""
    with tempfile.TemporaryDirectory() as top:
        room = top + '/room'
        os.mkdir(room)
        copy_crates(room)
        lots = [(crate, rounds_of(mutants)) for crate, mutants in chosen]
        if is_built:
            stamp(room)
            lots = [(crate, [these]) for crate, rounds in lots for these in rounds]
            lots.sort(key=lambda lot: len(lot[1][0].mutants), reverse=True)
        with concurrent.futures.ThreadPoolExecutor(len(os.sched_getaffinity(0))) as pool:
            runs = [pool.submit(try_rounds, room, *lot) for lot in lots]
            return [it for run in runs for it in run.result()]


def report(results):
    for kind, text in KINDS.items():
        names = sorted(f'{it.crate.name}/{it.name}' for found, it in results if found == kind)
        print(f'mutants: {text}: {len(names)}', *([] if kind == 'refused' else names), sep='\n    ')
    if any(kind in ('untried', 'proved') for kind, _ in results):
        sys.exit(1)


def main(words):
    if not words:
        check()
    elif words == ['sample']:
        report(try_all(sample(), True))
    elif words == ['all']:
        report(try_all(named(crates(), []), True))
    else:
        report(try_all(named([Crate(words[0])], words[1:]), False))


if __name__ == '__main__':
    main(sys.argv[1:])
