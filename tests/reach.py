#!/usr/bin/env python3
"""Which definitions of crates/*/specs a reader has to believe.

A clause cites definitions, these cite others, and so on. This script starts at all clauses that a caller sees and
follows the names. It fails, with a line for each, if

- a public contract reaches a file in `specs/inner/` or `specs/shared/`,
- no public contract reaches another file of `specs/`,
- a crate cites a file in `specs/inner/` of another, or no other crate cites a file in `specs/shared/`,
- docs/READING.md does not list each reached file exactly once, with its lines, or names another file of specs,
- a file there uses one that is listed after it. Footnotes of tier 1 may stand after what uses them. Tier 1 may also use
  definitions of tier 2 if their row names them, after "tier 1 uses".

It starts at the clauses (`requires`, `ensures`) of public functions and of functions of public traits, and at the ghost
members (`view`, `next_gives`, `reads`, ..) of public traits and of impls of public types. Public is what `pub mod` and
`pub use` show from the top of attr_wildmatch, attr_glob, attr_text, gix_attributes or check_attr; so a type of
attr_lists is public if gix_attributes shows it, and a `pub fn` of a private module is not. A view looks into the fields of its type, so the
definitions that are their contents (`Value` of their types) are a start too.

Two things are no start: a `ghost invariant`, and a `ghost` fact of a struct's field. Each function that makes a value
proves them, and no clause promises more because of them: a wrong one could only make a proof fail. Neither is the view
of a type that is not public, nor what a type says as an impl of a trait that is not public: both are seen only through
calls of public types.

Names are resolved by the imports of each file. A name that is imported counts as cited wherever it occurs, also if it is
a bound variable there: too much may be reached by that, never too little. The types that the prover derives from the code
(`specs/declared`) and the definitions of the kit's crates are not followed.

usage: reach.py            checks
       reach.py --list     prints the reached files, each with the number of its lines that are not blank
       reach.py --names    prints for each file which definitions are reached, and which are not
       reach.py --write    puts the numbers of lines into docs/READING.md
"""
import glob
import os
import re
import sys

TOP = os.path.join(os.path.dirname(os.path.abspath(__file__)), "..")
PUBLIC_CRATES = ["attr_wildmatch", "attr_glob", "attr_text", "gix_attributes", "yektrod", "check_attr"]
TEST_CRATES = ["attr_vectors", "example_tests", "rows", "small_settings", "unit_tests", "worktree"]
READING = "docs/READING.md"
# The page is what precedes all rows, tier 1, its footnotes, tier 2 and tier 3.
PARTS = re.compile(r"^(?=## Tier 1\b|### Footnotes\b|## Tier 2\b|## Tier 3\b)", re.M)
ROW = re.compile(r"^\| (\d*) \| `(crates/[\w/]+\.antt)` \|(.*)\|$", re.M)
# The members that say what a type contains, and what memory it owns beside its fields.
CONTENTS = ("Value", "also_owns")

# Files that no public contract reaches: those of one crate, and those that crates share.
INNER = re.compile(r"/specs/(inner|shared)/")

# A name in a clause or a definition.
NAME = r"[^\s(){}\[\],;.:=@\"`λ]+"


def read(path):
    with open(path, encoding="utf-8") as file:
        return file.read()


def product_crates():
    return [crate for crate in sorted(os.listdir("crates")) if crate not in TEST_CRATES]


class Imports:
    """What imported names stand for: a module of specs and a name there, or a module and None."""

    def __init__(self, outer=None):
        self.names = dict(outer.names) if outer else {}

    def add(self, line):
        match = re.search(r"use Rattle\.([\w.]+?)(?:\.\{([^}]*)\}| as (\w+))?;?\s*$", line)
        if not match:
            return
        module, items, alias = match.groups()
        if items is None:
            self.names[alias or module.split(".")[-1]] = (module, None)
            return
        for item in items.split(","):
            name, _, alias = item.strip().partition(" as ")
            if name:
                self.names[alias.strip() or name] = (module, name)


class Module:
    """A file of specs: the text of each definition, and the definition that each name belongs to."""

    def __init__(self, path):
        self.path = path
        self.is_inner = bool(INNER.search(path))
        self.imports = Imports()
        self.text_of = {}
        self.owner_of = {}
        owner = kind = None
        for line in re.sub(r"(^|\s)--.*", "", read(path)).split("\n"):
            head = re.match(r"((?:abbrev |unfoldable |pub |data |record )*)(%s)(.*)" % NAME, line)
            part = re.match(r"  (?:pub )?(%s(?: %s)*) : " % (NAME, NAME), line)
            if re.match(r"\s*use ", line):
                self.imports.add(line)
            elif head and (head[1] or head[3].startswith(" : ")):
                kind, owner = head[1], head[2]
                self.owner_of[owner] = owner
                self.text_of[owner] = head[3] + "\n"
            elif owner and part and "record" in kind:
                self.text_of[owner] += line[part.end():] + "\n"
            elif owner:
                if part and "data" in kind:
                    self.owner_of.update({constructor: owner for constructor in part[1].split()})
                self.text_of[owner] += line + "\n"

    def line_count(self):
        return sum(1 for line in read(self.path).split("\n") if line.strip())


class Specs:
    """The modules of specs, by their paths in imports."""

    def __init__(self):
        self.modules = {}
        self.passed_on = {}
        for crate in product_crates():
            for directory, _, files in os.walk("crates/%s/specs" % crate):
                for file in files:
                    path = os.path.join(directory, file)
                    text = read(path)
                    # Lib.antt and inner.antt only list modules. Some are those of other crates.
                    for target in re.findall(r"^pub use Rattle\.([\w.]+)", text, re.M):
                        self.passed_on["%s.specs.%s" % (crate, target.split(".")[-1])] = target
                    if not re.search(r"^pub (mod|use) ", text, re.M):
                        self.modules[path[len("crates/"):-len(".antt")].replace("/", ".")] = Module(path)

    def sorted(self):
        return sorted(self.modules.values(), key=lambda module: module.path)

    def definition(self, path, name):
        path = self.passed_on.get(path, path)
        if path not in self.modules:
            return set()
        module = self.modules[path]
        if name not in module.owner_of:
            sys.exit("reach.py: %s does not define %s" % (module.path, name))
        return {(module, module.owner_of[name])}

    def cited(self, text, imports, own=None):
        """The definitions that a text cites."""
        found = set()
        for first, second in re.findall(r"(%s)\.(%s)" % (NAME, NAME), text):
            path, name = imports.names.get(first, (None, first))
            if name is None:
                found |= self.definition(path, second)
        # Fields cite nothing, neither in `r.field` nor in `record { field = .. }`.
        words = re.sub(r"(?<=\S)\.%s|[{;]\s*%s\s+=(?=\s)" % (NAME, NAME), " ", text)
        words = set(re.findall(NAME, words))
        for name, (path, item) in imports.names.items():
            if item is not None and is_among(name, words):
                found |= self.definition(path, item)
        if own is not None:
            found |= {(own, owner) for name, owner in own.owner_of.items() if is_among(name, words)}
        return found

    def reached(self, roots):
        """All definitions that these lead to, each with what cites it first."""
        cited_by = dict(roots)
        waiting = list(roots)
        for module, name in waiting:
            for other in sorted(self.cited(module.text_of[name], module.imports, module), key=in_order):
                if other not in cited_by:
                    cited_by[other] = (name, module.path)
                    waiting.append(other)
        return cited_by


def in_order(definition):
    return (definition[0].path, definition[1])


def is_among(name, words):
    """An operator such as ◌then◌ is cited if its parts are."""
    return all(part in words for part in name.split("◌") if part)


class Source:
    """A module of the code: its names, and its clauses and ghost members."""

    ITEM = re.compile(
        r"\bghost use\b(?P<imported>[^;]*);|\buse\b(?P<used>[^;]*);"
        r"|\bghost (?P<member>\w+)\s*[=:]\s*(?=\{)|\bmod (?P<mod>\w+)\s*;|\bfn (?P<fn>\w+)"
        r"|\btrait (?P<trait>\w+)|(?P<impl>\bimpl\b)|\b(?:struct|enum|type|static|const(?! fn)) (?P<item>\w+)"
        r"|\bpub\b(?P<within>\([\w\s]+\))?|(?P<open>\{)")
    # A clause, a body, or the end of a function without one. The length of an array may have any of these.
    PART = re.compile(r"\[[^\[\]]*\]|\b(?:requires|ensures)\b\s*(?P<clause>\w*)\s*(?=\{)|(?P<body>\{)|(?P<none>;)")

    def __init__(self, crates, crate, file, parent=None):
        self.crates, self.top, self.parent, self.file = crates, parent.top if parent else self, parent, file
        self.text = blanked(read(file))
        # Each name with whether it is public and what it stands for: a path, a module, or itself.
        self.names = {}
        # The text of the fields of each type.
        self.fields = {}
        # Each with the type or function that shows it, a word on where it is, its text and its imports.
        self.contracts = []
        self.scan(0, len(self.text), Imports(), None, None)
        directory = os.path.dirname(file) if self is self.top else file[:-len(".rt")]
        for name, (public, target) in list(self.names.items()):
            if target == "mod":
                path = os.path.join(directory, name + ".rt")
                self.names[name] = (public, Source(crates, crate, path, self) if os.path.exists(path) else None)

    def scan(self, i, end, imports, type_, trait):
        """Goes through the items between two offsets, of the file or of an impl or trait of this type."""
        public = False
        while m := self.ITEM.search(self.text, i, end):
            i = m.end()
            if m["imported"]:
                imports.add("use " + " ".join(m["imported"].split()))
            elif m["used"]:
                self.names.update({name: (public, path) for name, path in used(m["used"]) if path != [name]})
            elif m["member"]:
                close = self.closing(i)
                if m["member"] != "invariant":
                    self.contracts.append((type_, trait, m["member"], self.text[i:close], imports))
                i = close
            elif m["mod"]:
                self.names[m["mod"]] = (public, "mod")
            elif m["fn"]:
                if type_ is None:
                    self.names[m["fn"]] = (public, "item")
                i = self.scan_function(m["fn"], i, imports, (type_, trait), public or trait)
            elif m["trait"] or m["impl"]:
                open_ = self.text.index("{", i)
                name, of_trait = (m["trait"], m["trait"]) if m["trait"] else implemented(self.text[i:open_])
                if m["trait"]:
                    self.names[name] = (public, "item")
                i = self.closing(open_)
                self.scan(open_ + 1, i, Imports(imports), name, of_trait)
            elif m["item"]:
                if type_ is None:
                    self.names[m["item"]] = (public, "item")
                start = i
                i = re.compile(r"[{;]").search(self.text, i).start()
                i = self.closing(i) if self.text[i] == "{" else i + 1
                self.fields[m["item"]] = self.text[start:i]
            elif m["open"]:
                i = self.closing(m.start())
            # Only a bare `pub` makes the next item public.
            public = m[0] == "pub"

    def scan_function(self, name, i, imports, of, shown):
        type_, trait = of
        while m := self.PART.search(self.text, i):
            i = m.end()
            if m["body"]:
                return self.closing(m.start())
            if m["none"]:
                return i
            if m["clause"] is not None:
                close = self.closing(i)
                if shown:
                    where = "%s %s" % (name, m["clause"])
                    self.contracts.append((type_ or name, trait, where, self.text[i:close], imports))
                i = close

    def closing(self, i):
        """The offset after the brace that closes the one at an offset."""
        depth = 0
        for m in re.compile(r"[{}]").finditer(self.text, i):
            depth += 1 if m[0] == "{" else -1
            if depth == 0:
                return m.end()
        sys.exit("reach.py: %s: a brace is not closed" % self.file)

    def find(self, path):
        """What a path stands for as the code of this module writes it: a module, a module with a name, or None."""
        if path[0] in ("crate", "self", "super"):
            return {"crate": self.top, "self": self, "super": self.parent}[path[0]].member(path[1:])
        if path[0] in self.names:
            return self.member(path)
        return self.crates[path[0]].member(path[1:]) if path[0] in self.crates else None

    def member(self, path):
        if not path:
            return self
        _, target = self.names.get(path[0], (False, None))
        if target == "item":
            return (self, path[0])
        found = self.find(target) if isinstance(target, list) else target
        return found.member(path[1:]) if isinstance(found, Source) else found

    def show(self, modules, items):
        """Adds the modules and items that are public if this module is."""
        if self in modules:
            return
        modules.add(self)
        for name, (public, _) in self.names.items():
            found = self.member([name]) if public else None
            if isinstance(found, Source):
                found.show(modules, items)
            elif found:
                items.add(found)

    def all(self):
        yield self
        for _, target in self.names.values():
            if isinstance(target, Source):
                yield from target.all()


def used(text, front=()):
    """The names that a `use` brings, each with its path."""
    group = re.match(r"\s*([\w:]*?)(?:::)?\{(.*)\}\s*$", text, re.S)
    if group:
        front = front + tuple(filter(None, group[1].split("::")))
        for part in re.findall(r"(?:[^,{]|\{[^}]*\})+", group[2]):
            if part.strip():
                yield from used(part, front)
        return
    path, _, alias = text.partition(" as ")
    path = front + tuple(path.strip().split("::"))
    if path[-1] == "self":
        path = path[:-1]
    yield (alias.strip() or path[-1], list(path))


def implemented(head):
    """The type of an impl, or its trait if it is one for all types, and the trait that it is an impl of."""
    generics = re.match(r"\s*<((?:[^<>]|<[^<>]*>|->)*)>", head)
    head = head[generics.end():] if generics else head
    names = re.match(r"\s*([\w:]+)(?:<.*?>)?(?:\s+for\s+([\w:]+))?", head, re.S)
    parameters = re.findall(r"(?:^|,)\s*(\w+)", generics[1]) if generics else []
    return (names[2] if names[2] and names[2] not in parameters else names[1]), names[1] if names[2] else None


def blanked(text):
    """The text with blanks in place of comments and of what is in quotes."""
    pattern = re.compile(r"//[^\n]*|b?\"(?:[^\"\\]|\\.)*\"|b?'(?:[^'\\]|\\.[^']*)'", re.S)
    return pattern.sub(lambda m: re.sub(r"[^\n]", " ", m[0]), text)


def is_shown(found, items):
    """Whether an item is public. What is not found is of a crate of the kit, and public."""
    return found is None or found in items


def public_roots(specs):
    """What public contracts cite, each with a contract that does."""
    crates = {}
    for crate in product_crates():
        file = "crates/%s/src/lib.rt" % crate
        if os.path.exists(file):
            crates[crate] = Source(crates, crate, file)
    modules, items = set(), set()
    for crate in PUBLIC_CRATES:
        crates[crate].show(modules, items)
    contracts = [(source, source.find(name.split("::")), where, text, imports)
        for crate in crates.values() for source in crate.all() for name, trait, where, text, imports in source.contracts
        if trait is None or is_shown(source.find(trait.split("::")), items)]
    contents = contents_of_fields(items, {found for _, found, where, _, _ in contracts if where in CONTENTS})
    roots = {}
    for source, found, where, text, imports in contracts:
        if is_shown(found, items) or found in contents and where in CONTENTS:
            for definition in sorted(specs.cited(text, imports), key=in_order):
                roots.setdefault(definition, (where.strip(), source.file))
    return roots


def contents_of_fields(items, with_content):
    """The types of fields that have a content of their own, through types that have none."""
    found = set()
    waiting = sorted(items, key=lambda item: (item[0].file, item[1]))
    for source, name in waiting:
        for word in set(re.findall(r"\w+", source.fields.get(name, ""))):
            field = source.find([word])
            if isinstance(field, tuple) and field not in found and field not in items:
                found.add(field)
                if field not in with_content:
                    waiting.append(field)
    return found


def faults(specs, cited_by, believed):
    for (module, name), (where, file) in sorted(cited_by.items(), key=lambda pair: in_order(pair[0])):
        if module.is_inner and not INNER.search(file):
            yield "%s: %s is cited by %s, %s" % (module.path, name, file, where)
    for module in specs.sorted():
        if not module.is_inner and module not in believed:
            yield "%s: no public contract reaches it" % module.path
    page = read(READING)
    named = re.findall(r"crates/[\w/]+\.antt", page)
    for module in believed:
        if named.count(module.path) != 1:
            yield "%s: %s names it %d times" % (module.path, READING, named.count(module.path))
    for path in sorted(set(named) - {module.path for module in believed}):
        yield "%s: %s names it, and it is not reached" % (path, READING)
    listed = [path for _, path, _ in ROW.findall(page)]
    for path in sorted(set(named) - set(listed)):
        yield "%s: %s names it in no row" % (path, READING)
    if len(PARTS.split(page)) != 5:
        yield "%s: a heading is missing of: Tier 1, Footnotes, Tier 2, Tier 3" % READING
    elif sorted(listed) == sorted(module.path for module in believed):
        yield from order_faults(specs, believed, page)
    if page != with_lines(page, believed):
        yield "%s: numbers of lines have changed; tests/reach.py --write puts them right" % READING


def crate_faults():
    """Files in specs/inner that another crate cites, and files in specs/shared that no other crate cites."""
    alone = {path for crate in product_crates() for path in glob.glob("crates/%s/specs/shared/*.antt" % crate)}
    for crate in product_crates():
        files = [file for kind in ("antt", "rt") for file in glob.glob("crates/%s/**/*.%s" % (crate, kind), recursive=True)]
        for file in (file for file in files if "/out/" not in file):
            for other, kind, name in re.findall(r"\bRattle\.(\w+)\.specs\.(inner|shared)\.(\w+)", read(file)):
                if other != crate:
                    alone.discard("crates/%s/specs/shared/%s.antt" % (other, name))
                    if kind == "inner":
                        yield "%s: it cites specs/inner of %s, %s" % (file, other, name)
    for path in sorted(alone):
        yield "%s: no other crate cites it" % path


def order_faults(specs, believed, page):
    modules = {module.path: module for module in believed}
    parts = [[path for _, path, _ in ROW.findall(part)] for part in PARTS.split(page)]
    _, tier_1, footnotes, tier_2, _ = parts
    used = {}
    seen = set(footnotes)
    for part in parts:
        seen -= set(part)
        for path in part:
            for other, name in sorted(cited_elsewhere(specs, modules[path]), key=in_order):
                if path in tier_1 and other.path in tier_2:
                    used.setdefault(other.path, set()).add(name)
                elif other.path not in seen:
                    yield "%s: it uses %s of %s, which %s lists after it" % (path, name, other.path, READING)
            seen.add(path)
    for _, path, text in ROW.findall(page):
        told = re.search(r"tier 1 uses ((?:`[^`]+`(?:, | and )?)+)", text)
        names = set(re.findall(r"`([^`]+)`", told[1])) if told else set()
        if names != used.get(path, set()):
            yield "%s: its row in %s has to say: tier 1 uses %s" % (
                path, READING, ", ".join("`%s`" % name for name in sorted(used.get(path, {"nothing"}))))


def cited_elsewhere(specs, module):
    """The definitions of other files that those of a file cite."""
    cited = set().union(*(specs.cited(text, module.imports, module) for text in module.text_of.values()))
    return {(other, name) for other, name in cited if other is not module and not other.is_inner}


def with_lines(page, believed):
    """The page with the lines of each file before its name, and the sum of each part and of all."""
    counts = {module.path: module.line_count() for module in believed}
    parts = []
    for part in PARTS.split(page):
        paths = [path for _, path, _ in ROW.findall(part)] or list(counts)
        total = "%d files with %s lines" % (len(paths), format(sum(counts.get(path, 0) for path in paths), ","))
        part = re.sub(r"\d+ files with [\d,]+ lines", total, part)
        parts.append(re.sub(r"\| \d* \| `(crates/[\w/]+\.antt)`", lambda m: "| %d | `%s`" % (counts.get(m[1], 0), m[1]), part))
    return "".join(parts)


def main(flags):
    os.chdir(TOP)
    specs = Specs()
    cited_by = specs.reached(public_roots(specs))
    believed = [m for m in specs.sorted() if not m.is_inner and any(module is m for module, _ in cited_by)]
    if flags == ["--list"]:
        for module in believed:
            print("%5d %s" % (module.line_count(), module.path))
        print("%5d lines in %d files" % (sum(m.line_count() for m in believed), len(believed)))
    elif flags == ["--names"]:
        for module in specs.sorted():
            reached = [name for name in module.text_of if (module, name) in cited_by]
            missed = [name for name in module.text_of if (module, name) not in cited_by]
            if reached or not module.is_inner:
                print(module.path)
                print("    reached: %s" % " ".join(reached))
                print("    not reached: %s" % " ".join(missed))
    elif flags == ["--write"]:
        page = with_lines(read(READING), believed)
        with open(READING, "w", encoding="utf-8") as file:
            file.write(page)
    elif flags:
        sys.exit("usage: reach.py [--list | --names | --write]")
    else:
        found = [*crate_faults(), *faults(specs, cited_by, believed)]
        for fault in found:
            print("reach.py: " + fault)
        if found:
            sys.exit(1)
        print("reach.py: public contracts reach %d files of specs, and none in specs/inner or specs/shared" % len(believed))


main(sys.argv[1:])
