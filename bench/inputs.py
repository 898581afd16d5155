"""Makes the attributes files and paths that are measured: the same bytes at each run."""
import random

DIRECTORIES = ("src include lib core base net http db store query index cache ui view form page chart locale docs guide "
           "tests data samples tools build scripts vendor third_party assets fonts shaders android ios server client "
           "auth crypto math geo media audio video").split()
STEMS = ("main init setup config option parse lex emit token scope type value error report log trace map list heap tree "
         "graph edge node buffer stream socket packet header codec frame image pixel color font glyph widget button menu "
         "dialog window event timer clock thread lock queue worker task job user role key hash sign").split()
ENDS = ("c c c c h h h h cc hpp py py py js js js ts ts go go java java rs rs rb pl sh sh bat md md md txt html css scss "
        "json json yml toml xml sql proto po png png jpg gif svg ico woff2 pdf zip lock in out dat gen").split()

# As projects have them: a default, ends, names, directories, and three macros. 95 lines.
TYPICAL = """\
# Macros
[attr]raw -text -diff -merge
[attr]made linguist-generated -diff
[attr]code text diff whitespace=trailing-space

* text=auto

# Sources
*.c code diff=cpp
*.h code diff=cpp
*.cc code diff=cpp
*.hpp code diff=cpp
*.m code diff=objc
*.go code diff=golang
*.rs code diff=rust
*.java code diff=java
*.kt code diff=kotlin
*.py code diff=python
*.rb code diff=ruby
*.pl code diff=perl
*.php code diff=php
*.js code
*.jsx code
*.ts code
*.tsx code
*.vue code
*.sql code
*.proto code

# Texts
*.md text diff=markdown
*.txt text
*.rst text
*.tex text diff=tex
*.html text diff=html
*.css text diff=css
*.scss text diff=css
*.json text
*.yml text
*.yaml text
*.toml text
*.xml text
*.svg text -diff
*.csv text -whitespace
*.po text merge=union

# Ends of lines
*.sh text eol=lf
*.bash text eol=lf
*.in text eol=lf
*.bat text eol=crlf
*.cmd text eol=crlf
*.ps1 text eol=crlf
*.sln text eol=crlf

# No texts
*.png raw
*.jpg raw
*.jpeg raw
*.gif raw
*.ico raw
*.webp raw
*.pdf raw
*.zip raw
*.gz raw
*.xz raw
*.jar raw
*.woff raw
*.woff2 raw
*.ttf raw
*.mp4 raw
*.so raw
*.dll raw
*.exe raw

# Names
Makefile text eol=lf
Dockerfile text eol=lf
LICENSE text -whitespace
CHANGELOG.md merge=union
.gitattributes export-ignore
.gitignore export-ignore
yarn.lock made
package-lock.json made
*.lock text -diff
*.min.js made
*.gen made

# Directories
/docs/** linguist-documentation
/vendor/** linguist-vendored -diff
third_party/** linguist-vendored
**/samples/** linguist-documentation
tests/**/*.out -text
/build/** export-ignore
"""

TYPICAL_NAMES = ["text", "diff", "eol"]
THREE_NAMES = ["text", "diff", "marker"]
SEVEN_NAMES = ["text", "diff", "marker", "eol", "merge", "whitespace", "linguist-generated"]


def item(index):
    """One of a few assignments of the three names."""
    return ("text", "-diff", "marker=v%d" % (index % 7), "-text", "diff=d%d" % (index % 5))[index % 5]


def directories(chance, count):
    """Different directories up to four deep, each below another, with a slash at its end."""
    made = [""]
    known = {""}
    while len(made) < count:
        above = chance.choice(made)
        if above.count("/") < 4:
            directory = above + chance.choice(DIRECTORIES) + chance.choice(["", "", str(chance.randrange(30))]) + "/"
            if directory not in known:
                known.add(directory)
                made.append(directory)
    return made


def base_name(chance):
    if chance.random() < 0.02:
        return chance.choice(["Makefile", "Dockerfile", "LICENSE", "CHANGELOG.md", ".gitignore", "package-lock.json"])
    return "%s_%s%d.%s" % (chance.choice(STEMS), chance.choice(STEMS), chance.randrange(1000), chance.choice(ENDS))


def tree(kind, count, name=base_name, many=3000):
    """Paths of a tree of directories, in its order."""
    chance = random.Random(kind)
    above = directories(chance, many)
    return sorted(chance.choice(above) + name(chance) for _ in range(count))


def typical(count):
    return TYPICAL.encode(), tree("typical", count)


def names(lines, count):
    """Plain names; half of the paths have one of them."""
    chance = random.Random("names")
    made = ["%s_%d.%s" % (chance.choice(STEMS), index, chance.choice(ENDS)) for index in range(lines)]
    text = "".join("%s %s\n" % (name, item(index)) for index, name in enumerate(made))
    return text.encode(), tree("names", count, lambda c: c.choice(made) if c.random() < 0.5 else base_name(c))


def ends(lines, count):
    """A star and an end; half of the paths have one of the ends."""
    text = "".join("*.e%d %s\n" % (index, item(index)) for index in range(lines))
    return text.encode(), tree("ends", count, lambda c: "%s_%d.e%d" % (
        c.choice(STEMS), c.randrange(1000), c.randrange(2 * lines)))


def exact(lines, count):
    """Whole paths, as users of large files have them; half of the paths are listed."""
    text = "".join("assets/level%d/textures/t%d.psd filter=lfs diff=lfs merge=lfs -text\n" % (index % 97, index)
                   for index in range(lines))
    chance = random.Random("exact")
    paths = []
    for _ in range(count):
        index = chance.randrange(2 * lines)
        paths.append("assets/level%d/textures/t%d.psd" % (index % 97, index))
    return text.encode(), sorted(paths)


def globs(lines, count):
    """Wildcards below literal directories; a third of the paths match one line."""
    text = "".join("dir%d/**/x?[a-c]*.gen %s\n" % (index, item(index)) for index in range(lines))
    chance = random.Random("globs")
    paths = []
    for _ in range(count):
        directory = "dir%d/" % chance.randrange(lines + lines // 4 + 1)
        for _ in range(chance.randrange(4)):
            directory += chance.choice(DIRECTORIES) + "/"
        if chance.random() < 0.6:
            directory += "x%d%s%s%d.gen" % (
                chance.randrange(10), chance.choice("abcd"), chance.choice(STEMS), chance.randrange(1000))
        else:
            directory += base_name(chance)
        paths.append(directory)
    return text.encode(), sorted(paths)


def macros(count):
    """200 macros, each of which names the next one and four others; 120 lines that set or unset them."""
    chance = random.Random("macros")
    lines = []
    for number in range(200):
        others = [(number + 1) % 200, *chance.sample(range(200), 4)]
        lines.append("[attr]m%d %s" % (number, " ".join("m%d" % other for other in others)))
    for number in range(100):
        pattern = "*.e%d" % number if number % 2 else "e%d_*" % number
        lines.append("%s m%d" % (pattern, chance.randrange(200)))
    for number in range(20):
        lines.append("*_%d.* -m%d m%d=v%d !m%d" % (
            number, chance.randrange(200), chance.randrange(200), number, chance.randrange(200)))
    paths = tree("macros", count, lambda c: "%s_%d.e%d" % (
        c.choice(STEMS) if c.random() < 0.9 else "e%d" % c.randrange(100), c.randrange(60), c.randrange(150)), 2000)
    return "\n".join(lines).encode() + b"\n", paths


def large(lines):
    """A file of many different lines, of 41 bytes each on average, as no project has it: what reading costs."""
    chance = random.Random("large")
    items = ("text -text diff -diff eol=lf eol=crlf merge=union -merge filter=lfs !filter whitespace=trailing-space "
             "export-ignore linguist-generated working-tree-encoding=UTF-16 marker=v1 -marker !eol").split()
    made = ["*.c text marker=first"]
    for index in range(lines - 3):
        kind = chance.random()
        if kind < 0.06:
            made.append("# " + " ".join(chance.choice(STEMS) for _ in range(8)))
            continue
        if kind < 0.08:
            made.append("")
            continue
        if kind < 0.45:
            pattern = "*.%s%d" % (chance.choice(STEMS), index)
        elif kind < 0.72:
            pattern = "%s_%d.%s" % (chance.choice(STEMS), index, chance.choice(ENDS))
        elif kind < 0.9:
            pattern = "/".join(chance.choices(DIRECTORIES, k=chance.randrange(1, 4))) + "/%s%d" % (chance.choice(STEMS), index)
        else:
            pattern = "%s/**/%s*%d.[ch]" % (chance.choice(DIRECTORIES), chance.choice(STEMS), index)
        made.append(pattern + " " + " ".join(chance.choices(items, k=chance.choice((1, 1, 2, 3, 4)))))
    made.insert(lines // 2, "src/core/* -diff marker=middle")
    made.append("main.c eol=lf marker=last")
    return ("\n".join(made) + "\n").encode()


def of_directory(index):
    """Ten lines of an attributes file of a directory."""
    return ("*.c text\n*.h text diff=cpp\n*.png -text -diff\n*.out%d -text\nfile%d.c marker=named\nREADME.md -marker\n"
            "/data%d/*.bin -text\ndocs/**/*.md text\ngen_* marker=made\nlocale/[a-m]*/*.po diff=po\n"
            % (index, index % 50, index)).encode()


def standing(lists, count):
    """Attributes files of many directories, in pairs of a directory and one below it, and paths below each pair in turn."""
    files = []
    for pair in range(lists // 2):
        files.append(("p%d/" % pair, of_directory(2 * pair)))
        files.append(("p%d/src/" % pair, of_directory(2 * pair + 1)))
    paths = []
    chance = random.Random("standing")
    turn = 0
    while len(paths) < count:
        for _ in range(10):
            paths.append("p%d/src/%s" % (turn % (lists // 2), base_name(chance)))
        turn += 1
    return files, paths[:count]


def monorepo(scale):
    """60,060 directories, three deep; each sixth has an attributes file of ten lines; a million paths, directory by directory.

    Gives a directory, its attributes file or None, and its paths, in the order of a walk.
    """
    chance = random.Random("monorepo")
    index = 0
    for top in range(max(1, round(60 * scale))):
        for middle in range(-1, 40):
            for low in range(-1, 24 if middle >= 0 else 0):
                directory = "project%02d/" % top
                if middle >= 0:
                    directory += "module%02d/" % middle
                if low >= 0:
                    directory += "%s%02d/" % (DIRECTORIES[low], low)
                paths = [directory + base_name(chance) for _ in range(17 if index % 3 else 16)]
                yield directory, of_directory(index) if index % 6 == 0 else None, paths
                index += 1


def below_files(count):
    """1,201 directories, of which the top has a typical attributes file and each third other one a file of ten lines; and paths in them.

    Gives the files, all directories, and the paths in the order of a tree.
    """
    chance = random.Random("below")
    made = directories(chance, 1201)
    files = [("", TYPICAL.encode()), *((directory, of_directory(index)) for index, directory in enumerate(made[1::3]))]
    return files, made, sorted(chance.choice(made) + base_name(chance) for _ in range(count))


def without_files(count):
    """A typical attributes file at the top, directories without one three deep, and a path in each of them."""
    chance = random.Random("without")
    made = ["p%02d/m%02d/d%d/" % (index // 400, index // 20 % 20, index) for index in range(count)]
    return [("", TYPICAL.encode())], made, [directory + base_name(chance) for directory in made]


def shuffled(paths):
    random.Random("shuffled").shuffle(paths)
    return paths


def known(count):
    """A file that names many attributes, ten a line, in lines that no path matches."""
    return "".join("never%d.x %s\n" % (first, " ".join("a%d" % index for index in range(first, min(first + 10, count))))
                   for first in range(0, count, 10)).encode()


# Records of a script.

def add(directory, text, macros=False):
    source = directory + ".gitattributes"
    return b"add %s %d 0 %d\n%s%s\n" % (b"m" if macros else b"-", len(source), len(text), source.encode(), text)


def select(names):
    return b"names %d\n%s" % (len(names), "".join(name + "\n" for name in names).encode())


def ask(path):
    return b"ask l s f %d\n%s\n" % (len(path), path.encode())
