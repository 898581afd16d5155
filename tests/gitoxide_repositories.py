#!/usr/bin/env python3
"""Makes the repositories that tests/gitoxide.sh compares over, in a directory that is not there yet.

- small, middle, large: 200, 2,000 and 10,000 paths in many directories, of which a third has an attributes file, and the top, the
  user's file and info/attributes more lines. Macros are nested, cyclic, defined again and defined where they may not be; patterns are
  quoted, and lines are not valid. One directory has a name that is no UTF-8.
- typical: a file of 95 lines at the top, 2,000 paths.
- wide: a file of 1,000 globs at the top, 2,000 paths.
- deep: 1,000 directories with a path and a file each, below that of `typical`.

usage: gitoxide_repositories.py DIRECTORY SEED
"""
import os
import random
import subprocess
import sys

ENDS = 'c h rs py go java md txt sh bat json png jpg'.split()
NAMES = ['text', 'eol', 'diff', 'merge', 'binary', 'export-ignore', 'export-subst', 'whitespace', 'filter', 'ident', 'crlf', 'mine',
         'lang', 'expanded', 'loop', 'generated', 'off'] + [f'a{number}' for number in range(12)]
MACROS = ['[attr]expanded -diff lang=c binary', '[attr]loop a1 turn', '[attr]turn loop a2=x', '[attr]off -text !eol',
          '[attr]generated linguist-generated -diff !merge a3', '[attr]expanded diff=html !binary', '[attr]mine a7 a8=q']
# Two thirds of the lines of the file in `typical` are like those of projects that name many kinds of files.
TYPICAL = ('* text=auto\n' + ''.join(f'*.x{number} binary\n*.y{number} text eol=lf\n' for number in range(42)) +
           '*.c text diff=cpp\n*.h text diff=cpp\n*.sh text eol=lf\n*.bat text eol=crlf\n*.png binary\n*.jpg binary\n'
           '/d1/ export-ignore\n*.md text diff=markdown\ndocs/** linguist-documentation\n*.json -diff\n')


class Maker:
    """Makes files by chance."""

    def __init__(self, seed):
        self.random = random.Random(seed)

    def assignment(self):
        name, way = self.random.choice(NAMES), self.random.randrange(6)
        if name == 'filter':
            return self.random.choice(['-filter', '!filter', 'filter=none'])
        if name == 'eol':
            return self.random.choice(['eol=lf', 'eol=crlf', '!eol'])
        if way < 3:
            return name
        return ['-' + name, '!' + name, f'{name}={self.random.choice(["v", "auto", "", "x=y", "c"])}'][way - 3]

    def pattern(self, paths):
        chance, end = self.random, self.random.choice(ENDS)
        return chance.choice([
            f'*.{end}', f'*.{end}', f'*.{end}', f'f{chance.randrange(len(paths))}.*', f'/src*/**/*.{end}', f'**/sub{chance.randrange(30)}/*',
            f'f[0-9]*[02468].{end}', f'docs{chance.randrange(30)}/', 'docs*/*.md', f'"a b{chance.randrange(30)}/*.txt"', f'\\f?.{end}',
            chance.choice(paths).replace(' ', '?'), '!*.c', 'a/', '"\\146*"', '[[:alpha:]]?*.[ch]', '"*.c',
        ])

    def lines(self, count, paths):
        """An attributes file. A directory's definitions of macros are left out by git."""
        lines = []
        for _ in range(count):
            way = self.random.random()
            if way < .05:
                lines.append(self.random.choice(['# a comment', '', '* builtin_a', '[attr]-x a', '* a%b', '\t ']))
            elif way < .15:
                lines.append(self.random.choice(MACROS))
            else:
                lines.append(' '.join([self.pattern(paths)] + [self.assignment() for _ in range(self.random.randrange(1, 4))]))
        return '\n'.join(lines) + '\n'

    def mixed(self, repository, count):
        directories = {''}
        while len(directories) < count // 20:
            above = self.random.choice(sorted(directories))
            if above.count('/') < 6:
                name = self.random.choice(['src', 'lib', 'docs', 't', 'vendor', 'a b', 'gen', 'sub'])
                directories.add(f'{above}{name}{self.random.randrange(30)}/')
        directories = sorted(directories) + ['\udce9/']
        paths = sorted({f'{self.random.choice(directories)}f{number}.{self.random.choice(ENDS)}' for number in range(count)})
        of_git = [path for path in paths if '\udce9' not in path]
        files = {path: '\0\r\n' if path.endswith(('png', 'jpg')) else f'$Id$ of\r\n{number}\n' for number, path in enumerate(paths)}
        for directory in directories:
            if not directory or self.random.random() < .3 or directory == '\udce9/':
                files[directory + '.gitattributes'] = self.lines(60 if not directory else self.random.randrange(1, 12), of_git)
        make(repository, files, self.lines(10, of_git), self.lines(20, of_git) + '* a11=user\n[attr]mine a7 a8=q\n')

    def paths(self, count):
        return {f'd{self.random.randrange(10)}/e{self.random.randrange(10)}/f{number}.{self.random.choice(ENDS)}': 'x\n'
                for number in range(count)}

    def wide(self):
        return ''.join(f'd{self.random.randrange(10)}/*/f{self.random.randrange(2000)}*.{self.random.choice(ENDS)} text eol=lf '
                       f'a{self.random.randrange(10)}\n' for _ in range(1000))


def make(repository, files, info='', users=''):
    """A repository with a commit of these files, info/attributes and the user's file."""
    environment = dict(os.environ, GIT_CONFIG_GLOBAL='/dev/null', GIT_CONFIG_SYSTEM='/dev/null')
    for of in ('AUTHOR', 'COMMITTER'):
        environment |= {f'GIT_{of}_NAME': 'a', f'GIT_{of}_EMAIL': 'a@b', f'GIT_{of}_DATE': '2020-01-01T00:00:00Z'}

    def git(*words):
        subprocess.run(['git', '-C', repository, *words], check=True, env=environment, stdout=subprocess.DEVNULL,
                       stderr=subprocess.DEVNULL)

    for path, contents in files.items():
        os.makedirs(os.path.dirname(f'{repository}/{path}'), exist_ok=True)
        with open(f'{repository}/{path}', 'wb') as file:
            file.write(os.fsencode(contents))
    git('init', '-q', '-b', 'main')
    for name, contents in (('info/attributes', info), ('users', users)):
        with open(f'{repository}/.git/{name}', 'w') as file:
            file.write(contents)
    git('config', 'core.attributesFile', os.path.abspath(f'{repository}/.git/users'))
    # The blobs are as the files are.
    git('-c', 'core.attributesFile=/dev/null', '-c', 'core.autocrlf=false', '-c', 'core.safecrlf=false', 'add', '-A')
    git('commit', '-q', '-m', 'made')
    print(f'gitoxide_repositories: {os.path.basename(repository)} has {len(files)} paths')


def main():
    if len(sys.argv) != 3:
        sys.exit(__doc__)
    room, maker = sys.argv[1], Maker(int(sys.argv[2]))
    os.makedirs(room)
    for name, count in (('small', 200), ('middle', 2000), ('large', 10000)):
        maker.mixed(f'{room}/{name}', count)
    make(f'{room}/typical', {'.gitattributes': TYPICAL, **maker.paths(2000)})
    make(f'{room}/wide', {'.gitattributes': maker.wide(), **maker.paths(2000)})
    deep = {'.gitattributes': TYPICAL}
    for number in range(1000):
        directory = f'p{number // 100}/q{number // 10}/r{number}/'
        deep[directory + '.gitattributes'] = '*.c text\n*.h -text diff=cpp\n/x eol=lf\n'
        deep[directory + 'f.c'] = 'x\n'
    make(f'{room}/deep', deep)


main()
