#!/usr/bin/env python3
# Makes the tables `hostile` and `hostile_lines` of crates/rows/data/scripts: inputs that are to make a reader slow or wrong.
# What each must write follows from the pages of git by a rule of a line or two, which stands beside it here.
# usage: hostile_rows.py [--write]
# Without --write it compares the rows that are there with those that it makes.
import sys

import tables


def add(contents, source=b'.gitattributes', macros=b'm'):
    return b'add %s %d 0 %d\n%s%s\n' % (macros, len(source), len(contents), source, contents)


def names(*selected):
    return b'names %d\n' % len(selected) + b''.join(name + b'\n' for name in selected)


def ask(path, form=b'l', case=b's', kind=b'f'):
    return b'ask %s %s %s %d\n%s\n' % (form, case, kind, len(path), path)


def scripts():
    """The name of a script, the script, and what it must write."""
    # A matcher that goes back at each star would take longer than the universe: no `b` ends the path.
    path = b'a' * 5000
    yield 'stars', add(b'*a' * 200 + b'b x\n') + names(b'x') + ask(path), path + b': x: unspecified\n'
    yield 'stars_that_match', add(b'*a' * 200 + b'b x\n') + names(b'x') + ask(path + b'b'), path + b'b: x: set\n'
    # Each `**/` takes any number of directories.
    deep = b'a/' * 1000
    yield ('directories', add(b'**/' * 64 + b'b x\n') + names(b'x') + ask(deep + b'c') + ask(deep + b'b'),
           deep + b'c: x: unspecified\n' + deep + b'b: x: set\n')
    yield ('stars_under_fold', add(b'*A?' * 150 + b'b x\n') + names(b'x') + ask(path, case=b'i') + ask(path + b'B', case=b'i'),
           path + b': x: unspecified\n' + path + b'B: x: set\n')
    # A bracket that nothing closes is malformed, and a malformed pattern matches nothing.
    yield ('brackets', add(b'[' + b'[:' * 3000 + b' x\n' + b'[' * 3000 + b'a y\n') + names(b'x', b'y') + ask(b'['),
           b'[: x: unspecified\n[: y: unspecified\n')
    # A macro that is set sets its body: sixty in a row, each caused by the one before it.
    chain = b''.join(b'[attr]m%d m%d\n' % (k, k + 1) for k in range(60)) + b'* m0\n'
    causes = [b'-'] + [b'm%d' % k for k in range(60)]
    yield ('chain', add(chain) + names(*(b'm%d' % k for k in range(61))) + ask(b'f', form=b'o'),
           b''.join(b'f: m%d: set\t.gitattributes:61\t*\t%s\n' % (k, causes[k]) for k in range(61)))
    # Each macro of a ring sets the next one, and the line's own item comes first.
    ring = b''.join(b'[attr]r%d r%d\n' % (k, (k + 1) % 500) for k in range(500)) + b'f r7 -r6\n'
    yield ('ring', add(ring) + names(b'r6', b'r7', b'r8', b'r5', b'r499') + ask(b'f'),
           b'f: r6: unset\nf: r7: set\nf: r8: set\nf: r5: set\nf: r499: set\n')
    # A macro whose body has each other macro twice: an attribute is set once.
    twice = b''.join(b'[attr]t%d t%d t%d\n' % (k, k + 1, k + 1) for k in range(60)) + b'* t0\n'
    yield 'twice', add(twice) + names(b't60', b't30') + ask(b'f'), b'f: t60: set\nf: t30: set\n'
    # Many names on a line; the last of equal names counts.
    many = b' '.join(b'n%d' % k for k in range(3000))
    yield ('names', add(b'* ' + many + b' -n0 n1=v\n') + names(b'n0', b'n1', b'n2', b'n2999', b'n3000') + ask(b'f'),
           b'f: n0: unset\nf: n1: v\nf: n2: set\nf: n2999: set\nf: n3000: unspecified\n')
    # Many lines: the last that matches counts.
    lines = b''.join(b'f%d x=%d\n*.t%d y=%d\n' % (k % 7, k, k % 5, k) for k in range(1500))
    yield 'lines', add(lines) + names(b'x', b'y') + ask(b'f3.t4') + ask(b'f3'), (
        b'f3.t4: x: unspecified\nf3.t4: y: 1499\nf3: x: %d\nf3: y: unspecified\n' % max(k for k in range(1500) if k % 7 == 3))
    # Many lists, the last of which takes precedence, and as many pops and one more.
    lists = b''.join(add(b'* x=%d\n' % k, b'%d/.gitattributes' % k if k % 2 else b'.gitattributes') for k in range(400))
    yield ('lists', lists + names(b'x') + ask(b'f') + ask(b'399/f') + b'pop\npop\n' + ask(b'f') + b'pop\n' * 400 + ask(b'f'),
           b'f: x: 398\n399/f: x: 399\nf: x: 396\nf: x: unspecified\n')
    # A popped list takes its macros along, and the name stays known.
    yield ('popped_macros', add(b'[attr]m x\n* m\n') + add(b'[attr]m y\n') * 30 + names(b'x', b'y') + ask(b'f') + b'pop\n' * 30
           + ask(b'f'), b'f: x: unspecified\nf: y: set\nf: x: set\nf: y: unspecified\n')
    # Bytes that are no text, NUL among them, in a pattern and in a path.
    raw = bytes(range(1, 9)) + bytes(range(14, 32)) + bytes(range(127, 256))
    yield ('bytes', add(raw.replace(b'\\', b'') + b' x\n') + names(b'x') + ask(raw, form=b'z') + ask(raw[1:], form=b'z'),
           raw + b'\0x\0set\0' + raw[1:] + b'\0x\0unspecified\0')
    # A value is all bytes up to a blank.
    value = b'=' * 2000 + b'v' * 2000
    yield 'value', add(b'* x=' + value + b'\n') + names(b'x') + ask(b'f'), b'f: x: ' + value + b'\n'
    # Long patterns and sources that differ in their last bytes alone, on lines of equal numbers and 1,024 lines apart. Each answer
    # has its own. Of the lists of one pattern the later one decides.
    front, source = b'[' + b'ab' * 600, b'x' * 1100
    sources = [source + b'%d' % k for k in range(3)]
    texts = [front + b'c%d]' % k for k in range(6)]
    in_turn = [texts[k] + b' x=%d\n' % k + b'\n' * 1023 + texts[k + 1] + b' y=%d\n' % k for k in range(0, 6, 2)]
    asks = b''.join(ask(b'%d' % k, form=b'o') for k in [0, 2, 4, 1, 3, 5] * 3)
    origins = [b'%s:%d\t%s' % (sources[k // 2], 1 + k % 2 * 1024, texts[k]) for k in range(6)]
    told = [b'%d: x: %d\t%s\t-\n%d: y: unspecified\t-\t-\t-\n' % (k, k, origins[k], k) if k % 2 == 0 else
            b'%d: x: unspecified\t-\t-\t-\n%d: y: %d\t%s\t-\n' % (k, k, k - 1, origins[k]) for k in range(6)]
    yield ('long_in_turn', b''.join(map(add, in_turn, sources)) + names(b'x', b'y') + asks,
           b''.join(told[k] for k in [0, 2, 4, 1, 3, 5] * 3))


def broken():
    """The name of a script with a malformed record, the script, and what it must write before that one."""
    whole = add(b'* x\n') + names(b'x') + ask(b'f')
    for name, record in [('sign', b'ask l s f +1\nf\n'), ('zero', b'ask l s f 01\nf\n'), ('cr', b'ask l s f 1\r\nf\n'),
                         ('long', b'ask l s f 2\nf\n'), ('short', b'ask l s f 1\nff\n'), ('cut', b'ask l s f 9\n'), ('no_end', b'pop'),
                         ('word', b'push\n'), ('letter', b'ask x s f 1\nf\n'), ('digits', b'ask l s f 123456789\nf\n'),
                         ('no_text', b'names 1\n\xff\n'), ('count', b'names 3\nx\ny\n')]:
        yield name, whole + record, b'f: x: set\n'


def reports():
    """The name of an attributes file, the file, and the report of its lines."""
    yield 'blank', b'\r\n\t \n\n#\n# * a\n \r', b''
    yield 'nul', b'a\0b x y\0\n* z\n', b'1: x ?y\0\n2: z\n'
    count = 2500
    yield 'many', b'* a -b !c d=e\n' * count, b''.join(b'%d: a -b !c d=e\n' % k for k in range(1, count + 1))
    yield 'marks', b'\xef\xbb\xbf* a\n\xef\xbb\xbf* b\n', b'1: a\n2: b\n'
    yield 'quote', b'"' + b'a' * 20000 + b' x y\n', b'1: x y\n'
    yield 'escapes', b'"' + b'\\101\\t\\"' * 3000 + b'" x\n', b'1: x\n'
    yield 'words', b'* ' + b'a \t' * 5000 + b'\n', b'1:' + b' a' * 5000 + b'\n'
    # `[attr]` with nothing behind it is a pattern, a bracket.
    yield 'macros', b'[attr]m a\n[attr]-m a\n[attr] a\n!x a\n\\!x a\n', b'1: a\n2! macro-name\n3: a\n4! negative\n5: a\n'


def main():
    write = sys.argv[1:] == ['--write']
    whole = [(name, (script, written, b'-')) for name, script, written in scripts()]
    malformed = [('malformed: ' + name, (script, written, b'4')) for name, script, written in broken()]
    told = [(name, (contents, written, b'-')) for name, contents, written in reports()]
    tables.keep('hostile', 'SCRIPT | what it writes | number of its malformed record, or -', whole + malformed, write)
    tables.keep('hostile_lines', 'ATTRIBUTES FILE | the report of its lines | -', told, write)
    print('hostile_rows: %d rows are %s' % (len(whole + malformed + told), 'written' if write else 'as they are made'))


main()
