#!/usr/bin/env python3
"""wrap.py: breaks the long lines of specifications and proofs.

    wrap.py [OPTIONS] CRATE..      every .antt file of these crates, in place
    wrap.py [OPTIONS] FILE..       these files
    wrap.py [OPTIONS]              every crate of the repository
    rt fmt                         afterwards, in the crate's folder: the layout is the formatter's

    --check      write nothing; say what would change, exit 1 if anything would
    --width N    what a long line is, and where lines are broken (200)

A line is broken behind `in`, else at a `let`'s value, else at commas, else in front of an operator, else at arguments; the pieces stand four columns further in. Import
lists, comments and lines with a quotation stay. What cannot be broken is said on standard error. A second run changes nothing.
"""
import argparse
import glob
import os
import re
import sys

# `name a b =`, what a clause begins with
CLAUSE = re.compile(r'(\S+)((?: [^\s=]+)*) =(?=\s)')
# no line is broken behind these, nor in front of those
BEHIND = set('∙ ≡ ++ × → * + - < ≤ ∷ = : ↦ λ let'.split())
FRONT = {'in', '=', ':', '↦', 'where'}
# a line is broken rather in front of these, of the first row that it has
LOOSE = [set(row.split()) for row in ('|', '→ ↔', '× ⊎', '≡ ≤ <', '∙', '++ ∷')]


def cut(text, at_space):
    """The text cut at those spaces outside brackets that the test takes."""
    depth, start, out = 0, 0, []
    for at, char in enumerate(text):
        if char in '([{':
            depth += 1
        elif char in ')]}':
            # it may close what an earlier line opened
            depth = max(0, depth - 1)
        elif char == ' ' and depth == 0 and at_space(at):
            out.append(text[start:at])
            start = at + 1
    return out + [text[start:]]


def split(text):
    """The parts of a text that is too long for a line: behind each `in`, else a `let` and its value, else at commas, else in front of an
    operator, else at arguments."""
    parts = cut(text, lambda at: text[:at].endswith(' in'))
    if len(parts) == 1:
        parts = cut(text, lambda at: text.startswith('let ') and text[at:at + 3] == ' = ')
    if len(parts) == 1:
        parts = cut(text, lambda at: text[at - 1] in ',;')
    for row in LOOSE:
        if len(parts) == 1:
            parts = cut(text, lambda at: text[at + 1:].split(' ')[0] in row)
    if len(parts) == 1:
        parts = []
        # a projection stays with what it is of
        for part in cut(text, lambda at: not re.match(r'\.\S', text[at + 1:])):
            if parts and (parts[-1].split(' ')[-1] in BEHIND or part in FRONT):
                parts[-1] += ' ' + part
            else:
                parts.append(part)
    return parts


class Filler:
    """Lines of at most so many columns, filled one after the other."""

    def __init__(self, indent, width):
        self.lines, self.width, self.fresh = [' ' * indent], width, True

    def put(self, text, indent):
        """One piece: behind the others where it fits, else on a line of its own, else in parts."""
        room = self.width - len(self.lines[-1]) - (not self.fresh)
        if len(text) > room and not self.fresh and (indent + len(text) <= self.width or room < 40):
            self.lines.append(' ' * indent)
            self.fresh = True
            room = self.width - indent
        if not self.fresh:
            self.lines[-1] += ' '
        self.fresh = False
        if len(text) <= room:
            self.lines[-1] += text
        else:
            self.parts(text, indent)

    def parts(self, text, indent):
        pieces = split(text)
        if len(pieces) > 1:
            self.fresh = True
            for piece in pieces:
                self.put(piece, indent + 4)
            return
        opened = re.match(r'[^(\[{]*[(\[{]', text)
        if not opened:
            self.lines[-1] += text
            return
        self.lines[-1] += opened.group()
        self.fresh = True
        rest = text[opened.end():].strip()
        self.inner(rest, indent + 4)

    def inner(self, rest, indent):
        """What follows an opening bracket, with its closing one."""
        depth = 0
        for at, char in enumerate(rest):
            depth += (char in '([{') - (char in ')]}')
            if depth < 0:
                break
        else:
            # a later line closes it
            at = len(rest)
        inside, tail = rest[:at].strip(), rest[at:]
        pieces = split(inside)
        pieces[-1] += tail
        for piece in pieces:
            self.put(piece, indent)


def wrap(line, width):
    """The line, or the lines that it is broken into."""
    if len(line) <= width or '--' in line or '"' in line or re.match(r'(pub )?use ', line):
        return [line]
    indent = len(line) - len(line.lstrip(' '))
    filler = Filler(indent, width)
    for piece in split(line.strip()):
        filler.put(piece, indent + 4)
    return filler.lines


def wrapped(text, width):
    """The text with its long lines broken. A clause's right side goes to lines of its own."""
    out = []
    for line in text.split('\n'):
        found = CLAUSE.match(line)
        if len(line) > width and found and '--' not in line:
            out.append(found.group())
            line = f'    {line[found.end():].lstrip()}'
        out += wrap(line, width)
    return '\n'.join(out)


def main():
    parser = argparse.ArgumentParser(description=__doc__, formatter_class=argparse.RawDescriptionHelpFormatter)
    parser.add_argument('what', nargs='*')
    parser.add_argument('--check', action='store_true')
    parser.add_argument('--width', type=int, default=200)
    options = parser.parse_args()
    root = os.path.dirname(os.path.dirname(os.path.abspath(__file__)))
    files = []
    for what in options.what or ['*']:
        if what.endswith('.antt'):
            files.append(what)
        else:
            files += sorted(glob.glob(f'{root}/crates/{what}/specs/*.antt') + glob.glob(f'{root}/crates/{what}/proofs/**/*.antt', recursive=True))
    changed = 0
    for file in files:
        with open(file, encoding='utf-8') as it:
            text = it.read()
        new = wrapped(text, options.width)
        if new.split() != text.split():
            sys.exit(f'{file}: more than blanks would change')
        for number, line in enumerate(new.split('\n'), 1):
            if len(line) > options.width and not re.match(r'(pub )?use ', line):
                print(f'{file}:{number}: a line stays long', file=sys.stderr)
        if new == text:
            continue
        changed += 1
        print(file)
        if not options.check:
            with open(file, 'w', encoding='utf-8') as it:
                it.write(new)
    print(f'{len(files)} files, {changed} changed', file=sys.stderr)
    return 1 if options.check and changed else 0


if __name__ == '__main__':
    sys.exit(main())
