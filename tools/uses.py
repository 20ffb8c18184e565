#!/usr/bin/env python3
"""uses.py: crates.txt lists for each crate the crates that it names itself, and no others. A crate names X where its code,
specifications or proofs say `Rattle.X`, or its code says `X::` or `use X`; comments and must-fail edits do not count. What only the
crates below need is not listed: rt finds it by their lines. And what contracts and specifications cite stands in specs/: neither names
a module of proofs/ of this repository."""
import glob
import re
import sys

# libraries of the kit that are no crates here; std is always there and never listed
KIT = {'bytes', 'check', 'io', 'libc', 'os'}


def listed():
    lines = [line.partition('#')[0].partition(':') for line in open('crates.txt')]
    return {name.split()[0]: uses.split() for name, colon, uses in lines if colon}


def files(crate, kind):
    """The files of a kind that a crate has, without what rt made."""
    paths = sorted(glob.glob(f'crates/{crate}/**/*.{kind}', recursive=True))
    return [path for path in paths if path.split('/')[2] != 'out']


def text(crate, kind, comment):
    """All files of a kind that a crate has, without comments."""
    return re.sub(f'{comment}.*', '', '\n'.join(open(path, encoding='utf-8').read() for path in files(crate, kind)))


def of_std(code):
    """The modules of std that the code names by their last word, as `io` by `use std::io;`."""
    return {name for names in re.findall(r'\buse std::([^;]*);', code) for name in re.findall(r'(\w+)(?=\s*(?:[,}]|::\{\s*self\b|$))', names)}


def named(crate):
    """The words that stand where the name of a crate can."""
    code, proofs = text(crate, 'rt', '//'), text(crate, 'antt', '--')
    found = {*re.findall(r'\buse (\w+)', code), *re.findall(r'(?<![\w:])(\w+)::', code)} - of_std(code)
    return {*re.findall(r'\bRattle\.(\w+)', code + proofs), *found}


def proofs_cited(crate):
    """The imports by which contracts or specifications of a crate cite a module of proofs/; std's are std's own affair."""
    paths = [path for path in files(crate, 'rt') + files(crate, 'antt') if path.split('/')[2] in ('src', 'specs')]
    return [f'{path}:{number}: cites proofs/' for path in paths for number, line in enumerate(open(path, encoding='utf-8'), 1)
            if re.match(r'\s*(ghost |pub )*use (?!Rattle\.std\.)\S+\.proofs\.', line)]


def main():
    crates = listed()
    wrong = []
    for crate, uses in crates.items():
        words = named(crate)
        wrong += [f'{crate}: lists {use}, which it names nowhere' for use in uses if use not in words]
        wrong += [f'{crate}: names {use}, which it does not list' for use in sorted(words & {*crates, *KIT} - {crate, *uses})]
        wrong += proofs_cited(crate)
    print('\n'.join(wrong) if wrong else f'uses.py: {sum(map(len, crates.values()))} uses, each in crates.txt and in the code')
    sys.exit(1 if wrong else 0)


main()
