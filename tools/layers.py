#!/usr/bin/env python3
"""layers.py: the picture of layers in docs/ARCHITECTURE.md is that of crates.txt. A crate's level is one more than the highest of
the crates that it uses."""
import re
import sys


def levels():
    level = {}
    for line in open('crates.txt'):
        name, colon, uses = line.partition(':')
        if not colon or line.startswith('#'):
            continue
        # (the word staticlib may follow the name)
        level[name.split()[0]] = max((level[use] + 1 for use in uses.split() if use in level), default=0)
    return level


def drawn():
    document = open('docs/ARCHITECTURE.md').read()
    picture = re.search(r'^```layers\n(.*?)^```$', document, re.M | re.S).group(1)
    lines = [line.split(None, 1) for line in picture.splitlines()]
    return {name: int(number) for number, names in lines for name in names.split(' · ')}


def main():
    level, picture = levels(), drawn()
    wrong = [name for name in {**level, **picture} if level.get(name) != picture.get(name)]
    for name in wrong:
        print(f'{name}: level {level.get(name)} by crates.txt, {picture.get(name)} in the picture')
    sys.exit(1 if wrong else 0)


main()
