#!/usr/bin/env python3
"""The facts that three or more functions ask for, and how many: facts.py [FOLDER]. A fact is one factor of a `requires` of a function in
crates/*/src of FOLDER (default: this repository), as it is spelled there."""
import collections
import glob
import os
import re
import sys

HERE = os.path.dirname(os.path.dirname(os.path.abspath(__file__)))
FUNCTION = re.compile(r'\bfn (\w+)(?:<[^>]*>)?\([^)]*\)(.*?)\n\s*\{', re.S)
REQUIRES = re.compile(r'requires\s*\w*\s*\{(.*?)\}(?=\n|$)', re.S)


def factors(clause):
    for factor in re.split(r'\s×\s', clause):
        factor = ' '.join(factor.split())
        while factor.startswith('(') and factor.endswith(')') and factor.count('(') == factor.count(')'):
            factor = factor[1:-1]
        yield factor


def main():
    root = sys.argv[1] if len(sys.argv) > 1 else HERE
    asked = collections.defaultdict(set)
    for path in sorted(glob.glob(os.path.join(root, 'crates/*/src/*.rt'))):
        crate = os.path.relpath(path, root).split(os.sep)[1]
        for function in FUNCTION.finditer(open(path, encoding='utf-8').read()):
            for clause in REQUIRES.finditer(function[2]):
                for factor in factors(clause[1]):
                    asked[factor].add(f'{crate}::{function[1]}')
    often = sorted(((fact, names) for fact, names in asked.items() if len(names) >= 3), key=lambda row: (-len(row[1]), row[0]))
    for fact, names in often:
        print(f'{len(names):3}  {fact}')
    print(f'facts.py: {len(often)} facts in the contracts of three or more functions, {sum(len(n) for _, n in often)} places')


if __name__ == '__main__':
    main()
