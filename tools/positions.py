#!/usr/bin/env python3
"""positions.py: only header::position, and in the specification block_position, add a header, an index and blocks. In the code and in
every definition each other sum with the header's bytes has the extended header alone beside them, which is where the index starts; and
each other sum with blocks has only blocks and a small number, which is an offset inside a lent data area. The sums that are neither are
listed here with what they are."""
import glob
import re
import sys

POSITION = {
    'crates/header/src/lib.rt': ['HEADER', 'extended', 'index * 256', '256 * b'],
    'crates/spec/specs/Header.antt': ['256', 'extended', 'index_blocks * 256', '256 * b'],
}

NEITHER = {
    ('crates/spec/specs/Bytes.antt', 'b + 256 * from_little_endian bs'): 'a number of any bytes',
    ('crates/seek/src/lib.rt', 'start + 256 * size'): 'inside the data area: start is 256 * b',
    ('crates/spec/specs/PositionForm.antt', 'data_start f + 256 * b'): 'the law of position',
    ('crates/spec/specs/PositionForm.antt', '256 * § + f.format.extended'): "the law of L: document 01's sum",
}


def plain(line):
    """the line without comment and quotations"""
    return re.sub(r'"[^"]*"', '', re.sub(r'(//|-- ).*', '', line))


def sums(line):
    """the sums of a line as lists of terms, those in brackets first; a bracket inside a term is '§'"""
    while True:
        inner = re.search(r'\(([^()]*)\)', line)
        text = inner.group(1) if inner else line
        for part in re.split(r'[\[\]{},;|⌜⌝×≤<≡→=↦]|\.\.', text):
            terms = [term.strip() for term in re.split(r' [+-] ', part)]
            if len(terms) > 1 and ' + ' in part:
                yield terms
        if not inner:
            return
        line = line[:inner.start()] + '§' + line[inner.end():]


def wrong(terms):
    header = 'HEADER' in terms or terms[0] == '256'
    blocks = [term for term in terms if re.match(r'256 \* ', term) or re.search(r' \* 256$', term)]
    if header:
        return len(terms) != 2 or not terms[1].endswith('extended')
    rest = [term for term in terms if term not in blocks and not re.fullmatch(r'\d{1,2}', term)]
    return bool(blocks and rest)


def main():
    failed = 0
    seen = {name: 0 for name in POSITION}
    listed = {key: 0 for key in NEITHER}
    for name in sorted(glob.glob('crates/*/src/*.rt') + glob.glob('crates/*/specs/*.antt')):
        for number, line in enumerate(open(name), 1):
            for terms in sums(plain(line)):
                key = (name, ' + '.join(terms))
                if terms == POSITION.get(name):
                    seen[name] += 1
                elif key in NEITHER:
                    listed[key] += 1
                elif wrong(terms):
                    failed += 1
                    print(f'{name}:{number}: adds {key[1]}')
    for name, times in seen.items():
        if times != 1:
            failed += 1
            print(f'{name}: the position of a block is added {times} times')
    for (name, text), times in listed.items():
        if times != 1:
            failed += 1
            print(f'{name}: {text} stands {times} times, and is listed here')
    sys.exit(1 if failed else 0)


main()
