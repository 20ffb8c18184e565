#!/usr/bin/env python3
"""marks.py SEED NUMBER FOLDER: fills so many random manuals with the folder's fill, every second one from a dictionary of
version 5, and compares exit status, output, the place of the first message and the summary with a model of the marks that is
written as regular expressions. Works in the present folder, which must be empty."""
import concurrent.futures
import os
import random
import re
import subprocess
import sys

SINGLE = rb'(?:[^<>]|(?<!<)<(?!<)|(?<!>)>(?!>))'
MARK = rb'(?<!<)<<(?!<)(%s+)(?<!>)>>(?!>)' % SINGLE
SIGNS = {b'%open': b'<<', b'%close': b'>>', b'%lt': b'<', b'%gt': b'>'}
ENTRIES = {b'valve': b'soupape', b'valve>': b'>>', b'<a': b'<<valve>>', b'a b': b'', b'a>b': b'1', b'a<b': b'2', b'>': b'3', b'a': b'%',
           b'\x83\x5c': b'\x95\x5c', b'v\xc3\xa9': b'\xe5\xbc\x81', b'50%': b'4', b'%41': b'5', b'a\nb': b'6', b'%open': b'7'}
PIECES = [b'<', b'>', b'%', *SIGNS, b'%3E', b'%3c', b'%25', b'%0A', b'%00', b'2', b'5', b'F', b'\n', b'\r\n', b' ', b'x', b'\x83',
          b'<<valve>>', b'<<%open>>', *ENTRIES, *[b'<<', b'>>'] * 4]
DICTIONARIES = ['four.dic', 'five.dic']
BYTES = [bytes([byte]) for byte in range(256)]
KNOWN = [b'<<' + re.sub(rb'[%<>\n]', lambda sign: b'%%%02X' % sign[0][0], word) + b'>>' for word in ENTRIES] + [b'<<%close>>', b'<<%lt>>', b'<<%gt>>']
KINDS = [PIECES, PIECES + [b'\0', b'\xff\xfe'], BYTES + [b'<<', b'>>'] * 20, KNOWN, KNOWN + [b' ', b'<', b'x', b'>', b'\n', b'%'],
         KNOWN + [b'<<x>>', b' ', b'<<va lve>>'], KNOWN + [b'<<%00>>', b'<<x>>']]


def wrong_place(line, start):
    """Where in a line a run or mark at `start`, which is none of the grammar, goes wrong."""
    if not re.match(rb'<<(?!<)', line[start:]):
        return start
    run = re.compile(SINGLE + b'*').match(line, start + 2).end()
    return start if run == len(line) or re.match(rb'<<>>(?!>)', line[start:]) else run


def read(manual):
    """The marks of a manual, each with its place and what stands in it, and the place of the first fault or None."""
    bom = re.match(rb'\xff\xfe|\xfe\xff', manual)
    if bom or b'\0' in manual:
        before = b'' if bom else manual[:manual.index(b'\0')]
        return [], (before.count(b'\n') + 1, len(before) - before.rfind(b'\n'))
    marks = []
    for number, line in enumerate(manual.split(b'\n'), 1):
        end = re.match(rb'(?:%s|%s)*' % (MARK, SINGLE), line).end()
        for mark in re.finditer(MARK, line[:end]):
            stray = re.search(rb'%(?![0-9A-Fa-f]{2})', mark[1])
            if stray and mark[1] not in SIGNS:
                return marks, (number, mark.start(1) + stray.start() + 1)
            marks.append(((number, mark.start() + 1), mark[1]))
        if end < len(line):
            return marks, (number, wrong_place(line, end) + 1)
    return marks, None


def headword(inside):
    return re.sub(rb'%(..)', lambda escape: bytes([int(escape[1], 16)]), inside)


def model(manual):
    """Status, output, place of the first message, summary."""
    marks, fault = read(manual)
    if fault or not marks:
        return 2, b'', fault, None
    terms = {inside: headword(inside) for _, inside in marks if inside not in SIGNS}
    missing = [place for place, inside in marks if inside in terms and not ENTRIES.get(terms[inside])]
    if missing:
        return 2 if any(b'\0' in word or len(word) > 248 for word in terms.values()) else 1, b'', missing[0], None
    out = re.sub(MARK, lambda mark: SIGNS.get(mark[1]) or ENTRIES[headword(mark[1])], manual)
    signs = sum(inside in SIGNS for _, inside in marks)
    counts = [len(marks) - signs, len(set(terms.values())), *([signs] if signs else []), len(out)]
    return 0, out, None, counts


def filled(fill, dictionary, manual):
    ran = subprocess.run([fill, dictionary, '-'], input=manual, stdout=subprocess.PIPE, stderr=subprocess.PIPE, close_fds=False)
    said = ran.stderr.split(b'\n')[0]
    place = re.match(rb'standard input:(\d+):(\d+): ', said)
    counts = [int(count) for count in re.findall(rb'\d+', said)] if ran.returncode == 0 else None
    return ran.returncode, ran.stdout, place and (int(place[1]), int(place[2])), counts


def manual_of(seed, k):
    rng = random.Random(f'{seed} {k}')
    pieces = rng.choice(KINDS)
    return b''.join(rng.choice(pieces) for _ in range(rng.choice([1, 2, 3, 5, 8, 13, 40])))


def make_dictionaries(glossary):
    rows = [b'\t'.join(''.join(f'%{byte:02X}' for byte in part).encode() for part in entry) for entry in ENTRIES.items()]
    table = b'\n'.join([b'%headword\ttext', *rows])
    for version, path in zip('45', DICTIONARIES):
        subprocess.run([glossary, 'make', f'--format={version}', path, '-'], input=table, stdout=subprocess.DEVNULL, check=True)


def main():
    seed, number, folder = int(sys.argv[1]), int(sys.argv[2]), sys.argv[3]
    fill = os.path.join(folder, 'fill')
    make_dictionaries(os.path.join(folder, 'glossary'))
    manuals = [manual_of(seed, k) for k in range(number)]
    count = {0: 0, 1: 0, 2: 0}
    with concurrent.futures.ThreadPoolExecutor(4) as pool:
        for manual, got in zip(manuals, pool.map(lambda k: filled(fill, DICTIONARIES[k % 2], manuals[k]), range(number))):
            expected = model(manual)
            if expected != got:
                sys.exit(f'manual {manual}: fill gives {got} and not {expected}')
            count[got[0]] += 1
    if min(count.values()) < number // 20:
        sys.exit(f'too few of a kind: {count}')
    print(f'{number} random manuals read as the model does ({count[0]} filled, {count[1]} with absent terms, {count[2]} refused)')


main()
