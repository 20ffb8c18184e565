#!/usr/bin/env python3
"""exchange.py SEED NUMBER FOLDER [WRAPPER..]: dictionaries that travel. Random entries of any bytes go through a table into a
dictionary, every second one of version 5, and come out of dump as they were; a dictionary made from the dump, with the same
identifier, is the same, byte for byte. Random lists are refused at the lines at which a model of the list's rules, written here
apart from the program, finds a fault. Works in the present folder, which must be empty."""
import random
import re
import subprocess
import sys

# what nobody sees at a headword's end: by Unicode's general categories separators, formats and controls, as far as the program knows them
UNSEEN = ' \u00a0\u00ad\u2028\u2029\u202f\u205f\u2060\u3000\ufeff' + ''.join(map(chr, [*range(0x80, 0xa0), *range(0x2000, 0x2010)]))
PIECES = [b'a', b'valve', b' ', b'%', b'%41', b'%20', b'%00', b'\t', b'\t', b'\r', b'\x01', b'\xc2\xa0', b'\x95\x5c', b'\xe9', b'<', b'\\',
          b'\x81\x40', b'\xc3\x81@', b'\x82\x81@', b'\xe2\x80\x89', b'\xe2\x80\x8b', b'\xc2\x85', b'\xe3\x80\x80']
PLAIN = [b'a', b'b', b'valve', b'c d', b'%41', b'\xe9', b'\x95\x5c', b'<<', b'7', b'-', b'\xc3\x81@', b'\x82\x81@', b'\xe2\x80\x89m']


def glossary(*arguments, text=b''):
    return subprocess.run(PROGRAM + list(arguments), input=text, stdout=subprocess.PIPE, stderr=subprocess.PIPE)


def done(*arguments, text=b''):
    run = glossary(*arguments, text=text)
    if run.returncode != 0:
        sys.exit(f'exchange: {arguments}: status {run.returncode}: {run.stderr.decode(errors="replace")}')
    return run.stdout


def word(rng, least, most):
    kind = rng.random()
    if kind < 0.4:
        return bytes(rng.randrange(1, 256) for _ in range(rng.randint(least, most)))
    whole = b''.join(rng.choice(PIECES).replace(b'\0', b'') for _ in range(rng.randint(least, 12)))
    return whole[:most] if len(whole) >= least else b'x'


def escaped(rng, raw):
    """%XX where it must be, and elsewhere now and then"""
    must = {i for i, byte in enumerate(raw) if byte < 32 or byte in (127, 37)}
    ends = {0, 1, 2, len(raw) - 1, len(raw) - 2, len(raw) - 3}
    return b''.join((b'%%%02x' if rng.random() < 0.5 else b'%%%02X') % byte
                    if i in must or i in ends or rng.random() < 0.05 else bytes([byte]) for i, byte in enumerate(raw))


def unescaped(written):
    return re.sub(rb'%([0-9A-Fa-f]{2})', lambda m: bytes([int(m[1], 16)]), written)


def read_dump(dump):
    lines = dump.split(b'\n')
    assert lines[0] == b'%headword\tattribute\ttext' and lines[-1] == b'', lines
    rows = [line.split(b'\t') for line in lines[1:-1]]
    return [(unescaped(h), int(a, 16), unescaped(t)) for h, a, t in rows]


def kind_told(rng, is_five):
    """make's options for a version, for version 5 with an identifier"""
    return ['--format=5', f'--identifier={rng.choice([0, 1, 2 ** 64 - 1, rng.getrandbits(64)]):016X}'] if is_five else []


def test_kind(path, kind):
    """The dictionary has the version that was told, and its identifier low byte first."""
    with open(path, 'rb') as file:
        header = file.read(256)
    ident = int(kind[1].split('=')[1], 16) if kind else 0
    if header[140:142] + header[216:224] != bytes([0, 5 if kind else 4]) + ident.to_bytes(8, 'little'):
        sys.exit(f'exchange: {kind} gives {header.hex()}')


def round_trip(rng, is_five):
    entries, kind = {}, kind_told(rng, is_five)
    for _ in range(rng.choice([0, 1, 3, 20, 60])):
        entries[word(rng, 1, 248)] = (rng.randrange(256) & ~0x10 | 0x80, word(rng, 0, rng.choice([5, 300, 3000])))
    rows = [(h, a, t) for h, (a, t) in sorted(entries.items())]
    shuffled = rng.sample(rows, len(rows))
    table = b'%headword\ttext\tattribute\n' + b''.join(
        b'%s\t%s\t%d%s' % (escaped(rng, h), escaped(rng, t), a, rng.choice([b'\n', b'\r\n', b'\n\n'])) for h, a, t in shuffled)
    done('make', *kind, 'first.dic', '-', text=table)
    test_kind('first.dic', kind)
    dump = done('dump', 'first.dic')
    if read_dump(dump) != rows:
        sys.exit('exchange: the dump has other entries')
    done('make', *kind, 'second.dic', '-', text=dump)
    with open('first.dic', 'rb') as first, open('second.dic', 'rb') as second:
        if first.read() != second.read():
            sys.exit('exchange: make of a dump is another dictionary')
    same = b'%d as stored' % len(rows)
    if same not in done('merge', 'second.dic', '-', text=dump):
        sys.exit('exchange: merging a dump changes something')
    subprocess.run(['rm', 'first.dic', 'second.dic'], check=True)
    return len(rows)


def ends(headword):
    """The first and the last character of a headword: of UTF-8 if it is that, else of Shift JIS."""
    try:
        characters = headword.decode()
    except UnicodeDecodeError:
        characters = re.findall(rb'[\x81-\x9f\xe0-\xfc][\x40-\x7e\x80-\xff]|.', headword, re.S)
        return ['\u3000' if c == b'\x81\x40' else c.decode('latin-1') if c < b'\x80' else 'x' for c in (characters[0], characters[-1])]
    return [characters[0], characters[-1]]


def faulty_lines(content):
    """the lines of a plain list that break a rule"""
    faults, seen = set(), {}
    for number, line in enumerate(content.split(b'\n'), 1):
        line = line[:-1] if line.endswith(b'\r') else line
        if line == b'':
            continue
        columns = line.split(b'\t')
        if len(columns) != 2 or any(byte < 32 or byte == 127 for column in columns for byte in column):
            faults.add(number)
            continue
        headword, text = columns
        if not 1 <= len(headword) <= 248 or not 1 <= len(text) <= 3000 or any(end in UNSEEN for end in ends(headword)):
            faults.add(number)
        if headword in seen and headword:
            faults.add(number)
        seen[headword] = number
    return faults


def random_list(rng):
    pieces, ends = rng.choice([(PIECES, [b'', b'\tb', b'\tb\r']), (PLAIN, [b'\tb', b'\tb\r'])])
    lines = [b''.join(rng.choice(pieces) for _ in range(rng.randint(0, 5))) + rng.choice(ends) for _ in range(rng.randint(1, 5))]
    content = b'first\tline\n' + b'\n'.join(lines)
    expected = faulty_lines(content)
    run = glossary('make', 'list.dic', '-', text=content)
    told = {int(n) for n in re.findall(rb'^standard input:(\d+): ', run.stderr, re.M)}
    if told != expected or (run.returncode == 0) != (not expected):
        sys.exit(f'exchange: {content!r}: faults in lines {sorted(told)}, not {sorted(expected)}, status {run.returncode}')
    if run.returncode == 0:
        subprocess.run(['rm', 'list.dic'], check=True)
    return run.returncode == 0


def main():
    rng = random.Random(int(sys.argv[1]))
    number = int(sys.argv[2])
    entries = sum(round_trip(rng, k % 2 == 1) for k in range(number))
    accepted = sum(random_list(rng) for _ in range(4 * number))
    if not 0 < accepted < 4 * number:
        sys.exit(f'exchange: {accepted} of {4 * number} lists are accepted')
    print(f'{number} dictionaries ({entries} entries) as they were after a dump; {4 * number} lists, {accepted} accepted, faults as expected')


PROGRAM = sys.argv[4:] + [sys.argv[3] + '/glossary']
main()
