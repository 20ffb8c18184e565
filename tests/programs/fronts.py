#!/usr/bin/env python3
"""fronts.py FILE: the shared fronts that a dictionary of version 4 or 5 stores. Shows for each entry the front's length, the common
one's if it is longer, and the rest of the headword as a viewer draws it that does not join it: from Shift JIS, with rubbish where the
front cuts a character. Exit status 1 if one does, or could be longer without doing so. Reads by docs/FORMAT.md, not by the engine."""
import os
import sys

NINDEX2 = {4: 190, 5: 192}


def number(image, at, width):
    return int.from_bytes(image[at:at + width], 'little')


def word(image, at):
    return image[at:image.index(0, at)]


def runs(image):
    """The first block of each run, in the order of the index, and where it stands."""
    at, base = 256, 256 + 256 * number(image, 148, 2)
    for _ in range(number(image, NINDEX2[image[141]], 4)):
        block = number(image, at, 2)
        yield block, base + 256 * block
        at += 2 + len(word(image, at + 2)) + 1


def entries(image, run):
    """The shared front and the rest of each headword of a run."""
    at = run + 2
    while field := number(image, at, 2):
        yield image[at + 2], word(image, at + 3)
        at += 3 + field


def places(headword):
    """Where a headword may be cut: before and behind each of its characters."""
    at = 0
    while at < len(headword):
        yield at
        is_lead = 0x81 <= headword[at] <= 0x9F or 0xE0 <= headword[at] <= 0xFC
        at += 2 if is_lead and at + 1 < len(headword) else 1
    yield at


def drawn(rest):
    """The rest of a headword by itself, with the bytes that show nothing as escapes."""
    text = rest.decode('cp932', 'backslashreplace')
    return ''.join(sign if sign.isprintable() else ''.join(f'\\x{byte:02x}' for byte in sign.encode('cp932')) for sign in text)


def main():
    with open(sys.argv[1], 'rb') as file:
        image = file.read()
    count = shared = shorter = cut = short = 0
    for block, run in runs(image):
        print(f'run at block {block}, blocks {number(image, run, 2)}')
        before = b''
        for front, rest in entries(image, run):
            headword = before[:front] + rest
            common = len(os.path.commonprefix([before, headword]))
            whole = [place for place in places(headword) if place <= common]
            count += 1
            shared += front > 0
            shorter += front < common
            cut += front not in whole
            short += front < whole[-1]
            of = f' of {common}' if common > front else ''
            print(f'{front:3}{of:6} {drawn(rest)}' + ('' if front in whole else ': cut'))
            before = headword
    if count != number(image, 160, 4):
        sys.exit('the header has another number of entries')
    print(f'{count} entries, {shared} with a shared front; {shorter} fronts are shorter than the common one,',
          f'{cut or "none"} cut{"s" if cut < 2 else ""} a character' + (f', {short} could be longer' if short else ''))
    sys.exit(1 if cut or short else 0)


sys.stdout.reconfigure(encoding='utf-8')
main()
