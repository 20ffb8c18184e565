#!/usr/bin/env python3
"""make.py DIR: writes to DIR each input of `run.sh` as NAME, and beside it, as NAME.list, what the program has to print.

Images and lists are put together here from docs/papers alone (01-scope.md, F-1 of 02-change-requests.md); nothing of the engine is
used. Each input is made in version 4 as NAME and in version 5 as NAME-5, with the same list.
"""
import os
import sys

END = 0xFFFFFFFF

# Offsets of the header fields that version 5 moved, and bytes of the header that a version does not name.
AT = {
    4: {'os': 171, 'index_blkbit': 198, 'extheader': 182, 'empty_block2': 186, 'nindex2': 190, 'nblock2': 194},
    5: {'os': 167, 'index_blkbit': 182, 'extheader': 184, 'empty_block2': 188, 'nindex2': 192, 'nblock2': 196},
}
UNNAMED = {
    4: [(0, 140), (152, 154), (156, 160), (167, 171), (172, 182), (199, 208), (212, 256)],
    5: [(0, 140), (152, 154), (156, 160), (168, 182), (183, 184), (200, 208), (212, 216), (224, 256)],
}


def number(n, width):
    return n.to_bytes(width, 'little')


def patched(image, offset, new):
    return image[:offset] + bytes(new) + image[offset + len(new):]


def shared(a, b):
    n = 0
    while n < min(len(a), len(b)) and a[n] == b[n]:
        n += 1
    return n


class Run:
    """A run at a block: entries (headword, attribute, text), its blocks (0: as many as it needs), what stands behind its end
    marks, and the longest shared front that is written."""

    def __init__(self, block, entries, blocks=0, behind=b'\0', front=255):
        self.block, self.entries = block, entries
        coded, before = b'', b''
        for headword, attribute, text in entries:
            n = min(front, shared(before, headword))
            field = headword[n:] + b'\0' + bytes([attribute]) + text
            coded += number(len(field), 2) + bytes([n]) + field
            before = headword
        self.blocks = blocks or (2 + len(coded) + 2 + 255) // 256
        coded = number(self.blocks, 2) + coded + b'\0\0'
        self.bytes = coded + behind * (256 * self.blocks - len(coded))
        assert len(self.bytes) == 256 * self.blocks


def image(version, runs, data, chain=(), low_version=0, changes=0, identifier=0x0807060504030201):
    """The image of runs in index order among so many data blocks, the others on the chain in that order. A version 4 image has no
    identifier."""
    at = AT[version]
    index = b''.join(number(run.block, 2) + run.entries[0][0] + b'\0' for run in runs)
    index_blocks = (len(index) + 4 + 255) // 256 if runs else 0
    head = bytearray(256)
    for offset, width, n in [
        (140, 2, 256 * version + low_version), (142, 2, 248), (144, 2, 3000), (146, 2, 256), (148, 2, index_blocks), (150, 2, 256),
        (154, 2, 0xFFFF), (160, 4, sum(len(run.entries) for run in runs)), (166, 1, 1),
        (at['empty_block2'], 4, chain[0] if chain else END), (at['nindex2'], 4, len(runs)),
        (at['nblock2'], 4, sum(run.blocks for run in runs)), (208, 4, changes), (216, 8, identifier if version == 5 else 0),
    ]:
        head[offset:offset + width] = number(n, width)
    area = bytearray(256 * data)
    for run in runs:
        area[256 * run.block:256 * (run.block + run.blocks)] = run.bytes
    for block, following in zip(chain, list(chain[1:]) + [END]):
        area[256 * block:256 * block + 6] = b'\0\0' + number(following, 4)
    return bytes(head) + index.ljust(256 * index_blocks, b'\0') + bytes(area)


def listed(runs, data, chain=()):
    """The list of that image."""
    index_bytes = sum(2 + len(run.entries[0][0]) + 1 for run in runs)
    index_blocks = (index_bytes + 4 + 255) // 256 if runs else 0
    lines = [b'%6d%6d%6d%6d\n' % (sum(len(run.entries) for run in runs), index_blocks, data, len(chain))]
    ordinal = 0
    for run in runs:
        for headword, attribute, text in run.entries:
            ordinal += 1
            lines.append(b'%6d%6d%6d%4d%6d %s\n' % (ordinal, run.block, run.blocks, attribute, len(text), headword))
    return b''.join(lines)


def refused(n):
    return b'refused%4d\n' % n


def letters(n):
    return b't' * n


def inputs(version):
    """Each input of a version and its list, by name."""
    made = {}
    at = AT[version]

    def sound(name, runs, data, chain=(), **more):
        blocks = [run.block + i for run in runs for i in range(run.blocks)] + list(chain)
        assert sorted(blocks) == list(range(data)), name
        made[name] = (image(version, runs, data, chain, **more), listed(runs, data, chain))

    sound('empty', [], 0, identifier=0)
    sound('p3', [Run(0, [(b'ABC', 128, b'one'), (b'ABDEF', 128, b'two')])], 1, changes=2)
    # P8's state: two runs, one block free
    sound('p8', [Run(0, [(b'a', 128, b''), (b'a' * 248, 128, b'')]), Run(3, [(b'b', 128, letters(762))])], 7, (2,))
    sound('all-free', [], 3, (1, 0, 2), identifier=2 ** 64 - 1)
    # runs not in the order of their blocks, a chain that goes up and down, every kind of attribute and length, an index of two
    # blocks, a version only for reading, bytes behind the end marks, blocks that are not needed, fronts that are not shared
    sound('several', [
        Run(20, [(b'A', 128, b''), (b'AA', 0xEF, letters(1)), (b'AB', 0xA1, letters(99)), (b'B', 0x8F, letters(100))], 2, b'\x77'),
        Run(0, [(b'b' * 247, 255 - 16, letters(999)), (b'b' * 248, 129, letters(1000)), (b'bc', 128, b'\n')], 0, b'\0', 3),
        Run(23, [(b'\x82\xa0', 128, letters(2999)), (b'\x82\xa0\x82\xa2', 0xE5, letters(3000))], 26),
        Run(10, [(b'\xff', 128, b'x')]),
    ], 50, (49, 15, 11, 12, 14, 13, 19, 16, 18, 17, 22), low_version=16)
    # 65,536 bytes
    runs = [Run(12 * i, [(b'w%02d' % i, 128, letters(2900 + i))]) for i in range(20)] + [Run(240, [(b'x%02d' % i, 128, b'') for i in range(99)])]
    free = tuple(b for b in range(253, -1, -1) if not any(run.block <= b < run.block + run.blocks for run in runs))
    sound('largest', runs, 254, free)
    # 65,536 bytes that make the longest lines for their number
    entries, word, left = [], b'a' * 246, 256 * 254 - 4
    for i in range(255 * 255):
        headword = word + bytes([1 + i // 255, 1 + i % 255])
        need = 3 + len(headword) - (shared(entries[-1][0], headword) if entries else 0) + 2
        if left < need:
            break
        left -= need
        entries.append((headword, 128, b''))
    sound('longest', [Run(0, entries, 254)], 254)

    p3, largest = made['p3'][0], made['largest'][0]
    # anything in bytes that this version does not name, be it that the other one does
    unnamed = p3
    for start, end in UNNAMED[version]:
        unnamed = patched(unnamed, start, b'\xff' * (end - start))
    made['unnamed'] = (unnamed, made['p3'][1])

    def bad(name, n, contents):
        made[name] = (contents, refused(n))

    bad('none', 1, b'')
    bad('short', 1, made['empty'][0][:255])
    bad('odd', 1, made['empty'][0] + b'\0')
    bad('one-more', 1, largest + b'\0')
    bad('block-more', 1, largest + bytes(256))
    bad('version', 3, patched(p3, 141, [6]))
    bad('version-below', 3, patched(p3, 141, [3]))
    bad('version-bit', 3, patched(p3, 141, [0x80 + version]))
    bad('attrlen', 3, patched(p3, 166, [0]))
    bad('dictype', 4, patched(p3, 165, [1]))
    bad('os', 4, patched(p3, at['os'], [1]))
    bad('index_blkbit', 4, patched(p3, at['index_blkbit'], [1]))
    bad('extheader', 4, patched(p3, at['extheader'], number(256, 4)))
    bad('extheader-high', 4, patched(p3, at['extheader'], number(1 << 31, 4)))
    bad('index-past', 5, patched(p3, 148, [3]))
    bad('nindex2', 6, patched(p3, at['nindex2'], [2]))
    bad('index-headword', 6, patched(p3, 258, [0]))
    bad('index-zeros', 6, patched(p3, 511, [1]))
    bad('run-past', 7, patched(p3, 512, [2]))
    bad('run-number', 7, patched(p3, 256, [1]))
    bad('attribute', 8, patched(p3, 521, [0x90]))
    bad('first-headword', 8, patched(p3, 519, b'D'))
    bad('block-in-none', 9, p3 + bytes(256))
    bad('block-in-both', 9, patched(p3, at['empty_block2'], number(0, 4)))
    bad('nword', 10, patched(p3, 160, [3]))
    bad('nblock2', 10, patched(p3, at['nblock2'], [2]))
    # the first of two
    bad('version-nword', 3, patched(patched(p3, 160, [3]), 141, [6]))
    bad('attribute-nword', 8, patched(patched(p3, 160, [3]), 521, [0x90]))
    return made


def all_inputs():
    """The inputs of both versions, and one of each that is read by the other's places: extheader is then not 0, or nindex2 is too
    large."""
    four, five = inputs(4), inputs(5)
    made = dict(four)
    made.update((name + '-5', five[name]) for name in five)
    made['read-as-five'] = (patched(four['p3'][0], 141, [5]), refused(4))
    made['read-as-four'] = (patched(five['p3'][0], 141, [4]), refused(6))
    return made


def main():
    for name, (contents, lines) in all_inputs().items():
        for path, what in [(name, contents), (name + '.list', lines)]:
            with open(os.path.join(sys.argv[1], path), 'wb') as out:
                out.write(what)


main()
