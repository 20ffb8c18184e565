#!/usr/bin/env python3
"""damage.py SEED NUMBER FOLDER FILE..: writes copies of the dictionaries FILE, of each in turn, into the folder, each with a few bytes
changed, moved, cut off or added; which ones depends on the seed and the copy's number alone."""
import os
import random
import sys

# bytes of the header's fields, where version 4 has them and where version 5 does
FIELDS = [140, 141, 146, 148, 149, 150, 160, 164, 165, 166, 167, 171, 182, 184, 186, 188, 190, 192, 194, 196, 198, 208, 216]


def damage(data, rng):
    out = bytearray(data)
    for _ in range(rng.choice([1, 1, 1, 2, 4])):
        at = rng.randrange(len(out))
        kind = rng.randrange(7)
        if kind == 0:
            out[rng.choice(FIELDS)] = rng.choice([0, 1, 2, 4, 5, 15, 16, 127, 128, 255])
        elif kind == 1:
            out[at] ^= 1 << rng.randrange(8)
        elif kind == 2:
            out[at] = rng.choice([0, 1, 0x10, 0x7F, 0x80, 0x90, 0xFF])
        elif kind == 3 and len(out) > 256:
            del out[256 * rng.randrange(1, len(out) // 256):]
        elif kind == 4:
            out += bytes(rng.choice([1, 255, 256, 512]))
        elif kind == 5:
            source = rng.randrange(len(out))
            size = rng.randrange(1, 40)
            out[at:at + size] = out[source:source + len(out[at:at + size])]
        else:
            out[at] = rng.randrange(32, 127)
    return bytes(out)


def read(path):
    with open(path, 'rb') as file:
        return file.read()


seed, number, folder, wholes = int(sys.argv[1]), int(sys.argv[2]), sys.argv[3], [read(path) for path in sys.argv[4:]]
for k in range(number):
    with open(os.path.join(folder, f'{k}.dic'), 'wb') as file:
        file.write(damage(wholes[k % len(wholes)], random.Random(f'{seed} {k}')))
