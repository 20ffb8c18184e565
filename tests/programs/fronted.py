#!/usr/bin/env python3
"""fronted.py LIST FILE: makes a dictionary of version 4 from a list as another program does that writes the longest common front,
inside a character too: two runs of half the entries each, the second in front of the first. By docs/FORMAT.md, not by the engine."""
import os
import sys


def number(n, width):
    return n.to_bytes(width, 'little')


def run(entries):
    coded, before = b'', b''
    for headword, text in entries:
        front = len(os.path.commonprefix([before, headword]))
        field = headword[front:] + b'\0\x80' + text
        coded += number(len(field), 2) + bytes([front]) + field
        before = headword
    blocks = (2 + len(coded) + 2 + 255) // 256
    return (number(blocks, 2) + coded).ljust(256 * blocks, b'\0')


def main():
    with open(sys.argv[1], 'rb') as file:
        entries = sorted(tuple(line.split(b'\t')) for line in file.read().splitlines())
    halves = entries[:len(entries) // 2], entries[len(entries) // 2:]
    first, second = map(run, halves)
    blocks = len(second) // 256
    index = number(blocks, 2) + halves[0][0][0] + b'\0' + number(0, 2) + halves[1][0][0] + b'\0'
    header = bytearray(256)
    for at, n, width in [(140, 0x0400, 2), (142, 248, 2), (144, 3000, 2), (146, 256, 2), (148, 1, 2), (150, 256, 2), (154, 0xFFFF, 2),
                         (160, len(entries), 4), (166, 1, 1), (186, 0xFFFFFFFF, 4), (190, 2, 4), (194, blocks + len(first) // 256, 4)]:
        header[at:at + width] = number(n, width)
    with open(sys.argv[2], 'wb') as file:
        file.write(bytes(header) + index.ljust(256, b'\0') + second + first)


main()
