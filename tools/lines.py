#!/usr/bin/env python3
"""lines.py: no line of code, of a specification, a proof or a must-fail edit is over 200 columns, import lists aside."""
import glob
import re
import sys

LIMIT = 200
IMPORT = re.compile(r'(old: |new: )?(ghost )?use ')


def main():
    wrong = []
    for path in sorted(path for kind in ('antt', 'rt', 'edit') for path in glob.glob(f'crates/**/*.{kind}', recursive=True)):
        if path.split('/')[2] == 'out':
            continue
        for number, line in enumerate(open(path, encoding='utf-8'), 1):
            columns = len(line.rstrip('\n'))
            if columns > LIMIT and not IMPORT.match(line):
                wrong.append(f'{path}:{number}: {columns} columns')
    print('\n'.join(wrong) if wrong else f'lines.py: no line over {LIMIT} columns')
    sys.exit(1 if wrong else 0)


main()
