#!/usr/bin/env python3
"""man.py MAN PROGRAMS HEADER: the man pages of the folder MAN agree with what they describe: options and commands with `--help` of the
programs in the folder PROGRAMS, calls, constants and the example of pdic(3) with the header; and they render without a warning on one long
page, as man(1) shows them, where groff is there."""
import glob
import os
import re
import shutil
import subprocess
import sys

ALTERNATING = ('.BI', '.BR', '.IB', '.IR', '.RB', '.RI')
# no page of paper ends inside a table
LONG_PAGE = '.pl 5000v\n'


def read(path):
    with open(path, encoding='utf-8') as file:
        return file.read()


def fail(page, what):
    sys.exit(f'{os.path.basename(page)}: {what}')


def compare(page, what, described, there):
    if described != there:
        fail(page, f'{what}: only in the page {sorted(described - there)}, missing there {sorted(there - described)}')


def plain(page):
    """A page's lines without macros, fonts and escapes."""
    lines = []
    for line in page.splitlines():
        if re.match(r"[.']", line):
            macro, _, rest = line.partition(' ')
            line = ('' if macro in ALTERNATING else ' ').join(a or b for a, b in re.findall(r'"([^"]*)"|(\S+)', rest))
        lines.append(re.sub(r'\\f[BIRP]|\\&', '', line).replace(r'\-', '-').replace(r'\e', '\\'))
    return '\n'.join(lines)


def section(page, name):
    match = re.search(rf'^\.SH {name}\n(.*?)(?=^\.SH |\Z)', page, re.M | re.S)
    return match[1] if match else ''


def same_spaces(text):
    return re.sub(r'\s+', ' ', text).strip()


def test_program(path, program):
    """Options, and commands where the page has such a section."""
    page = read(path)
    run = subprocess.run([program, '--help'], capture_output=True, text=True)
    if run.returncode != 0:
        fail(path, '--help fails')
    option = re.compile(r'(?<![\w-])--?[a-z][a-z-]*')
    compare(path, 'options', set(option.findall(plain(page))), set(option.findall(run.stdout)))
    commands = section(page, 'COMMANDS')
    tags = set(re.findall(r'^([a-z]+)', plain('\n'.join(re.findall(r'^\.TP\n(.*)', commands, re.M))), re.M))
    shown = set(re.findall(r'^(?:usage:)?\s*(?:\w+ )?([a-z]+) (?=\[?(?:--|[A-Z]{2}))', run.stdout, re.M)) - {os.path.basename(program)}
    if not tags <= set(re.findall(r'\w+', run.stdout)) or not shown <= set(re.findall(r'\w+', plain(commands))):
        fail(path, f'commands {sorted(tags)}, and {sorted(shown)} in --help')


def test_calls(path, header_path):
    page = read(path)
    header = re.sub(r'/\*.*?\*/', '', read(header_path), flags=re.S)
    declared = set(map(same_spaces, re.findall(r'^(?:uint32_t|const char \*)[^;]*;', header, re.M)))
    described = set(map(same_spaces, re.findall(r'^(?:uint32_t|const char \*)[^;]*;', plain(section(page, 'SYNOPSIS')), re.M)))
    compare(path, 'calls', described, declared)
    names = set(re.findall(r'pdic_\w+', section(page, 'NAME')))
    compare(path, 'names', names, set(re.findall(r'(pdic_\w+)\(', header)))
    values = {(name, eval(value)) for name, value in re.findall(r'(PDIC_\w+) = ([\w *+()]+)', header)}
    compare(path, 'constants', {(name, int(value, 0)) for name, value in re.findall(r'^(PDIC_\w+)\t(\w+)\t', page, re.M)}, values)
    example = plain(re.search(r'^\.nf\n(.*?)^\.fi', section(page, 'EXAMPLES'), re.M | re.S)[1])
    source = f'''#include <pdic.h>
#include <stdio.h>
#include <string.h>
void example(const uint8_t *image, size_t size, size_t len);
void example(const uint8_t *image, size_t size, size_t len) {{
{example}
}}
'''
    flags = ['-std=c11', '-Wall', '-Wextra', '-Werror', '-fsyntax-only', f'-I{os.path.dirname(header_path)}']
    if subprocess.run(['gcc', *flags, '-x', 'c', '-'], input=source, text=True).returncode != 0:
        fail(path, 'the example does not compile')


def main():
    man, programs, header = sys.argv[1:]
    for name in 'fill', 'glossary':
        test_program(f'{man}/man1/{name}.1', f'{programs}/{name}')
    test_calls(f'{man}/man3/pdic.3', header)
    pages = glob.glob(f'{man}/man?/*')
    rendered = pages if shutil.which('groff') else []
    for path in rendered:
        warnings = subprocess.run(['groff', '-t', '-man', '-Tutf8', '-ww', '-z'], input=LONG_PAGE + read(path), capture_output=True, text=True).stderr
        if warnings:
            fail(path, warnings)
    print(f'{len(pages)} man pages ({len(rendered)} rendered)')


main()
