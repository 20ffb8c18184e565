#!/usr/bin/env python3
"""docs.py FOLDER FILE..: runs the console blocks of the documents, with the folder's programs, and compares what each command
prints with what stands below it. One block after the other, all blocks of a document in one empty folder."""
import os
import re
import subprocess
import sys
import tempfile


def commands(document):
    for block in re.findall(r'^```console\n(.*?)^```$', document, re.M | re.S):
        for part in re.split(r'^\$ ', block, flags=re.M)[1:]:
            command, _, printed = part.partition('\n')
            yield command, printed


def main():
    env = dict(os.environ, PATH=os.path.abspath(sys.argv[1]) + ':' + os.environ['PATH'])
    count = 0
    for path in sys.argv[2:]:
        with open(path) as file:
            document = file.read()
        with tempfile.TemporaryDirectory() as folder:
            for command, printed in commands(document):
                out = subprocess.run(command, shell=True, cwd=folder, env=env, text=True, stdout=subprocess.PIPE,
                                     stderr=subprocess.STDOUT).stdout
                count += 1
                if out != printed:
                    sys.exit(f'{path}: $ {command}\nprints\n{out}and not\n{printed}')
    if count == 0:
        sys.exit('no command in these documents')
    print(f'documents: {count} commands print what stands below them')


main()
