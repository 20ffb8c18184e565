#!/usr/bin/env python3
"""sjis.py COMMAND..: runs a command with its arguments in Shift JIS, and prints what it says in UTF-8. Without a command: standard
input in Shift JIS."""
import os
import subprocess
import sys

if len(sys.argv) == 1:
    sys.stdout.buffer.write(sys.stdin.buffer.read().decode().encode('cp932'))
else:
    command = [os.fsencode(argument).decode().encode('cp932') for argument in sys.argv[1:]]
    ran = subprocess.run(command, stdout=subprocess.PIPE, stderr=subprocess.STDOUT)
    sys.stdout.buffer.write(ran.stdout.decode('cp932', 'backslashreplace').encode())
    sys.exit(ran.returncode)
