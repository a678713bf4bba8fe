#!/usr/bin/env python3
"""Answers cases `iphead BYTES` by the built program: each line of standard input is a run of it,
with its exit code and all that it writes to standard output."""
import os
import subprocess
import sys
from concurrent.futures import ThreadPoolExecutor

HERE = os.path.dirname(os.path.abspath(__file__))
PROGRAM = os.path.join(HERE, '../crates/iphead/out/iphead')


def answer(line):
    operation, _, word = line.partition(' ')
    if operation != 'iphead':
        return 'bad line'
    given = b'' if word == '-' else bytes.fromhex(word)
    done = subprocess.run([PROGRAM], input=given, capture_output=True, timeout=60, check=False)
    text = done.stdout.decode('latin-1').replace('\n', '\\n')
    return f'status={done.returncode} out={text}'


with ThreadPoolExecutor(os.cpu_count()) as pool:
    for one in pool.map(answer, sys.stdin.read().splitlines()):
        print(one)
