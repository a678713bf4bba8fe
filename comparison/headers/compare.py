#!/usr/bin/env python3
"""Compares the program `crates/conformance` with the reference on random headers, options and packets to build.

    compare.py --kind link.arp --seed 1 --count 100000    one kind; without it each kind in turn
    compare.py --program FILE                             another build
    compare.py --cases FILE ANSWERS                       cases that are there, and what a program answered

It prints the first cases that differ, and for each kind how many passed and failed, and how many were read or made and not refused.
"""
import argparse
import pathlib
import random
import subprocess
import sys
import time

import random_cases
import reference

PROGRAM = pathlib.Path(__file__).resolve().parents[2] / 'crates/conformance/out/conformance'
AT_ONCE = 20000


class Count:
    """What was compared, and what was found."""

    def __init__(self):
        self.passed = self.failed = self.accepted = 0

    def add(self, cases, answers):
        for case, found in zip(cases, answers, strict=True):
            wanted = reference.answer(case)
            self.accepted += not wanted.startswith(('err', 'bad'))
            if found == wanted:
                self.passed += 1
                continue
            self.failed += 1
            if self.failed <= 3:
                print(f'{case[:600]}\n  answers {found[:600]}\n  and not {wanted[:600]}', flush=True)


def answers_of(program, cases):
    done = subprocess.run([program], input='\n'.join(cases) + '\n', capture_output=True, text=True, check=True)
    return done.stdout.splitlines()


def main():
    parser = argparse.ArgumentParser(description=__doc__.splitlines()[0])
    parser.add_argument('--kind', action='append', choices=random_cases.KINDS)
    parser.add_argument('--seed', type=int, default=1)
    parser.add_argument('--count', type=int, default=10000)
    parser.add_argument('--program', default=PROGRAM)
    parser.add_argument('--cases', nargs=2)
    arguments = parser.parse_args()
    if arguments.cases:
        count, (cases, answers) = Count(), [open(name).read().splitlines() for name in arguments.cases]
        count.add(cases, answers)
        print(f'{count.passed} passed, {count.failed} failed')
        return count.failed > 0
    failed = 0
    for kind in arguments.kind or random_cases.KINDS:
        rng, count, begin = random.Random(f'{kind} {arguments.seed}'), Count(), time.time()
        for start in range(0, arguments.count, AT_ONCE):
            cases = random_cases.cases(kind, rng, min(AT_ONCE, arguments.count - start))
            count.add(cases, answers_of(arguments.program, cases))
        failed += count.failed
        print(f'{kind}: {count.passed} passed, {count.failed} failed; {count.accepted} accepted; {time.time() - begin:.0f} s', flush=True)
    return failed > 0


if __name__ == '__main__':
    sys.exit(main())
