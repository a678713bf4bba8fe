#!/usr/bin/env python3
"""Compares `packet_reassembly` with the reference: what is known of a datagram after each fragment, and its bytes.

    ./compare.py --seed 1 --count 100000                  with crates/conformance/out/conformance
    ./compare.py --seed 1 --count 100000 --program FILE   with another build
    ./compare.py --sample 300                             cases and answers for crates/conformance, a pair of lines each

It prints the first cases that differ, and at the end 'N passed, M failed'.
"""
import argparse
import pathlib
import random
import subprocess
import sys

import reference

PROGRAM = pathlib.Path(__file__).resolve().parents[2] / 'crates/conformance/out/conformance'


def case_and_answer(rng):
    """a line for the program, and what it has to answer"""
    case = reference.datagram_case(rng)
    while any(offset > 8191 for offset, _, _ in case['fragments']): # an offset has 13 bits
        case = reference.datagram_case(rng)
    words, answers = [], []
    for (offset, more, payload), answer in zip(case['fragments'], case['answers']):
        words.append(f"{offset} {int(more)} {payload or '-'}")
        size = len(payload) // 2
        answers.append({
            'refused-empty': 'err empty',
            'refused-unaligned': f'err unaligned len={size}',
            'refused-too-long': f'err too_big len={size} max=65535',
        }.get(answer, answer))
    line = ' '.join([f"fragments {len(words)}"] + words)
    return line, ' ; '.join(answers + [case['datagram'] or '-'])


def main():
    parser = argparse.ArgumentParser(description=__doc__.splitlines()[0])
    parser.add_argument('--seed', type=int, default=1)
    parser.add_argument('--count', type=int, default=1000)
    parser.add_argument('--program', default=PROGRAM)
    parser.add_argument('--sample', type=int)
    arguments = parser.parse_args()
    rng = random.Random(arguments.seed)
    if arguments.sample:
        left = arguments.sample
        while left:
            line, answer = case_and_answer(rng)
            if len(line) <= 1000:
                print(line)
                print(answer)
                left -= 1
        return 0
    passed = failed = 0
    for start in range(0, arguments.count, 10000):
        pairs = [case_and_answer(rng) for _ in range(min(10000, arguments.count - start))]
        text = ''.join(line + '\n' for line, _ in pairs)
        done = subprocess.run([arguments.program], input=text, capture_output=True, text=True, check=True)
        for (line, wanted), found in zip(pairs, done.stdout.splitlines(), strict=True):
            if found == wanted:
                passed += 1
            else:
                failed += 1
                if failed <= 5:
                    print(f'{line[:500]}\n  answers {found[:300]}\n  and not {wanted[:300]}')
    print(f'{passed} passed, {failed} failed')
    return failed > 0


if __name__ == '__main__':
    sys.exit(main())
