#!/usr/bin/env python3
"""real.py [--program PROGRAM]: which expressions of real.txt the language has, by the model, or by
the program of crates/conformance; those that it does not, and how many of each package it has."""
import argparse
import collections
import os
import subprocess

import grammar
import meaning

HERE = os.path.dirname(os.path.abspath(__file__))


def main():
    parser = argparse.ArgumentParser(usage=__doc__)
    parser.add_argument('--program')
    asked = parser.parse_args()
    with open(os.path.join(HERE, 'real.txt'), encoding='ascii') as file:
        lines = [line.split('\t') for line in file.read().splitlines()]
    texts = [text.encode('ascii') for _, text in lines]
    if asked.program:
        cases = ''.join(f'filter 1 {"00" * 14} 14 {text.hex()}\n' for text in texts)
        answers = subprocess.run([asked.program], input=cases.encode(), stdout=subprocess.PIPE,
                                 check=True).stdout.decode().splitlines()
    else:
        answers = [meaning.answer(grammar.read(text), bytes(14), 14) for text in texts]
    has, of = collections.Counter(), collections.Counter()
    for (packages, text), answer in zip(lines, answers):
        accepted = not answer.startswith('err')
        names = packages.split(',')
        groups = ['all'] + (['the manual of libpcap'] if 'libpcap' in names else []) + (
            ['another package'] if names != ['libpcap'] else ['the manual of libpcap alone'])
        for name in groups + [f'package {name}' for name in names]:
            of[name] += 1
            has[name] += accepted
        if not accepted:
            place = answer.partition('place=')[2]
            word = dict(grammar.words_of(text.encode('ascii')))[int(place)] if place else ''
            print(f'{packages}\t{text}\t{answer} {word}')
    for name, count in of.items():
        print(f'{has[name]} of {count}: {name}')


if __name__ == '__main__':
    main()
