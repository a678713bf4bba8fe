#!/usr/bin/env python3
"""Runs `ipcap` over damaged captures.

    ./damage.py IPCAP COUNT SEED FILE..

Each input is one of the files with some bytes changed, left out, doubled, or cut off. A run has to end by itself with a status of
0 to 3, within two seconds, with as many lines as the closing line counts, unless it found no capture. The program prints a line
for each run that does not, how many runs ended with each status, and at the end 'N passed, M failed'.
"""
import random
import re
import subprocess
import sys


def damaged(rng, data, others):
    data = bytearray(data)
    for _ in range(rng.choice([1, 1, 1, 2, 3, 8])):
        if not data:
            return bytes(data)
        at = rng.randrange(len(data))
        kind = rng.randrange(9)
        if kind == 0:
            data[at] = rng.randrange(256)
        elif kind == 1:
            data[at] ^= 1 << rng.randrange(8)
        elif kind == 2:
            del data[at:]
        elif kind == 3:
            del data[at:at + rng.choice([1, 2, 3, 4, 8, 16])]
        elif kind == 4:
            data[at:at] = bytes(rng.randrange(256) for _ in range(rng.choice([1, 2, 3, 4, 8])))
        elif kind == 5:
            at &= ~3
            value = rng.choice([0, 1, 3, 4, 8, 11, 12, 16, 27, 28, 32, 0x7fffffff, 0x80000000, 0xffffffff, 0xfffffffc, 262144, 262145,
                                327680, 327684, len(data), rng.randrange(1 << 32)])
            data[at:at + 4] = value.to_bytes(4, rng.choice(['little', 'big']))
        elif kind == 6:
            end = min(len(data), at + rng.randrange(1, 200))
            data[at:at] = data[at:end]
        elif kind == 7:
            other = rng.choice(others)
            data[at:] = other[rng.randrange(len(other) + 1):]
        else:
            data[at & ~3:at & ~3] = rng.choice(others)
    return bytes(data)


def main():
    ipcap, count, seed, names = sys.argv[1], int(sys.argv[2]), int(sys.argv[3]), sys.argv[4:]
    rng = random.Random(seed)
    inputs = []
    for name in names:
        with open(name, 'rb') as file:
            data = file.read(20001)
        if len(data) <= 20000:
            inputs.append(data)
    statuses, passed, failed = {}, 0, 0
    for number in range(count):
        data = damaged(rng, rng.choice(inputs), inputs)
        try:
            done = subprocess.run([ipcap], input=data, stdout=subprocess.PIPE, stderr=subprocess.PIPE, timeout=2)
        except subprocess.TimeoutExpired:
            print(f'{number}: it does not end')
            failed += 1
            continue
        closing = re.search(rb'(\d+) packets: ', done.stderr)
        counted = int(closing[1]) if closing else None
        lines = done.stdout.count(b'\n')
        good = done.returncode in (0, 1) and counted == lines or done.returncode == 2 and not lines and counted is None
        statuses[done.returncode] = statuses.get(done.returncode, 0) + 1
        if good:
            passed += 1
        else:
            failed += 1
            name = f'damaged_{seed}_{number}'
            with open(name, 'wb') as file:
                file.write(data)
            print(f'{name}: status {done.returncode}, {lines} lines, counted {counted}: {done.stderr[-200:]!r}')
    print(dict(sorted(statuses.items())))
    print(f'{passed} passed, {failed} failed')
    return failed > 0


if __name__ == '__main__':
    sys.exit(main())
