"""table.py PEER PROGRAM RUNS CPU: runs both programs in turn over each set of fragments, wants the same datagram of both, and
prints the mean over 16 places of the fragments in memory of the least time of each. How fast bytes are copied depends on how far
they move, modulo 4096: by up to 1.3."""

import random
import subprocess
import sys

MOST = 65535
PLACES = range(0, 4096, 256)


def sets():
    """fragments in the order in which they come, and how often a round puts them together"""
    rng = random.Random(815)
    datagram = rng.randbytes(MOST)
    large = cut(datagram, 1480)
    small = cut(datagram[: MOST // 8 * 8], 8)
    shuffled = small[:]
    rng.shuffle(shuffled)
    yield "45 fragments of 1480 bytes, in order", datagram, large, 64
    yield "45 fragments of 1480 bytes, in reverse", datagram, large[::-1], 64
    yield "8191 fragments of 8 bytes, in order", datagram[: MOST // 8 * 8], small, 16
    yield "8191 fragments of 8 bytes, in reverse", datagram[: MOST // 8 * 8], small[::-1], 16
    yield "8191 fragments of 8 bytes, in a random order", datagram[: MOST // 8 * 8], shuffled, 16


def cut(datagram, size):
    return [
        (start // 8, start + size < len(datagram), datagram[start : start + size])
        for start in range(0, len(datagram), size)
    ]


def run(command, fragments, cpu, place=0):
    text = place.to_bytes(2, "little") + bytes(place) + b"".join(
        offset.to_bytes(2, "little") + bytes([more]) + len(payload).to_bytes(2, "little") + payload
        for offset, more, payload in fragments
    )
    return subprocess.run(["taskset", "-c", cpu, *command], input=text, stdout=subprocess.PIPE, check=True).stdout


def least(command, fragments, times, wanted, cpu, place):
    lines = [line.split() for line in run([*command, str(times)], fragments, cpu, place).decode().splitlines()]
    if any(int(total) != wanted for _, total in lines):
        sys.exit(f"not whole: {command}")
    return min(int(nanoseconds) for nanoseconds, _ in lines) / times


def main():
    peer, program, runs, cpu = sys.argv[1:]
    print("                                               copied alone   C, bitmap         proved            a fragment")
    for name, datagram, fragments, times in sets():
        for command in ([peer], [program]):
            if run(command, fragments, cpu) != datagram:
                sys.exit(f"not the same bytes: {name}: {command}")
        whole = times * len(datagram)
        best = {place: [float("inf")] * 3 for place in PLACES}
        for _ in range(int(runs)):
            for place in PLACES:
                found = (
                    least([peer, "copy"], fragments, times, times, cpu, place),
                    least([peer], fragments, times, whole, cpu, place),
                    least([program], fragments, times, whole, cpu, place),
                )
                best[place] = [min(pair) for pair in zip(best[place], found)]
        copied, theirs, ours = (sum(column) / len(PLACES) for column in zip(*best.values()))
        print(
            f"{name:46s} {copied / 1000:8.2f} us {theirs / 1000:8.2f} us {ours / 1000:8.2f} us"
            f"  {ours / theirs:5.2f} of C, {ours / copied:5.2f} of the copy {ours / len(fragments):7.1f} ns"
        )


main()
