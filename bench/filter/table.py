"""table.py PEER PROGRAM FRAMES RUNS CPU: runs both programs in turn, wants the same counts of both, and prints the medians."""

import shutil
import statistics
import subprocess
import sys
import tempfile

FRAMES, TURNS = 1024, 16

# Of 1, 2, 4, 8 and 16 tests.
EXPRESSIONS = {
    1: "tcp",
    2: "tcp port 80 or udp port 53",
    4: "src net 10.0.0.0/8 and tcp and not (port 22 or dst host 10.0.0.1)",
    8: "(tcp port 80 or tcp port 443 or udp port 53)"
    " and (net 10.0.0.0/8 or net 192.168.0.0/16 or host 2001:db8::1)"
    " and not src host 10.0.0.1 and greater 64",
    16: "(tcp or udp) and (port 80 or port 443 or port 53 or portrange 8000-8080)"
    " and (net 10.0.0.0/8 or net 192.168.0.0/16 or ip6)"
    " and not (host 10.0.0.1 or host 10.0.0.2)"
    " and (ip6 or ip[8] > 63) and (ip6 or udp or tcp[13] & 4 = 0)",
}


def lines_of(command, frames, cpu):
    with open(frames, "rb") as file:
        done = subprocess.run(["taskset", "-c", cpu, *command], stdin=file, stdout=subprocess.PIPE, check=True)
    return [line.split() for line in done.stdout.decode().splitlines()]


def rounds_of(lines, number):
    found = [[int(word) for word in line] for line in lines if line[0] == str(number)]
    if not found:
        sys.exit(f"no round of expression {number}: {lines[-1]}")
    return found


def main():
    peer, program, frames, runs, cpu = sys.argv[1:]
    texts = list(EXPRESSIONS.values())
    each = {tests: [] for tests in EXPRESSIONS}
    for run in range(int(runs)):
        commands = [[peer, "time", *texts], [program, *texts]]
        order = [0, 1] if run % 2 else [1, 0]
        answers = {which: lines_of(commands[which], frames, cpu) for which in order}
        for number, tests in enumerate(EXPRESSIONS, 1):
            theirs, ours = rounds_of(answers[0], number), rounds_of(answers[1], number)
            counts = {line[2] for line in theirs} | {count for line in ours for count in line[4:7]}
            if len(counts) != 1:
                sys.exit(f"not the same answers of expression {number}: {counts}")
            theirs = statistics.median(line[1] for line in theirs) / (FRAMES * TURNS)
            matches, frame, both = (
                statistics.median(line[at] for line in ours) / (FRAMES * TURNS) for at in (1, 2, 3)
            )
            each[tests].append((theirs, matches, matches / theirs, frame, frame / theirs, both, both / theirs))
    print("tests  bpf_filter  matches         matches_frame    taken apart, and matches")
    for tests, values in each.items():
        theirs, matches, ratio, frame, frame_ratio, both, both_ratio = map(statistics.median, zip(*values))
        print(
            f"{tests:5d}  {theirs:7.2f} ns  {matches:6.2f} ns {ratio:5.2f}"
            f"  {frame:7.2f} ns {frame_ratio:5.2f}  {both:7.2f} ns {both_ratio:5.2f}"
        )
    if shutil.which("valgrind"):
        for tests, text in EXPRESSIONS.items():
            counts = [
                instructions([peer, "call", text], "matching", frames),
                instructions([program, text], "filters::matching", frames) / 21,
                instructions([program, text], "filters::matching_frames", frames) / 21,
            ]
            print(
                f"{tests:5d} tests: {counts[0]:.0f} instructions a frame, {counts[1]:.0f} by matches,"
                f" and {counts[2]:.0f} by matches_frame"
            )


def instructions(command, function, frames):
    """How many instructions a frame a function takes, with all that it calls."""
    with open(frames, "rb") as file, tempfile.TemporaryDirectory() as folder:
        done = subprocess.run(
            ["valgrind", "--tool=callgrind", f"--callgrind-out-file={folder}/out", "--collect-atstart=no",
             f"--toggle-collect={function}", *command],
            stdin=file, stdout=subprocess.DEVNULL, stderr=subprocess.PIPE, check=True)
    for line in done.stderr.decode().splitlines():
        if "Collected" in line:
            return int(line.split()[-1]) / (FRAMES * TURNS)
    sys.exit("valgrind counted nothing")


if __name__ == "__main__":
    main()
