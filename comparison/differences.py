"""differences.py CASES REFERENCE PROGRAM: prints the first ten cases whose answers differ, and how
many there are. Exit code 1 where one differs."""
import sys


def lines(file):
    with open(file, encoding='utf-8') as opened:
        return opened.read().split('\n')[:-1]


cases, reference, program = map(lines, sys.argv[1:])
if not len(cases) == len(reference) == len(program):
    print(f'{len(cases)} cases, {len(reference)} answers and {len(program)} answers')
    sys.exit(1)
different = [row for row in zip(cases, reference, program) if row[1] != row[2]]
for case, expected, answer in different[:10]:
    print(f'{case[:300]}\n  reference {expected[:500]}\n  program   {answer[:500]}')
print(f'{len(cases)} cases, {len(different)} differ')
sys.exit(1 if different else 0)
