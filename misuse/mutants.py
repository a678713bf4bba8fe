#!/usr/bin/env python3
"""mutants.py CRATE [SEED]: changes a token in the body of each function of a crate, and lists the functions that are still proved.

It tries them in one check, on a copy of a crate that `rt ci` has just proved: an operator, a number, a condition, a pair of arguments or
of names is another one, chosen by the seed. What does not compile is left out. A function that is still proved means what it meant, or
its contract lets a wrong body through: look at it. Methods of traits and const functions stay as they are. No gate needs it. A check
takes one to ten minutes, but with some seeds a search takes far longer: then try another. The last line is 'N refused, M proved, K do
not compile'.
"""
import pathlib
import random
import re
import shutil
import sys
import tempfile

sys.dont_write_bytecode = True
import bodies

NUMBER = r'(?<=[ (\[,])%s(?=[ )\],;]|\.\.|$)'
# What is changed in a line, and into what; each place is a mutant of its own.
CHANGES = [(re.compile(before), after) for before, after in (
    (' < ', ' <= '), (' <= ', ' < '), (' > ', ' >= '), (' >= ', ' > '), (' == ', ' != '), (' != ', ' == '), (' && ', ' || '), (r' \|\| ', ' && '),
    (r' \+ ', ' - '), (' - ', ' + '), (r'\btrue\b', 'false'), (r'\bfalse\b', 'true'), (r'!(?=[a-z(])', ''), (r'\bif (?!let)(.+) \{$', r'if !(\1) {'),
    (NUMBER % r'(\d+)', lambda it: str(int(it[1]) + 1)), (NUMBER % r'([1-9]\d*)', lambda it: str(int(it[1]) - 1)),
    (r'\b([a-z_]\w*)\((\w+), (\w+)\)', r'\1(\3, \2)'),
)]
# Names of which a tired author takes one for the other.
PAIRS = (('source', 'destination'), ('inner', 'outer'), ('first', 'last'), ('front', 'back'), ('min', 'max'), ('low', 'high'), ('start', 'end'),
         ('is_some', 'is_none'), ('Udp', 'Tcp'), ('Ipv4', 'Ipv6'), ('ipv4', 'ipv6'))
CHANGES += [(re.compile(rf'\b{one}\b'), other) for pair in PAIRS for one, other in (pair, pair[::-1])]
ERROR = re.compile(r'^(src/\S+\.rt):(\d+):\d+: error', re.M)


def mutants(line):
    """Returns what a line can become by one change."""
    if '"' in line or line.lstrip().startswith('//'):
        return []
    return [line[:it.start()] + (after(it) if callable(after) else it.expand(after)) + line[it.end():]
            for before, after in CHANGES for it in before.finditer(line)]


def planted(room, chance):
    """Returns a mutant for each function of a crate that stands in a folder, by its path: the file, the lines of its body, the number of
    the line that is changed, and the new line."""
    found = {}
    for file, path, begin, end in bodies.callables(room):
        lines = file.read_text().split('\n')
        if 'tests' in path or any('#[test]' in line for line in lines[max(0, begin - 9):begin]):
            continue
        if these := [(at, new) for at in range(begin + 1, end) for new in mutants(lines[at])]:
            at, new = chance.choice(these)
            found['::'.join(path)] = file.relative_to(room), range(begin, end + 1), at, new
    return found


def tried(crate, whole, found):
    """Checks a crate with these mutants; returns those that do not compile, and what the checker said of the others."""
    with tempfile.TemporaryDirectory() as room:
        shutil.copytree(whole, f'{room}/{crate}')
        for file, _, at, new in found.values():
            lines = pathlib.Path(room, crate, file).read_text().split('\n')
            lines[at] = new
            pathlib.Path(room, crate, file).write_text('\n'.join(lines))
        said = bodies.check(room, f'{room}/kept', {crate: found}).stdout
    errors = [(name, int(line) - 1) for name, line in ERROR.findall(said)]
    return {path for path, (file, its, *_) in found.items() if any(name == str(file) and line in its for name, line in errors)}, said


def main():
    crate, seed = sys.argv[1], sys.argv[2] if sys.argv[2:] else '1'
    with tempfile.TemporaryDirectory() as room:
        whole = pathlib.Path(room, crate)
        for part in ('src', 'specs', 'proofs'):
            if (bodies.CRATES / crate / part).is_dir():
                shutil.copytree(bodies.CRATES / crate / part, whole / part)
        found, broken = planted(whole, random.Random(seed)), 0
        while (wrong := (came := tried(crate, whole, found))[0]):
            broken += len(wrong)
            found = {path: it for path, it in found.items() if path not in wrong}
        if not re.search(r'^only=\d+ ', came[1], re.M):
            sys.exit(came[1][-2000:] + 'no verdict')
        refused = bodies.refused(crate, came[1])
        for path, (file, _, at, new) in sorted(found.items()):
            if path not in refused:
                old = (whole / file).read_text().split('\n')[at]
                print(f'still proved: {path}: {old.strip()} -> {new.strip()}')
    print(f'{len(refused & found.keys())} refused, {len(found.keys() - refused)} proved, {broken} do not compile')


main()
