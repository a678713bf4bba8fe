#!/usr/bin/env python3
"""bodies.py [CRATE ..]: tries the wrong bodies of the folders of misuse/bodies; for crates that are named, those of `more` too.

Each is tried on a copy of its crate, which `rt ci` has just proved: a check of the function whose contract speaks of it has to
refuse that function. Of the functions that it calls only the contracts are there: their bodies are stubs in the copy, and their
proofs holes. So one check tries the bodies of different functions together, in the gate also of different libraries: a check takes 10
seconds before its first function. README.md says how a body is written. As many checks are made at a time as there are processors,
up to four. The last line is 'N passed, M failed'.
"""
import concurrent.futures
import functools
import os
import pathlib
import re
import shutil
import subprocess
import sys
import tempfile

HERE = pathlib.Path(__file__).resolve().parent
BODIES = HERE / 'bodies'
CRATES = HERE.parent / 'crates'
KIT = pathlib.Path(shutil.which('rt')).resolve().parents[1]
# Libraries whose bodies the gate tries together, each before those that stand on it. What stands between two of them is there too.
TOGETHER = [
    ['packet_links', 'etherparse_base', 'etherparse_fields'],
    ['packet_capture', 'etherparse_link', 'etherparse_net', 'packet_parts'],
    ['etherparse_icmp', 'packet_reassembly', 'etherparse_transport', 'packet_rewriting', 'packet', 'packet_builder', 'packet_filter'],
]
# The line at which the body of a function begins, its name in the line before its parameters, and a line that names a place.
BODY = re.compile(r' *(\{|((pub(\(crate\))?|const|unsafe|extern "C") )*fn .*\{|\) (-> .* )?\{)$')
FUNCTION = re.compile(r'\bfn (\w+)')
# Where an impl or a trait begins, with the type if the impl is no trait's; and a function that can be a stub: it is no `const fn`.
OWNER = re.compile(r'(?:pub )?(?:unsafe )?(?:trait\b|impl(?:<[^>]*>)? (?:(\w+)(?:<[^>]*>)? \{$)?)')
CALLABLE = re.compile(r'( *)(?:pub(?:\(\w+\))? )?fn (\w+)(?:<[^>]*>)?\(')
TYPE = re.compile(r'^(?:pub(?:\(\w+\))? )?(?:struct|enum) (\w+)', re.M)
# A proof that the function at a path of a crate meets its contract, with a hole for it.
HOLE = 'use Rattle.{0}.proofs.{1}.Statement.{{statement}}\n\npub {2}_spec : {{M : Type 1}} → statement M\n{2}_spec = ?\n'
PLACE = re.compile(r'note: \S+:\d+:\d+:|\S+:\d+:\d+: error')
# A function that the checker did not prove, unless that is only since it calls such a function; and the reasons. One of them may be
# that it stands on proofs, also of other functions: their paths.
REFUSED = r'^fn %s::(\S+): (?:not proved|no proof)(?!: it calls [^;]*$)(.*)$'
PROOF = re.compile(r'`Rattle\.\w+\.proofs\.(\S+)`')
# What the checker says where a proof names what the body took away: such a refusal tells nothing of the contract.
NAMES = re.compile(r'(note: )?(\./|\.\./\w+/)?proofs/.*(has no field|is not in scope|has no `|was not admitted)')
# What it says of a lemma that it rejects: that of a contract, if the body is tried alone.
LEMMA = re.compile(r'(\./|\.\./\w+/)?proofs/\S+:\d+:\d+: error: `\w+`: ')


def read(body):
    """the functions that a body is tried at, and its edits: a file, the text that stands once in it, and that in its place"""
    functions, edits, file = [], [], None
    for line in body.read_text().splitlines():
        word, _, rest = line.partition(': ')
        if word == 'fn':
            functions.append(rest)
        elif word == 'file':
            file = rest
        elif word == 'old':
            edits.append([file, rest, None])
        elif word == 'new':
            edits[-1][2] = rest
    return functions, edits


@functools.cache
def below():
    """Returns for each crate of the repository which libraries it may use."""
    lines = [line.split(':') for line in (HERE.parent / 'crates.txt').read_text().splitlines()]
    return {head.split()[0]: names.split() for head, names in lines}


def is_static(crate):
    return f'{crate} staticlib:' in (HERE.parent / 'crates.txt').read_text()


def words(crates):
    """what the checker has to know beside these crates: their libraries as they were built, and how it is to check"""
    used = sorted({'std', *[it for crate in crates for it in below()[crate]]} - {*crates})
    at = lambda name: next(it for it in (KIT / 'rlibs' / f'{name}.rlib', CRATES / name / 'out/rlib' / f'{name}.rlib') if it.is_dir())
    return [
        *[word for name in used for word in ('--extern', f'{name}={at(name)}')],
        *['-L', f'dependency={KIT}/rlibs'],
        *[word for name in below() for word in ('-L', f'dependency={CRATES / name}/out/rlib') if (CRATES / name / 'out/rlib').is_dir()],
        *['--antt-project', f'{KIT}/rattle/logic/antt-project.json', '--logic-built', f'{KIT}/logic_built', '--jobs', '1'],
        *(['--crate-type', 'staticlib'] if any(map(is_static, crates)) else []),
    ]


def check(room, kept, functions):
    """Checks functions of crates, which stand side by side in a folder, and keeps what was proved in another. The last crate is the one
    that is checked; the others are libraries that it is passed as source. Stubs have holes for proofs."""
    *others, last = functions
    only = ['--allow-holes', *[word for it in others for word in ('--lib', f'{it}=../{it}/src/lib.rt')]]
    only += [word for crate, its in functions.items() for it in sorted(its) for word in ('--only', f'{crate}::{it}')]
    root = next(it for it in ('src/lib.rt', 'src/main.rt') if pathlib.Path(room, last, it).is_file())
    os.makedirs(f'{kept}/{last}', exist_ok=True)
    command = [KIT / 'bin/rattle', 'check', '--crate-name', last, root, *words(functions), *only, '--incremental', f'{kept}/{last}']
    return subprocess.run(command, cwd=f'{room}/{last}', text=True, stdout=subprocess.PIPE, stderr=subprocess.STDOUT)


def changed(text, old):
    """Returns the name of the function whose body has this text, and the line at which the body begins; nothing if no body has it."""
    if old not in text:
        return None
    first = text[: text.index(old)].count('\n')
    lines = text.split('\n')
    for at in range(first, -1, -1):
        if not BODY.match(lines[at]):
            continue
        close = re.match(' *', lines[at])[0] + '}'
        end = next((it for it in range(at, len(lines)) if lines[it] == close), 0)
        heads = (it for it in reversed(lines[: at + 1]) if FUNCTION.search(it))
        return (FUNCTION.search(next(heads))[1], at) if at < first and first + old.count('\n') < end else None
    return None


def callables(room):
    """Yields the functions of a crate that stands in a folder, without methods of traits and const functions: the file of each, its path
    in the crate, and the lines at which its body begins and ends."""
    texts = {file: file.read_text() for file in sorted(pathlib.Path(room, 'src').rglob('*.rt'))}
    parts = lambda file: file.relative_to(f'{room}/src').with_suffix('').parts
    place = {file: [it for it in parts(file) if it not in ('lib', 'main', 'mod')] for file in texts}
    types = {file: TYPE.findall(text) for file, text in texts.items()}
    for file, text in texts.items():
        # (a method stands below the module that declares its type)
        home = {name: place[it] for it in [*texts, file] for name in types[it]}
        lines, owner, is_trait, head = text.split('\n'), None, False, None
        for at, line in enumerate(lines):
            if found := OWNER.match(line):
                owner, is_trait = found[1], not found[1]
            elif line == '}':
                owner, is_trait = None, False
            head = CALLABLE.match(line) or head
            if not head or not BODY.match(line) or re.match(' *', line)[0] != head[1]:
                continue
            (indent, name), head = head.groups(), None
            end = lines.index(indent + '}', at)
            if not is_trait and end > at + 1:
                yield file, [*home[owner], owner, name] if owner else [*place[file], name], at, end


def stub(crate, room, bodies):
    """Leaves of such functions of a crate that stands in a folder their contracts alone, with a hole for each proof, except of those
    that these bodies change or are tried at."""
    tried = {tuple(it.split('::')) for body in bodies for it in read(body)[0]}
    edits = [(pathlib.Path(room, file), old) for body in bodies for file, old, new in read(body)[1]]
    own = {(file, found[1]) for file, old in edits if (found := changed(file.read_text(), old))}
    for file, path, begin, end in [*callables(room)]:
        if tuple(path) in tried or (file, begin) in own:
            continue
        lines = file.read_text().split('\n')
        lines[begin + 1:end] = ['loop {}'] + [''] * (end - begin - 2)
        file.write_text('\n'.join(lines))
        proof = pathlib.Path(room, 'proofs', *path)
        proof.mkdir(parents=True, exist_ok=True)
        for name in 'Answers.antt', 'Invariants.antt':
            (proof / name).unlink(missing_ok=True)
        (proof / 'Proof.antt').write_text(HOLE.format(crate, '.'.join(path), path[-1]))


def groups(crate, bodies):
    """Returns the bodies in groups. Those of one are in different functions, so that none has a part in what another comes to, here or in
    a library that stands on this one; or else, in the second list, they change impls in different files, of which laws speak."""
    apart, alone, laws = [], [], []
    for body in bodies:
        functions, edits = read(body)
        texts = {file: (CRATES / crate / file).read_text() for file, old, new in edits}
        bodies_of = {(file, changed(texts[file], old)) for file, old, new in edits}
        _, found = min(bodies_of, key=str)
        names = [it.split('::')[-1] for it in functions]
        # (one that only adds a function changes no other)
        adds = all(new.endswith(old) and not re.search(rf'\bfn {it}\b', texts[file]) for file, old, new in edits for it in names)
        if not adds and (len(bodies_of) > 1 or found is None or [found[0]] != names):
            files = {file for other in laws for file, old, new in read(other)[1]}
            if all(it.startswith('laws::') for it in functions) and not texts.keys() & files:
                laws.append(body)
            else:
                alone.append([body])
            continue
        group = next((it for it in apart if functions not in [read(other)[0] for other in it]), None)
        if group is None:
            apart.append(group := [])
        group.append(body)
    return apart, alone + [laws] * bool(laws)


def told(crate, function, lines, is_source):
    """Returns what the checker said of a function, whose crate may be a library passed as source: of its proofs, and before its
    verdict."""
    verdicts = [at for at, line in enumerate(lines) if line.startswith('fn ')]
    end = next((at for at in verdicts if lines[at].startswith(f'fn {crate}::{function}: ')), 0)
    begin = max((at for at in verdicts if at < end), default=-1)
    folder = rf'\.\./{crate}/' if is_source else r'(\./)?'
    own = re.compile(f'(note: )?{folder}proofs/' + re.escape(function.replace('::', '/')) + '/')
    return [line for at, line in enumerate(lines) if PLACE.match(line) and (own.match(line) or begin < at < end)]


def refused(crate, text):
    """Returns the functions that the checker did not prove, unless that is only since another is not proved: those that they call may
    be other bodies of the group."""
    proofs = {it: it.replace('::', '.') + '.' for it in re.findall(rf'^fn {crate}::(\S+): ', text, re.M)}

    def is_of_others(function, why):
        reasons = [it for it in why.removeprefix('; ').split('; ') if it and not it.startswith('it calls ')]
        on = [[next((it for it in proofs if path.startswith(proofs[it])), None) for path in PROOF.findall(reason)] for reason in reasons]
        return on and all(its and all(its) and function not in its for its in on)

    return {it for it, why in re.findall(REFUSED % crate, text, re.M) if not is_of_others(it, why)}


def why_failed(group, whole, kept):
    """Returns for each body of a group, which has bodies by their crates, why it is not refused as it has to be, or nothing."""
    functions = {crate: {it for body in bodies for it in read(body)[0]} for crate, bodies in group.items()}
    with tempfile.TemporaryDirectory(dir=os.path.dirname(whole)) as room:
        for crate, bodies in group.items():
            shutil.copytree(f'{whole}/{crate}', f'{room}/{crate}')
            stub(crate, f'{room}/{crate}', bodies)
            for file, old, new in (edit for body in bodies for edit in read(body)[1]):
                file = pathlib.Path(room, crate, file)
                file.write_text(file.read_text().replace(old, new))
        ran = check(room, kept, functions)
    lines = ran.stdout.splitlines() or ['nothing']
    is_alone, found = sum(map(len, group.values())) == 1, {}
    for crate, body in ((crate, body) for crate, bodies in group.items() for body in bodies):
        not_proved = refused(crate, ran.stdout)
        own = not_proved & set(read(body)[0])
        said = [line for it in own for line in told(crate, it, lines, crate != [*group][-1])]
        said += [line for line in lines if LEMMA.match(line) and is_alone]
        if ran.returncode not in (0, 1) or not_proved - functions[crate] or any(re.search(r'\berror\[', line) for line in lines):
            found[body] = 'no verdict: ' + ' | '.join([*sorted(not_proved - functions[crate]), *lines[-4:]])
        elif ran.returncode == 0 or not own:
            found[body] = 'it is proved'
        elif all(NAMES.match(line) for line in said):
            found[body] = f'no contract refuses it, but a proof that names what it took away: {(said or ["nothing is told"])[0]}'
        else:
            found[body] = ''
    return found


def turns(by_crate):
    """Returns which groups are tried at a time, by their crates: one of each crate, as long as all have one, since what stands between
    two libraries has to be there; and then each by itself."""
    together = [dict(zip(by_crate, turn)) for turn in zip(*(apart for apart, _ in by_crate.values()))]
    return together + [{crate: its} for crate, (apart, others) in by_crate.items() for its in apart[len(together):] + others]


def tried(bodies):
    """Returns for each of the bodies of some crates why it failed, or nothing."""
    with tempfile.TemporaryDirectory() as room:
        whole, kept, found, by_crate = f'{room}/whole', f'{room}/kept', {}, {}
        for crate, its in bodies.items():
            for part in ('src', 'specs', 'proofs'):
                if (CRATES / crate / part).is_dir():
                    shutil.copytree(CRATES / crate / part, f'{whole}/{crate}/{part}')
            for body in its:
                texts = {}
                for file, old, new in read(body)[1]:
                    text = texts.get(file) or pathlib.Path(whole, crate, file).read_text()
                    if text.count(old) != 1:
                        found[body] = f'{old} stands {text.count(old)} times in {file}'
                    texts[file] = text.replace(old, new)
            by_crate[crate] = groups(crate, [body for body in its if body not in found])
        for group in turns(by_crate):
            came = why_failed(group, whole, kept)
            for crate, body in ((crate, body) for crate, its in group.items() for body in its):
                # (it may be the fault of another)
                found[body] = why_failed({crate: [body]}, whole, kept)[body] if came[body] and len(came) > 1 else came[body]
        return found


def main():
    pattern, crates = ('**/*.edit', sys.argv[1:]) if sys.argv[1:] else ('*.edit', sorted(it.name for it in BODIES.iterdir()))
    bodies = {crate: its for crate in crates if (its := sorted((BODIES / crate).glob(pattern)))}
    shared = [] if sys.argv[1:] else TOGETHER
    alone = [[crate] for crate in bodies if not any(crate in names for names in shared)]
    together = sorted(({crate: bodies[crate] for crate in names} for names in shared + alone), key=lambda its: -sum(map(len, its.values())))
    failed = 0
    with concurrent.futures.ThreadPoolExecutor(min(4, os.cpu_count())) as pool:
        for its, found in zip(together, pool.map(tried, together)):
            for crate, body in ((crate, body) for crate in its for body in its[crate]):
                why = found[body]
                print(f'FAILED: {crate}/{body.stem}: {why}' if why else f'refused, as it must be: {crate}/{body.stem}', flush=True)
                failed += bool(why)
    total = sum(map(len, bodies.values()))
    print(f'{total - failed} passed, {failed} failed')
    sys.exit(bool(failed or not total))


if __name__ == '__main__':
    main()
