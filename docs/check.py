#!/usr/bin/env python3
"""Tries what the pages say against the repository, and ends with 'N passed, M failed'.

    docs/check.py       from anywhere; after `rt ci` or `rt run` it also runs commands of `iphead`

- Code in Rattle stands in a source file, contracts aside, or in an example of a doc comment, or
  else proves in a crate of its own; a line in antt stands in a proof or a definition; other code
  stands in a file of its language or compiles.
- A file that a page names is there, and each command names files that are there, and scripts that
  can be run; a command that pipes into `rt run` or `rt try` in crates/iphead is run by the built
  program, and prints what the page shows.
- A clause that a page quotes below a function is one of that function.
- In a table of contracts, `f`, `g`: `a`, its part `p`, by `D` says that every public function f of
  the crate and every g has the clause a, that a definition in this clause has the part p, and that
  the clause rests on the definition D. A type or a trait may stand for f: then one of its functions
  or ghost members is a. In a table of calls or definitions, each name in the other columns is a
  clause or a part of what the first column names, or a definition in these.
- A name in a table of a crate's page, of PROVED or of ARCHITECTURE is that of something here.
- Nothing names a file beside the repository, or a machine's folder.
- A section with a figure in seconds, minutes or bytes of memory has a command that measures it.
- `make install` puts a program and its manual page where the Makefile says, `make uninstall` leaves
  nothing of them, and the manual page of `ipcap` has the options of its help."""
import os
import pathlib
import re
import shutil
import subprocess
import sys
import tempfile
from typing import NamedTuple

ROOT = pathlib.Path(__file__).resolve().parent.parent
TRACKED = subprocess.run(['git', 'ls-files', '--cached', '--others', '--exclude-standard'],
                         cwd=ROOT, capture_output=True, text=True, check=True).stdout.split('\n')
FILES = [ROOT / name for name in TRACKED if name and (ROOT / name).is_file()]
NAMES = {str(file.relative_to(ROOT)) for file in FILES}
PAGES = [file for file in FILES if file.suffix == '.md']
SOURCES = {file: file.read_text() for file in FILES if file.suffix == '.rt'}
SPECS = {file: file.read_text() for file in FILES if file.suffix == '.antt'}
LIBRARY = ('etherparse_base', 'etherparse_fields', 'etherparse', 'etherparse_net', 'packet_parts',
           'etherparse_transport', 'etherparse_icmp', 'etherparse_link', 'packet_links', 'packet',
           'packet_rewriting', 'packet_capture', 'packet_reassembly')
PATH = re.compile(r'[\w.{},/-]+\.(?:md|rt|antt|sh|py|edit|txt|c|h|rs|toml)$')
FIGURE = re.compile(r'(?<![\w.])\d+(?:\.\d+)? (?:ns|nanoseconds?|seconds?|minutes?|GB|MB)\b')
RUN = re.compile(r'\| rt (run|try)\b')
COMMAND = re.compile(r'\brt \w+|\.ci/run|[\w./-]+\.(?:sh|py)\b|\btime\b')
NAME = re.compile(r'`([A-Za-z]\w*(?:(?:::|\.)\w+)*)`')
passed, failed = 0, []


def judge(page, what, is_right, why):
    """counts one check of a page"""
    global passed
    if is_right:
        passed += 1
    else:
        failed.append(f'{page.relative_to(ROOT)}: {what}: {why}')


# What stands in the sources.

def without_contracts(text):
    """a source or a block without blanks, doc comments, imports and contracts"""
    lines = [line for line in text.split('\n')
             if not re.match(r'\s*(///|//!|#!?\[|(pub )?use |ghost use )', line)]
    text = '\n'.join(lines)
    text = re.sub(r'use [^;]*;', '', text)
    while found := re.search(r'\b(ensures|requires)\*?( \w+)? \{', text):
        text = text[:found.start()] + text[closed(text, found.end()):]
    return ''.join(text.split())


def closed(text, at):
    """the place after the brace that closes the one before a place"""
    depth = 1
    while depth:
        depth += {'{': 1, '}': -1}.get(text[at], 0)
        at += 1
    return at


class Contract(NamedTuple):
    """the contract of a function, or the ghost members of a struct or an impl"""
    crate: str
    names: set  # that a page can give it; a private function `f` has the name `fn f`
    clauses: dict  # the text of each by its name


ITEM = re.compile(
    r'^impl(?:<.*?>)? (?:(?:\w+::)*(?P<trait>\w+)(?:<.*?>)? for )?(?:\w+::)*(?P<impl>\w+)'
    r'|^(?:pub )?(?:struct|trait) (?P<struct>\w+)|^(?P<end>\})'
    r'|^ *(?P<pub>pub |)(?:pub\(\w+\) )?(?:const |unsafe )?(?:extern "C" )?fn (?P<function>\w+)'
    r'|^ *(?:ensures|requires)\*? (?P<clause>\w+) \{'
    r'|^ *(?:pub )?ghost (?P<ghost>\w+)(?: =|:) \{', re.M)


def contracts(file, text):
    """the contracts of a source; laws count as public"""
    crate, module, found = file.relative_to(ROOT).parts[1], file.stem, []
    trait, owner = None, None
    for item in ITEM.finditer(text):
        if item['end']:
            trait, owner = None, None
        elif item['impl'] or item['struct']:
            trait, owner = item['trait'], item['impl'] or item['struct']
            found.append(Contract(crate, {trait, owner}, {}))
        elif name := item['function']:
            is_public = item['pub'] or trait or module == 'laws'
            names = {name, f'{owner or module}::{name}', trait, owner}
            found.append(Contract(crate, names if is_public else {f'fn {name}'}, {}))
        else:
            end = closed(text, item.end())
            found[-1].clauses[item['clause'] or item['ghost']] = text[item.end():end]
    return found


# Where a definition begins, also in a module with parameters, whose definitions are indented.
BETWEEN = re.compile(r'\n(?=(?:\w+ )?pub | +(?:abbrev pub|pub record|pub data) )')


def definitions():
    """the parts of each definition in `specs`, and the words in it"""
    found = {}
    for file, text in SPECS.items():
        for block in BETWEEN.split(text) if 'specs' in file.parts else ():
            if head := re.match(r' *(?:\w+ )?pub (?:record |data )?([\w-]+)', block):
                parts, words = found.setdefault(head.group(1), (set(), set()))
                parts.update(re.findall(r'^ +(?:pub )?(\w+) :', block, re.M))
                words.update(re.findall(r'[\w-]+', block))
    return found


DECLARED = re.compile(r'\b(?:fn|struct|enum|trait|impl|type|static|const|mod|pub|ghost|record|data'
                      r'|ensures\*?|requires\*?) (?=([\w-]+))')
VARIANT = re.compile(r'^    ([A-Z]\w+)(?:,|\(| \{)', re.M)
IMPORT = re.compile(r'\buse ([\w:.◌]+(?:\{[^}]*\})?)')


def known_names():
    """the names of all that a source, a definition or a proof declares or imports, and of files"""
    known = {name for path in NAMES for name in re.split(r'[/.]', path)}
    for text in (SOURCES | SPECS).values():
        code = re.sub(r'^ *(//|--).*', '', text, flags=re.M)
        known.update(re.findall(DECLARED, code), re.findall(VARIANT, code))
        known.update(re.findall(r'\w+', ' '.join(re.findall(IMPORT, code))))
    return known


SQUEEZED = {file: without_contracts(text) for file, text in SOURCES.items()}
FOREIGN = [''.join(file.read_text().split()) for file in FILES
           if file.suffix in ('.c', '.h', '.rs', '.toml')]
EXAMPLES = [''.join(''.join(re.findall(r'^ *//[/!] (.*)', text, re.M)).split())
            for text in SOURCES.values()]
LINES_OF_PROOFS = {' '.join(line.split()).replace('Rattle.uses.', 'Rattle.my_crate.')
                   for text in SPECS.values() for line in text.split('\n')}
CONTRACTS = [one for file, text in SOURCES.items() for one in contracts(file, text)]
ALL_CLAUSES = set().union(*(one.clauses for one in CONTRACTS))
DEFINITIONS = definitions()
KNOWN = known_names()


def proves(block):
    """whether a block proves as the one file of a crate above a copy of the library and the crates
    on packets, in half a minute if these are proved already"""
    with tempfile.TemporaryDirectory() as room:
        crates = pathlib.Path(room) / 'crates'
        (crates / 'my_crate/src').mkdir(parents=True)
        lines = [line + '\n' for line in (ROOT / 'crates.txt').read_text().split('\n')
                 if line.split(':')[0] in LIBRARY]
        for name in LIBRARY:
            shutil.copytree(ROOT / 'crates' / name, crates / name)
        lines.append('my_crate: ' + ' '.join(LIBRARY[1:]) + ' arrayvec\n')
        (crates.parent / 'crates.txt').write_text(''.join(lines))
        head = '' if '#![tactic' in block else '#![tactic(auto)]\n\n'
        (crates / 'my_crate/src/lib.rt').write_text(head + block)
        done = subprocess.run(['rt', 'check'], cwd=crates / 'my_crate', capture_output=True,
                              text=True, check=False)
        return 'logic=proved' in done.stdout + done.stderr


def has(compiler):
    """whether a compiler is there; blocks of its language are left out where it is not"""
    if not shutil.which(compiler):
        print(f'left out: blocks for {compiler}, which is not there')
    return shutil.which(compiler)


def compiles(block):
    """whether a block in C compiles with the library's header file at hand, as a file or as the
    statements of a function that has a packet of some length and the UDP packet in it"""
    if not has('gcc'):
        return True
    compiler = ['gcc', '-std=c11', '-fsyntax-only', '-xc', '-']
    include = ['-I', str(ROOT / 'crates/etherparse_c/include')]
    head = ('#include <etherparse_filter.h>\n#include <string.h>\n'
            'void tried(const uint8_t *packet, size_t len, uint8_t *udp, uint16_t udp_len) {')
    return any(subprocess.run(compiler + include, input=text, capture_output=True, text=True,
                              check=False).returncode == 0
               for text in (block, head + block + '}'))


def compiles_by_rustc(block):
    """whether a block in Rust, which is not Rattle, compiles as a program"""
    if not has('rustc'):
        return True
    with tempfile.TemporaryDirectory() as room:
        compiler = ['rustc', '--edition', '2021', '--emit=metadata', '--out-dir', room, '-']
        return subprocess.run(compiler, input=block, capture_output=True, text=True,
                              check=False).returncode == 0


# What a page says.

def blocks(text):
    """the blocks of a page, in their order: the language of a fenced one, `sh`
    where it is indented by four blanks, and the text"""
    found = re.findall(r'^```(\w*)\n(.*?)^```$|((?:^    [^\n]*\n)+)', text + '\n', re.S | re.M)
    return [('sh', re.sub(r'^    ', '', indented, flags=re.M)) if indented else (language, block)
            for language, block, indented in found]


def check_code(page, text):
    for language, block in blocks(text):
        first = next(iter(block.strip().split('\n')), '')
        foreign = ''.join(block.split())
        if language == 'rust':
            squeezed = without_contracts(block)
            stands = any(squeezed in source for source in SQUEEZED.values())
            stands = stands or any(foreign in source for source in FOREIGN + EXAMPLES)
            judge(page, first, stands or proves(block), 'stands nowhere, and does not prove')
        elif language == 'rs':
            judge(page, first, compiles_by_rustc(block), 'does not compile')
        elif language in ('c', 'toml'):
            stands = any(foreign in source for source in FOREIGN)
            works = stands or (language == 'c' and compiles(block))
            judge(page, first, works, 'stands nowhere, and does not compile')
        elif language == 'antt':
            for line in block.strip().split('\n'):
                is_there = not line or ' '.join(line.split()) in LINES_OF_PROOFS
                judge(page, line, is_there, 'stands in no proof and no definition')
        elif language == 'text':
            check_signatures(page, block)


def check_signatures(page, block):
    """each clause that is quoted below a function is one of that function"""
    for line in block.split('\n'):
        if found := re.search(r'\bfn ((?:\w+::)*\w+)', line):
            function = '::'.join(found.group(1).split('::')[-2:])
            of_function = called(function) or called(f'fn {function}')
            judge(page, function, of_function, 'is no function')
        if found := re.match(r'\s*(?:ensures|requires)\*? (\w+)\b', line):
            is_one = any(found.group(1) in one.clauses for one in of_function)
            judge(page, found.group(1), is_one, f'is no clause of {function}')


def is_there(page, name):
    """whether a file is named from the root, from the page's folder or its crate, or alone"""
    for one in re.sub(r'[{}]', '', name).split(',') if '{' not in name else expanded(name):
        above = [folder / one for folder in (ROOT, page.parent, ROOT / 'crates', ROOT / 'docs')]
        alone = any(('/' + known).endswith('/' + one) for known in NAMES)
        if not alone and not any(path.exists() for path in above):
            return False
    return True


def expanded(name):
    front, inner, back = re.match(r'(.*)\{(.*)\}(.*)', name).groups()
    return [front + one + back for one in inner.split(',')]


def check_files(page, text):
    for name in re.findall(r'`([^`\n]+)`', text) + re.findall(r'\]\(([^)#:]+)\)', text):
        # neither what is built, nor a reader's own crate, nor a file of the Rust crate
        if PATH.match(name) and not re.search(r'out/|my_crate|\.\.\w|^\w+\.rs$', name):
            judge(page, name, is_there(page, name), 'is not there')


def check_scripts(page, text):
    """a script that a page calls with arguments can be run"""
    for name in re.findall(r'`(?:[A-Z_]+=\S+ )*([\w./-]*/[\w-]+\.(?:sh|py)) [^`\n]*`', text):
        found = [file for file in (ROOT / name, page.parent / name) if file.is_file()]
        found = found or [file for file in FILES if f'/{file.relative_to(ROOT)}'.endswith('/' + name.removeprefix('./'))]
        judge(page, name, found and all(os.access(file, os.X_OK) for file in found), 'is not there, or cannot be run')


def called(name, crate=''):
    """the contracts of what a page calls so: those of a crate, if it has any of that name"""
    found = [one for one in CONTRACTS if name in one.names]
    return [one for one in found if one.crate == crate] or found


def ensures(name, clause, crate):
    """whether each function of a name has a clause, or something of a type or a trait"""
    found = [clause in one.clauses for one in called(name, crate)]
    return any(found) if re.fullmatch(r'[A-Z]\w*', name) else found and all(found)


def words_of(names, clauses, crate):
    """the words in some clauses of what a page calls so"""
    return {word for name in names for one in called(name, crate) for clause in clauses
            for word in re.findall(r'[\w-]+', one.clauses.get(clause, ''))}


def reached(words):
    """the definitions among some words, and those that these cite in turn"""
    found = set()
    while words := (DEFINITIONS.keys() & words) - found:
        found |= words
        words = set().union(*(DEFINITIONS[name][1] for name in words))
    return found


def parts_of(names):
    """the parts of some definitions"""
    return set().union(*(DEFINITIONS[name][0] for name in names))


def names_in(text):
    """the names in backquotes, but for files and for capitals, which stand for a part of a line"""
    return [name for name in NAME.findall(text) if not PATH.match(name) and not name.isupper()]


def check_clauses(page, text):
    in_crate = page.relative_to(ROOT).parts[1] if 'crates' in page.parts else ''
    head, above = '', ([], set())
    for line in text.split('\n'):
        cells = line.strip('| ').split(' | ')
        if not line.startswith('|'):
            head, crate = '', in_crate
        elif not head:
            head = line
        elif section := re.match(r'\| \*\*`(\w+)`\*\*', line):
            crate = section.group(1)
        elif re.search(r'A caller knows|Definition|What its parts say', head):
            above = check_row(page, head, cells, crate, above)
        elif in_crate or page.name in ('PROVED.md', 'ARCHITECTURE.md'):
            for name in names_in(line):
                is_known = set(re.split(r'::|\.', name)) <= KNOWN
                judge(page, name, is_known, 'is the name of nothing')
            if 'Contract' in head:
                check_contract(page, cells[-1], crate)
    for name in re.findall(r'`ensures (\w+)`', text):
        judge(page, name, name in ALL_CLAUSES, 'is no clause')


def check_contract(page, cell, crate):
    """each sentence of a cell, such as `f`, `g`: `a`, its part `p`, by `D`"""
    for sentence in cell.split(';'):
        if told := re.fullmatch(r'((?:`[^`]*`|[^`:])*): (.*)', sentence):
            names = names_in(told.group(1))
            judge(page, sentence, names, 'does not say of what')
            check_claims(page, names, told.group(2), crate)
        else:
            for name in names_in(sentence):
                is_clause = name in ALL_CLAUSES and not called(name)
                judge(page, name, not is_clause, 'is a clause, and no function is before it')


def check_claims(page, names, claims, crate):
    """what a page says that some functions ensure"""
    groups = re.fullmatch(r'(.*?)(?:\bparts? (.*?))?(?:\bby (.*))?', claims).groups('')
    clauses, parts, cited = map(names_in, groups)
    for name in names:
        for clause in clauses:
            judge(page, clause, ensures(name, clause, crate), f'is no clause of {name}')
    words = words_of(names, clauses, crate)
    for part in parts:
        is_part = part in parts_of(DEFINITIONS.keys() & words)
        judge(page, part, is_part, f'is no part of {clauses}')
    for name in cited:
        judge(page, name, name in reached(words), f'is nothing in {clauses}')


def check_row(page, head, cells, crate, above):
    """what a page says of the calls or definitions in the first column, or if there are none, of
    those in the row above; returns them and the words beside them"""
    codes = re.findall(r'`([^`]+)`', cells[0])
    words = set(re.findall(r'\w+', ' '.join(codes)))
    if 'A caller knows' in head:
        names = re.findall(r'\b((?:\w+::)*[a-z]\w*)\(', ' '.join(codes))
    else:
        names = [code.split()[0] for code in codes]
    for name in names:
        is_known = called(name, crate) or name in DEFINITIONS
        judge(page, name, is_known, 'is no function and no definition')
    names, words = (names, words) if names else (above[0], words | above[1])
    clauses = {clause for name in names for one in called(name, crate) for clause in one.clauses}
    found = reached(words_of(names, clauses, crate) | set(names))
    for name in names_in(' '.join(cells[1:])):
        is_one = set(name.split('.')) <= clauses | found | parts_of(found) | words
        judge(page, name, is_one, f'is nothing of {names}')
    return names, words


def check_commands(page, text):
    given = [block for language, block in blocks(text) if language in ('sh', 'console')]
    for at, block in enumerate(given):
        for line in block.strip().split('\n'):
            line = line.removeprefix('$ ')
            first = re.sub(r'^\(?(cd [\w/]+ && )?(\w+=\S+ )*', '', line).split(' ')[0]
            is_script = re.fullmatch(r'[\w./-]+\.(sh|py)|\.ci/run', first)
            if not is_script and not (shutil.which(first) and ' ' in line):
                continue
            judge(page, line, not is_script or is_there(page, first), 'there is no such script')
            check_operands(page, line)
            if RUN.search(line) and 'crates/iphead' in line and at + 1 < len(given):
                check_run(page, line, given[at + 1])


def check_operands(page, line):
    for word in re.findall(r'(?<![\w./-])(?:crates|docs|bench|misuse|comparison)/[\w./-]+', line):
        if '/out/' not in word:
            judge(page, word, is_there(page, word.rstrip('.')), 'is not there')


def check_run(page, line, expected):
    if not (ROOT / 'crates/iphead/out/iphead').exists():
        return
    done = subprocess.run(RUN.sub('| out/iphead', line), shell=True, cwd=ROOT,
                          capture_output=True, text=True, check=False)
    judge(page, line, done.stdout.strip() == expected.strip(), 'prints something else')


def check_figures(page, text):
    for section in re.split(r'^## ', text, flags=re.M):
        figures = [found.group() for line in section.split('\n')
                   for found in FIGURE.finditer(line) if not line.startswith('    ')]
        if figures:
            title = section.split('\n')[0]
            judge(page, title, COMMAND.search(section), f'{figures[0]}, and no command')


def check_nothing_beside(file, text):
    beside = re.search(r'\.\./shared|(?<![\w.])/(?:tmp|work|opt)/\w', text)
    if file.name != 'check.py':
        judge(file, beside and beside.group(), not beside, 'is beside the repository')


def check_installed(folder):
    program, manual, makefile = folder / 'out' / folder.name, folder / f'{folder.name}.1', folder / 'Makefile'
    if not program.exists():
        return
    with tempfile.TemporaryDirectory() as room:
        make = ['make', '-s', '-C', folder, f'DESTDIR={room}/staged', f'PREFIX={room}/usr']
        files = lambda: {str(it).removeprefix(f'{room}/staged{room}/'): it for it in pathlib.Path(room).rglob('*') if it.is_file()}
        for more, where in ([], ('usr/bin', 'usr/share/man')), ([f'BINDIR={room}/opt', f'MANDIR={room}/doc'], ('opt', 'doc')):
            wanted = {f'{where[0]}/{program.name}': program, f'{where[1]}/man1/{manual.name}': manual}
            subprocess.run([*make, *more, 'install'], check=True)
            found = files()
            same = found.keys() == wanted.keys() and all(found[it].read_bytes() == wanted[it].read_bytes() for it in found)
            judge(makefile, 'install', same and os.access(found[f'{where[0]}/{program.name}'], os.X_OK), 'puts other files there')
            subprocess.run([*make, *more, 'uninstall'], check=True)
            judge(makefile, 'uninstall', not files(), 'leaves files')


def check_manual(folder):
    program, manual = folder / 'out' / folder.name, folder / f'{folder.name}.1'
    if not program.exists():
        return
    told = subprocess.run([program, '--help'], capture_output=True, text=True, check=True).stdout
    told = re.findall(r'^ +(?:(-\w)\b)?(?:, )?(?:(--\w+))?', told.split('\nOptions:\n')[1].split('\n\n')[0], re.M)
    section = manual.read_text().replace('\\-', '-').split('.SH OPTIONS')[1].split('.SH')[0]
    named = re.findall(r'-{1,2}\w+', ''.join(re.findall(r'^\.TP\n(.*\n)', section, re.M)))
    judge(manual, 'OPTIONS', {it for pair in told for it in pair if it} == set(named), 'are not those of the help')


# The impls by hand of what others derive: each has clauses, or a law of its own, but for `Debug` of `Filter`.
BY_HAND = {'Clone': {'Ipv4Options', 'Ipv4OptionsIterator', 'Ipv6OptionsIterator', 'Ipv6ExtensionSliceIter', 'TcpHeader'},
           'Debug': {'Ipv4Options', 'Filter'},
           **dict.fromkeys(('PartialEq', 'Eq', 'Hash', 'PartialOrd', 'Ord'), {'Ipv4Options', 'IpDscpKnown'})}
IMPL = re.compile(rf'\bimpl(?:<[^>]*>)? (?:\w+::)*({"|".join(BY_HAND)})(?:<[^>]*>)? for (\w+)')
# A law of such a trait, and the body by which it speaks of it.
LAW = re.compile(r'^(?:pub )?fn (\w+)_(equality|clone|copy|hash|order|below)(?:<[^>]*>)?\(\s*(\w+):\s[^{]*?(?:,\s*(\w+):\s[^{]*?)?\)'
                 r'.*?^\{\n(.*?)^\}', re.M | re.S)
BODIES = {'equality': '{0} == {1}', 'clone': '{0}.clone()', 'copy': '{0}.clone()', 'hash': '{0}.hash({1});', 'order': '{0}.cmp({1})',
          'below': '{0} < {1}'}

# A function that a type or a module has of its own, and what it must not be named: a call would mean it, and not the trait's.
OWN = re.compile(r'^impl\b[^{]*? for .*?^\}|^(?:pub )?trait .*?^\}'
                 r'|^(?P<indent> *)(?P<pub>pub )?(?:pub\(\w+\) )?(?:const |unsafe )?fn (?P<name>\w+).*?^(?P=indent)\{?\}$', re.M | re.S)
SHADOWS = set('clone clone_from eq ne cmp partial_cmp lt le gt ge min max hash fmt default from try_from into try_into next nth'.split())

# A function that returns `fmt::Result`: its name, its parameters and its body; what it writes to; and how it could make an error.
FORMATS = re.compile(r'^( *)(?:pub(?:\(\w+\))? )?fn (\w+)([^{}]*?\) -> fmt::Result\b)(.*?)^\1\}', re.M | re.S)
WRITES_TO = re.compile(r'\bwrite(?:ln)?!\(\s*([^,]*),|([\w.)\]]+)\s*\.(?:write_\w+|pad\w*)\(')
MAKES_ERROR = re.compile(r'\bErr\(|\b[dD]efault\b|\b(?:ok_or|map_err|or_else)\w*\(|\bfmt::write\b|\blet (?:mut )?f\b')


def check_unsaid(file, text):
    """What no contract says is not written by hand: the contract of `size_hint` allows a count that is too great, and what a `drop`
    does to memory that was lent is in no contract. That of `Display` allows an error for any reason, so what formats a value can
    fail only by the writer that it is given. A derive has no clauses either, so a law calls it, or that of a type that holds this one
    by a derive."""
    if re.search(r'\bIterator for ', text):
        judge(file, 'size_hint', 'fn size_hint' not in text, 'is written by hand')
    judge(file, 'Drop', not re.search(r'\bDrop for ', text), 'is written by hand')
    judge(file, 'derive_where', 'derive_where' not in text, 'can skip a field')
    is_made = re.search(r'\bfmt::(?:\{[^}]*\b)?Error\b(?!\) =>)|\bfmt as\b|\bfmt::\*', text)
    judge(file, 'fmt::Error', not is_made, 'is made here, where only a writer fails')
    formats = FORMATS.findall(text)
    judge(file, 'fmt::Result', len(re.findall(r'\bfmt::Result\b', text)) == len(formats), 'is named beside the result of a function')
    for _, name, head, body in formats:
        others = {first.strip() or second for first, second in WRITES_TO.findall(body)} - {'f'}
        is_given = re.search(r'\bf: &mut (?:fmt::)?Formatter<', head)
        judge(file, name, is_given and not others and not MAKES_ERROR.search(body), 'can fail where its writer does not')
    for trait, name in IMPL.findall(text):
        judge(file, f'{trait} for {name}', name in BY_HAND[trait], 'is written by hand')
    for name, trait, first, second, body in LAW.findall(text) if 'laws' in file.stem else []:
        body = re.sub(r'//.*', '', body).strip()
        wanted = BODIES[trait].format(first, second)
        judge(file, f'{name}_{trait}', body in (wanted, f'Clone::clone({first})'), f'is not {wanted}')
    for own in OWN.finditer(text) if file.relative_to(ROOT).parts[1] not in ('conformance', 'etherparse_tests') else []:
        if name := own['name']:
            says = 'ensures' in own[0] if own['pub'] else True
            judge(file, name, says and not (own['indent'] and name in SHADOWS), 'has no clause, or is named like what a trait has')


for file in FILES:
    if file.suffix in ('.md', '.rt', '.antt', '.sh', '.py', '.c', '.h', '.rs', '.txt', '.edit', ''):
        content = file.read_text(errors='replace')
        if file.name not in ('stdin', 'stdout', 'LICENSE'):
            check_nothing_beside(file, content)
for file, content in SOURCES.items():
    check_unsaid(file, content)
for file in PAGES:
    content = file.read_text()
    for check in check_code, check_files, check_scripts, check_clauses, check_commands, check_figures:
        check(file, content)
for folder in ROOT / 'crates/iphead', ROOT / 'crates/ipcap':
    check_installed(folder)
check_manual(ROOT / 'crates/ipcap')
for line in failed:
    print('FAILED:', line)
print(f'{passed} passed, {len(failed)} failed')
sys.exit(1 if failed else 0)
