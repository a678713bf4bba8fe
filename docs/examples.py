#!/usr/bin/env python3
"""Runs the examples of the doc comments, and ends with 'N passed, M failed'.

    docs/examples.py            from anywhere; it proves nothing

Each example is a test of its own in a crate over all libraries, which `rt try --test` runs: `rt` is the test's argument, and `?`
ends the test with the error. The names in an example are those of its module and its crate, those that its file imports, those
of the crates below, and then those of any crate. A sentence above an example that names another item and ends with a colon, such
as 'With the header of [`Ipv4Header::set_checksum`]:', says that it goes on from the example of that item, which is that of its
own file if there are several. An example that begins with `use` or `fn` only has to compile."""
import pathlib
import re
import shutil
import subprocess
import sys
import tempfile
from typing import NamedTuple

ROOT = pathlib.Path(__file__).resolve().parent.parent
CRATES = ROOT / 'crates'
# Libraries that no example can name.
OTHERS = ('c_answers', 'etherparse_tests', 'uses')
MODULE = re.compile(r'^(pub )?mod (\w+);', re.M)
USE = re.compile(r'^(pub )?use ([^;]+);', re.M)
PUBLIC = re.compile(r'^pub (?:const )?(?:fn|struct|enum|trait|type|const|static|mod) (\w+)', re.M)
ITEM = re.compile(r'^ *(?:pub )?(?:const )?(?:fn|struct|enum|mod|type|const) (\w+)')
COMMENT = re.compile(r'^\s*//[/!] ?')
FENCE = re.compile(r'\s*//[/!] ```(\w*)$')
GOES_ON = re.compile(r'\[`(?:\w+::)*(\w+)`\][^.]*:$')
# What is said of an example that does not compile, and of one that fails.
FAILED = re.compile(r'^src/(\w+)\.rt:\d+:\d+: error\b.*|^test (\w+)::runs \.\.\. (?!ok$).*', re.M)


class Example(NamedTuple):
    """an example: its file, the line in which it begins, the item that has it, the item that it goes on from, and its text"""
    file: pathlib.Path
    line: int
    item: str
    before: str
    code: str


def examples(file):
    """the examples of a source"""
    lines = file.read_text().split('\n')
    fences = [at for at, line in enumerate(lines) if FENCE.match(line)]
    for begin, end in zip(fences[::2], fences[1::2]):
        if FENCE.match(lines[begin])[1]:
            continue  # it has a language of its own
        above = GOES_ON.search(' '.join(COMMENT.sub('', line) for line in lines[max(0, begin - 4):begin]).strip())
        item = next((found[1] for line in lines[end:] if (found := ITEM.match(line))), '')
        code = '\n'.join(COMMENT.sub('', line) for line in lines[begin + 1:end])
        yield Example(file, begin + 1, item, above[1] if above else '', code)


def imports(text):
    """what the imports of a text give: each name, its path, and whether it is public"""
    for public, path in USE.findall(text):
        front, _, names = ''.join(path.split()).partition('{')
        for name in names.rstrip('}').split(',') if names else ['']:
            whole = (front + name).removesuffix('::self')
            yield whole.split('::')[-1], whole, bool(public)


class Library:
    """a crate: its examples, the module of each file, the paths of each public name, and the crates that it uses"""

    def __init__(self, name, uses):
        self.examples, self.places, self.paths, self.uses = [], {}, {}, uses
        self.read((name,), CRATES / name / 'src/lib.rt', True)

    def read(self, place, file, is_public):
        text = file.read_text()
        self.places[file] = place
        self.examples += examples(file)
        folder = file.parent if file.name in ('lib.rt', 'mod.rt') else file.with_suffix('')
        for public, name in MODULE.findall(text):
            inner = next(it for it in (folder / f'{name}.rt', folder / name / 'mod.rt') if it.is_file())
            self.read((*place, name), inner, is_public and bool(public))
        if is_public:
            names = [name for name, _, public in imports(text) if public] + [name for public, name in MODULE.findall(text) if public]
            for name in names + PUBLIC.findall(text):
                self.paths.setdefault(name, []).append('::'.join((*place, name)))

    def whole(self, example):
        """the text of an example, after that from which it goes on"""
        if not example.before:
            return example.code
        found = [it for it in self.examples if it.item == example.before]
        return self.whole(max(found, key=lambda it: it.file == example.file)) + '\n' + example.code

    def path(self, name, file, libraries):
        """the path by which an example in a file reaches a name; nothing if it is std's, or the example's own"""
        imported = {it: path for it, path, _ in imports(file.read_text())}.get(name, '')
        if name not in self.paths and imported.split('::')[0] in (*libraries, 'arrayvec', 'std'):
            return imported
        places = (self.paths, *(libraries[it].paths for it in self.uses if it in libraries), *(it.paths for it in libraries.values()))
        found = next((paths[name] for paths in places if name in paths), [])
        here = self.places[file]
        return max(found, default=None, key=lambda path: (
            path.split('::')[:-1] == list(here), sum(a == b for a, b in zip(path.split('::'), here)),
            path.endswith(imported.partition('::')[2]), -len(path)))

    def source(self, example, libraries):
        """the module that has an example as a test"""
        code = self.whole(example)
        if code.startswith('use '):
            return code
        uses = ''.join(f'use {path};\n' for name in sorted(names_in(code)) if (path := self.path(name, example.file, libraries)))
        if code.startswith('fn '):
            return uses + code
        return f'use std::test::Fail;\n{uses}\n#[test]\nfn runs(rt: HostRuntime) -> Result<(), Fail> {{\n{code}\nOk(())\n}}\n'


def names_in(code):
    """the names that an example can take from elsewhere: types, calls, and what stands first in a path"""
    code = re.sub(r'//[^\n]*|b?"(?:[^"\\]|\\.)*"|b?\'(?:[^\'\\]|\\.)+\'', ' ', code)
    found = re.findall(r'(?<![\w.:])([A-Z]\w*|[a-z_]\w*(?=::|\())', code)
    return set(found) - set(re.findall(r'\bfn (\w+)', code))


def read_libraries():
    """the libraries by their names"""
    rows = [row.partition(':') for row in (ROOT / 'crates.txt').read_text().splitlines()]
    below = {head: names.split() for head, _, names in rows if head not in OTHERS and (CRATES / head / 'src/lib.rt').is_file()}
    return {name: Library(name, names) for name, names in below.items()}


def lay(room, libraries):
    """Writes the libraries and the crate of the tests into a folder; returns the places of the examples by their modules."""
    tests = room / 'crates/examples/src'
    tests.mkdir(parents=True)
    rows, places = [], {}
    for name, library in libraries.items():
        shutil.copytree(CRATES / name / 'src', room / f'crates/{name}/src')
        rows.append(f'{name}: {" ".join(library.uses)}\n')
        for example in library.examples:
            module = '_'.join((*library.places[example.file], str(example.line)))
            places[module] = f'{example.file.relative_to(ROOT)}:{example.line}'
            (tests / f'{module}.rt').write_text(library.source(example, libraries))
    (tests / 'lib.rt').write_text('#![tactic(auto)]\n\n' + ''.join(f'#[cfg(test)]\nmod {module};\n' for module in places))
    (room / 'crates.txt').write_text(''.join(rows) + f'examples: {" ".join(libraries)} arrayvec\n')
    return places


def main():
    libraries = read_libraries()
    with tempfile.TemporaryDirectory() as room:
        places = lay(pathlib.Path(room), libraries)
        ran = subprocess.run(['rt', 'try', '--test'], cwd=f'{room}/crates/examples', text=True, stdout=subprocess.PIPE,
                             stderr=subprocess.STDOUT, check=False)
    failed = {found[1] or found[2]: found[0] for found in FAILED.finditer(ran.stdout)}
    if ran.returncode and not failed:
        print(ran.stdout, f'0 passed, {len(places)} failed', sep='')
        sys.exit(1)
    read = {file for library in libraries.values() for file in library.places}
    for example in (it for file in CRATES.glob('*/src/**/*.rt') if file not in read for it in examples(file)):
        failed[f'{example.file.relative_to(ROOT)}:{example.line}'] = 'it is in no library, and does not run'
    for name, said in failed.items():
        print(f'FAILED: {places.get(name, name)}: {said}')
    passed = len(places.keys() - failed.keys())
    print(f'{passed} passed, {len(failed)} failed')
    sys.exit(1 if failed or not passed else 0)


main()
