#!/usr/bin/env python3
"""sample.py [--kinds] [--seed S]: writes the cases `filter` anew in the files stdin and stdout of
crates/conformance, in the place of those that are there (SAMPLE.md there).

Most answers are libpcap's, on plain frames where no intended difference applies (compare.py). Its
programs have to agree with and without its optimiser, and so has the model (meaning.py), or the
script stops before anything is written. The others are the model's. Half of the answers of each
kind are `true`. Texts that are refused, which libpcap does not do at a place, have the answer of
grammar.py.

`--kinds` is for a program that tells the kinds `mixed` and `unsupported` of refusals: it takes
texts that are refused so too."""
import argparse
import collections
import os
import struct
import sys

import compare
import grammar
import meaning
from libpcap import CompileError, Libpcap
from random_cases import Cases

HERE = os.path.dirname(os.path.abspath(__file__))
FILES = [os.path.join(HERE, '../../crates/conformance', name) for name in ('stdin', 'stdout')]
# how many cases: random expressions as libpcap reads them, in its own words, on frames with tags
# and extension headers, on others by the model, after other link headers, and real ones
RANDOM, IN_ITS_WORDS, COVERED, BY_MODEL, OTHER_LINKS, REAL = 600, 80, 60, 100, 120, 180
# networks with masks, and texts about them that libpcap refuses too
MASKS, MASKS_REFUSED = 80, 30
REFUSED = {'unexpected': 125, 'incomplete': 30, 'too long': 5}
OTHER_KINDS = {'mixed': 20, 'unsupported': 20}
# how many are refused at their first word
REFUSED_AT_ONCE = 15
LONGEST_FRAME, LONGEST_TEXT, LONGEST_REAL_TEXT = 80, 56, 150

NO_CASES = ['filter', 'filter 1', 'filter 1 - 0', 'filter 2 - 0 6970', 'filter 1 - 0 6970 0',
            'filter 1 0 0 6970', 'filter 01 - 0 6970', 'filter 4294967296 - 0 6970',
            'filter 1 - 18446744073709551616 6970', 'filter.x 1 - 0 6970']
# a frame that ends within its link header: known by its length alone
NO_FRAMES = [(f'filter {link} {"00" * (most - 1) or "-"} 0 6970',
              f'err link required={most} len={most - 1}')
             for link, most in ((0, 4), (1, 14), (108, 4), (113, 16), (276, 20))]


class Sample:
    def __init__(self, seed):
        self.cases = Cases(seed)
        self.libraries = {number: Libpcap(compare.OWN_NUMBER.get(number, number))
                          for number in meaning.LINK_HEADERS}
        self.lines, self.kinds = {}, collections.Counter()

    def libpcap_answer(self, text, frame, wire, link_type):
        """what both programs say, or None if libpcap does not read the text or they differ"""
        library, said = self.libraries[link_type], set()
        for optimised in True, False:
            try:
                program = library.compile(text, optimised)
            except CompileError:
                return None
            said.add(library.matches(program, frame, wire))
            library.free(program)
        return said.pop() if len(said) == 1 else None

    def add(self, kind, text, frame, wire, link_type, said, wanted):
        """adds a case, if it is new and has the wanted answer"""
        case = f'filter {link_type} {frame.hex()} {wire} {text.hex()}'
        if case in self.lines or wanted not in (None, said):
            return False
        self.lines[case] = 'true' if said else 'false'
        self.kinds[kind, said] += 1
        return True

    def by_model(self, kind, text, frame, wire, wanted=None):
        """a case with the model's answer"""
        read = grammar.read(text)
        said = read[0] == 'ok' and meaning.matches(read[1], meaning.read_frame(frame), wire)
        return read[0] == 'ok' and self.add(kind, text, frame, wire, 1, said, wanted)

    def take(self, kind, text, frame, wire, link_type=1, wanted=None, also=None, words=False):
        """A case that has to agree with libpcap: a text that it reads as it stands, or with `words`
        one that it does not, which it gets in its own words. With `also`, the case has that frame,
        where the answer has to be the same."""
        read = grammar.read(text)
        if read[0] != 'ok' or len(text) > (LONGEST_REAL_TEXT if kind == 'real' else LONGEST_TEXT):
            return False
        whole = meaning.read_frame(frame, link_type)
        pair = compare.Pair(text, read[1], whole)
        if pair.has('checksum-wrong') or any(applies(pair) for _, applies in compare.INTENDED):
            return False
        said = None
        if not compare.OWN_WORDS & pair.words:
            said = self.libpcap_answer(text, frame, wire, link_type)
        if words:
            if said is not None:
                return False
            said = self.libpcap_answer(compare.text_of(read[1]), frame, wire, link_type)
        if said is None:
            return False
        answers = [meaning.matches(read[1], whole, wire)]
        if also is not None:
            if compare.is_about_cover(pair):
                return False
            frame, wire = also, len(also)
            answers.append(meaning.matches(read[1], meaning.read_frame(frame), wire))
        if any(answer != said for answer in answers):
            sys.exit(f'libpcap and the model differ: {text} {frame.hex()} {wire} {link_type}')
        return self.add(kind, text, frame, wire, link_type, said, wanted)

    def random(self, count, words=False):
        done = 0
        while done < count:
            frame, wire = self.cases.frame()
            if len(frame) <= LONGEST_FRAME:
                done += self.take('in its words' if words else 'as they stand',
                                  self.cases.expression(), frame, wire, wanted=done % 2 == 0,
                                  words=words)

    def covered(self, count):
        """a plain frame with tags, extension headers and padding: libpcap says what is true of it
        without them"""
        done = 0
        while done < count:
            frame, _ = self.cases.frame()
            also = self.cases.covered(frame)
            if frame != also and len(also) <= LONGEST_FRAME:
                done += self.take('covered', self.cases.expression(), frame, len(frame),
                                  wanted=done % 2 == 0, also=also)

    def on_others(self, count):
        """half of them about what libpcap has no words for"""
        done = 0
        while done < count:
            frame, wire = self.cases.frame(plain=done % 4 > 1)
            text = self.cases.expression() if done % 4 < 2 else self.cases.spaced(
                self.cases.pick([['checksum', 'wrong'], ['checksum', 'wrong'], ['fragment'],
                                 ['first', 'fragment']]))
            if len(frame) <= LONGEST_FRAME and len(text) <= LONGEST_TEXT:
                done += self.by_model('by the model', text, frame, wire, wanted=done % 2 == 0)

    def names(self):
        """each name once, where it is true"""
        ethernet = bytes(12)
        for name, number in grammar.NUMBER_NAMES.items():
            self.take('names', f'len={name}'.encode(), ethernet + b'\0\0', number)
        for name, number in grammar.ETHER_TYPES.items():
            frame = ethernet + number.to_bytes(2, 'big')
            self.by_model('names', f'ether proto {name}'.encode(), frame, len(frame))
        for name, number in grammar.PORT_NAMES.items():
            frame = ethernet + ip_packet(4, 17, struct.pack('>HHHH', 0, number, 8, 0))
            self.by_model('names', f'port {name}'.encode(), frame, len(frame))
        for name, number in grammar.IP_NUMBERS.items():
            frame = ethernet + ip_packet(4, number, b'')
            self.by_model('names', f'proto {name}'.encode(), frame, len(frame))
        for name, (version, number) in grammar.CARRIED.items():
            for found in (4, 6) if version is None else (version,):
                frame = ethernet + ip_packet(found, number, b'\0\1')
                self.by_model('names', f'{name}[1]=1'.encode(), frame, len(frame))

    def lengths(self):
        """lengths on the wire beside a limit, of a frame with all bytes and one with fewer"""
        frame, _ = self.cases.frame()
        for wire in len(frame), len(frame) + 46:
            for limit in wire - 1, wire, wire + 1:
                for word in 'less', 'greater':
                    self.take('lengths', f'{word} {limit}'.encode(), frame, wire)

    def other_links(self, count):
        """IP packets without a link header, and after those of Linux cooked captures"""
        done = 0
        while done < count:
            frame, _ = self.cases.frame()
            link_type = (101, 113, 276)[done % 3]
            if link_type == 101 and frame[12:14] not in (b'\x08\x00', b'\x86\xdd'):
                continue
            text = self.cases.expression()
            if 'ether' in text.decode() or 'cast' in text.decode() or b'vlan' in text:
                continue
            frame = self.cases.relinked(frame, link_type)
            if len(frame) <= LONGEST_FRAME:
                done += self.take('after other headers', text, frame, len(frame), link_type,
                                  done // 3 % 2 == 0)

    def real(self, count):
        """real expressions on frames of their addresses and ports, as far as there are some"""
        texts = [text.encode() for text in self.cases.real]
        done = tries = 0
        while done < count and tries < 400 * count:
            tries += 1
            text = self.cases.pick(texts)
            self.cases.aim(text)
            frame, wire = self.cases.frame()
            if len(frame) <= LONGEST_FRAME:
                done += self.take('real', text, frame, wire, wanted=done % 2 == 0)

    def masks(self, count):
        """networks with masks"""
        self.cases.masks, done = 0.8, 0
        while done < count:
            frame, wire = self.cases.frame()
            text = self.cases.expression()
            if b'mask' in text and len(frame) <= LONGEST_FRAME:
                done += self.take('masks', text, frame, wire, wanted=done % 2 == 0)
        self.cases.masks = 0

    def masks_refused(self, count):
        """texts that libpcap refuses too; the place is that of grammar.py"""
        while count:
            text = self.cases.masked_net()
            read = grammar.read(text)
            case = f'filter 1 {"00" * 14} 14 {text.hex()}'
            if read[0] == 'ok' or case in self.lines:
                continue
            if self.libpcap_answer(text, bytes(14), 14, 1) is not None:
                continue
            self.lines[case] = meaning.refusal(*read)
            self.kinds['masks refused', read[0]] += 1
            count -= 1

    def refused(self, counts):
        counts, at_once = dict(counts), REFUSED_AT_ONCE
        while any(counts.values()):
            text = self.cases.text(self.cases.pick(['bytes', 'words', 'ways', 'ways', 'changed']))
            read = grammar.read(text)
            case = f'filter 1 {"00" * 14} 14 {text.hex() or "-"}'
            longest = 400 if read[0] == 'too long' else LONGEST_TEXT
            if not counts.get(read[0]) or len(text) > longest or case in self.lines:
                continue
            if read[1:] == (0,):
                if at_once == 0:
                    continue
                at_once -= 1
            self.lines[case] = meaning.refusal(*read)
            self.kinds['refused', read[0]] += 1
            counts[read[0]] -= 1


def ip_packet(version, number, payload):
    """an EtherType, and a packet with it whose header has nothing else to tell"""
    if version == 4:
        return b'\x08\0' + struct.pack('>BxH5xB10x', 0x45, 20 + len(payload), number) + payload
    return b'\x86\xdd' + struct.pack('>BxxxHB33x', 0x60, len(payload), number) + payload


def main():
    parser = argparse.ArgumentParser(usage=__doc__)
    parser.add_argument('--seed', type=int, default=1)
    parser.add_argument('--kinds', action='store_true')
    asked = parser.parse_args()
    sample = Sample(asked.seed)
    sample.random(RANDOM)
    sample.random(IN_ITS_WORDS, words=True)
    sample.covered(COVERED)
    sample.on_others(BY_MODEL)
    sample.other_links(OTHER_LINKS)
    sample.real(REAL)
    sample.lengths()
    sample.names()
    sample.refused({**REFUSED, **(OTHER_KINDS if asked.kinds else {})})
    sample.masks(MASKS)
    sample.masks_refused(MASKS_REFUSED)
    lines = [*sample.lines.items(), *NO_FRAMES, *((case, 'bad line') for case in NO_CASES)]
    before, after = [], None
    with open(FILES[0], encoding='ascii') as cases, open(FILES[1], encoding='ascii') as answers:
        for case, answer in zip(cases.read().split('\n')[:-1], answers.read().split('\n')[:-1]):
            if case.split(' ')[0].split('.')[0] == 'filter':
                after = after or []
            else:
                (before if after is None else after).append((case, answer))
    for at, name in enumerate(FILES):
        with open(name, 'w', encoding='ascii') as file:
            file.writelines(line[at] + '\n' for line in before + lines + (after or []))
    for (kind, said), count in sample.kinds.items():
        print(f'{kind}, {str(said).lower()}: {count}', file=sys.stderr)
    print(f'{len(lines)} cases', file=sys.stderr)


if __name__ == '__main__':
    main()
