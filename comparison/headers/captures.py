#!/usr/bin/env python3
"""Reads each header of captures by the program `crates/conformance`, and writes it back.

    captures.py FILE..                  with crates/conformance/out/conformance
    captures.py --program FILE FILE..   with another build; with `--program ''` the reference alone

The files are captures in the classic format, of Ethernet, Linux cooked captures, IP packets or loopback; others are counted and left out.
For each kind it prints how many headers were read and are the same bytes again, how many have bits that are reserved and not 0, and how
many are refused, and for what. Each answer has to be that of `reference.py`.
"""
import argparse
import collections
import struct
import sys

import compare
import reference

TAGS = (0x8100, 0x88a8, 0x9100)
MOST = 2200 # bytes of a case: more than any header has


def frames(path):
    """The link type of a capture, and its frames; no link type if it is none."""
    data = open(path, 'rb').read()
    order = {b'\xd4\xc3\xb2\xa1': '<', b'\x4d\x3c\xb2\xa1': '<', b'\xa1\xb2\xc3\xd4': '>', b'\xa1\xb2\x3c\x4d': '>'}.get(data[:4])
    if order is None or len(data) < 24:
        return None, []
    link, found, at = struct.unpack(order + 'I', data[20:24])[0] & 0xffff, [], 24
    while at + 16 <= len(data):
        size = struct.unpack(order + 'I', data[at + 8:at + 12])[0]
        found.append(data[at + 16:at + 16 + size])
        at += 16 + size
    return link, found


def number(held, at, size=2):
    return int.from_bytes(held[at:at + size], 'big')


def cooked(device, protocol):
    """The EtherType of a Linux cooked capture: none of netlink, frame relay and radiotap (LINKTYPE_LINUX_SLL of tcpdump.org)."""
    return 0 if device in (824, 770, 803) else protocol


def link_headers(link, frame):
    """The headers of a frame: kinds, words before the bytes, and bytes."""
    if link == 1:
        yield 'link.ethernet2', '', frame
        ether_type, rest = number(frame, 12), frame[14:]
    elif link == 113:
        yield 'link.sll', '', frame
        ether_type, rest = cooked(number(frame, 2), number(frame, 14)), frame[16:]
    elif link == 276:
        yield 'link.sll2', '', frame
        ether_type, rest = cooked(number(frame, 8), number(frame, 0)), frame[20:]
    else:
        rest = frame[4:] if link in (0, 108) else frame
        ether_type = {4: 0x0800, 6: 0x86dd}.get(rest[0] >> 4 if rest else 0, 0)
    while ether_type in TAGS:
        yield 'link.vlan', '', rest
        if number(rest, 2) in TAGS:
            yield 'link.double_vlan', '', rest
        ether_type, rest = number(rest, 2), rest[4:]
    if ether_type == 0x0806:
        yield 'link.arp', '', rest
    elif ether_type == 0x0800:
        yield from ipv4_headers(rest)
    elif ether_type == 0x86dd:
        yield from ipv6_headers(rest)


def ipv4_headers(packet):
    front, total = 4 * (packet[0] % 16) if packet else 0, number(packet, 2)
    if front < 20 or len(packet) < front:
        return
    if front > 20:
        yield 'ext.options4', '', packet[20:front]
    if number(packet, 6) % 8192 == 0:
        yield from upper_headers(packet[9], packet[front:total] if total >= front else packet[front:], '')


def ipv6_headers(packet):
    if len(packet) >= 40:
        addresses = f'{packet[8:24].hex()} {packet[24:40].hex()} '
        size = number(packet, 4)
        yield from upper_headers(packet[6], packet[40:40 + size] if size else packet[40:], addresses)


def upper_headers(protocol, held, addresses):
    """What comes after an IP header; the addresses are those of IPv6."""
    size = 8 * (held[1] + 1) if len(held) > 1 else 8
    if protocol == 17:
        yield 'udp.head', '', held
    elif protocol == 6:
        yield 'tcp.head', '', held
        offset = held[12] // 16 * 4 if len(held) >= 20 else 0
        if 20 < offset <= len(held):
            yield 'tcp.options', '', held[20:offset]
    elif protocol == 1 and not addresses:
        yield 'icmp.v4', '', held
    elif protocol == 58 and addresses:
        yield 'icmp.v6', addresses, held
    elif protocol == 51:
        yield 'ext.auth', '', held
        size = 4 * (held[1] + 2) if len(held) > 1 else 12
        if len(held) > size:
            yield from upper_headers(held[0], held[size:], addresses)
    elif protocol == 44 and addresses:
        yield 'ext.fragment', '', held
        if len(held) > 8 and number(held, 2) < 8:
            yield from upper_headers(held[0], held[8:], addresses)
    elif protocol in (0, 43, 60, 135, 139, 140) and addresses:
        yield 'ext.raw', '', held
        if protocol in (0, 60) and len(held) >= size:
            yield 'ext.options6', '', held[2:size]
        if len(held) > size:
            yield from upper_headers(held[0], held[size:], addresses)
    elif protocol == 4:
        yield from ipv4_headers(held)
    elif protocol == 41:
        yield from ipv6_headers(held)


class Kind:
    """What was found of a kind."""

    def __init__(self):
        self.count = collections.Counter()

    def add(self, held, answer):
        fields = dict(word.split('=', 1) for word in answer.split(' ; ')[0].split(' ') if '=' in word)
        if 'err ' in answer.split(' ; ')[0] or ' ; err ' in answer and 'bytes' not in fields:
            name = answer[answer.index('err ') + 4:]
            self.count['refused: ' + ' '.join(word for word in name.split(' ')[:1] if word)] += 1
        elif 'bytes' not in fields:
            self.count['listed to the end'] += 1
        else:
            written = reference.raw(fields['bytes'])
            bits = [f'byte {at}' for at, (one, other) in enumerate(zip(written, held)) if one != other]
            self.count['same' if not bits else 'reserved or unused and not 0: ' + ', '.join(bits)] += 1


def main():
    parser = argparse.ArgumentParser(description=__doc__.splitlines()[0])
    parser.add_argument('--program', default=str(compare.PROGRAM))
    parser.add_argument('files', nargs='+', metavar='FILE')
    arguments = parser.parse_args()
    kinds, links, cases, held_of = collections.defaultdict(Kind), collections.Counter(), [], []
    for path in arguments.files:
        link, found = frames(path)
        links[link if link in (0, 1, 12, 101, 108, 113, 228, 229, 276) else 'left out'] += 1
        if link not in links:
            continue
        for frame in found:
            for kind, words, held in link_headers(link, frame):
                held = held[:MOST]
                cases.append(f'{kind} {words}{held.hex() or "-"}')
                held_of.append((kind, held))
    wanted = [reference.answer(case) for case in cases]
    answers = compare.answers_of(arguments.program, cases) if arguments.program else wanted
    failed = 0
    for case, (kind, held), answer, ours in zip(cases, held_of, answers, wanted, strict=True):
        kinds[kind].add(held, answer)
        if answer != ours:
            failed += 1
            print(f'{case}\n  answers {answer}\n  and not {ours}')
    print('captures by link type:', ', '.join(f'{link}: {count}' for link, count in links.most_common()))
    for kind, found in sorted(kinds.items()):
        print(f'{kind}: {sum(found.count.values())}; ' + '; '.join(f'{name}: {count}' for name, count in found.count.most_common()))
    print(f'{len(cases)} headers and lists of options, {failed} differ from the reference')
    return failed > 0


if __name__ == '__main__':
    sys.exit(main())
