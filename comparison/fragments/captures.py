#!/usr/bin/env python3
"""Compares `packet_reassembly` with tshark: the datagrams that the fragments of captures are, and after which frame each is whole.

    ./captures.py FILE..                  with crates/conformance/out/conformance
    ./captures.py --program FILE FILE..   with another build

It needs tshark and editcap. It prints a line for each capture, and at the end 'N same, M differ, ..'. Fragments of one
packet are those with equal addresses and identification, and of IPv4 also protocol (RFC 791 section 3.2, RFC 8200 section 4.5);
once a datagram is whole, the next fragment with its key begins another one.
"""
import argparse
import collections
import pathlib
import struct
import subprocess
import sys
import tempfile

PROGRAM = pathlib.Path(__file__).resolve().parents[2] / 'crates/conformance/out/conformance'
IP = (b'\x08\x00', b'\x86\xdd')


def frames(path):
    """the link type of a capture, and its frames"""
    with tempfile.TemporaryDirectory() as folder:
        classic = pathlib.Path(folder) / 'classic.pcap'
        subprocess.run(['editcap', '-F', 'pcap', path, classic], stderr=subprocess.DEVNULL)
        data = classic.read_bytes() if classic.exists() else b''
    if len(data) < 24:
        sys.exit(f"{path}: editcap does not read it")
    order = '<' if data[:4] in (b'\xd4\xc3\xb2\xa1', b'\x4d\x3c\xb2\xa1') else '>'
    link, found, at = struct.unpack(order + 'I', data[20:24])[0] & 0xffff, [], 24
    while at + 16 <= len(data):
        size = struct.unpack(order + 'I', data[at + 8:at + 12])[0]
        found.append(data[at + 16:at + 16 + size])
        at += 16 + size
    return link, found


def packet_of(link, frame):
    """the IP packet of a frame, with what follows it"""
    if link == 1: # Ethernet
        at = 12
        while frame[at:at + 2] in (b'\x81\x00', b'\x88\xa8'):
            at += 4
        return frame[at + 2:] if frame[at:at + 2] in IP else b''
    if link == 113: # Linux cooked; of netlink, frame relay and radiotap it has no EtherType
        other = frame[2:4] in (b'\x03\x38', b'\x03\x02', b'\x03\x23')
        return frame[16:] if frame[14:16] in IP and not other else b''
    return {0: frame[4:], 12: frame, 14: frame, 101: frame, 228: frame, 229: frame}.get(link, b'')


def fragment_of(packet):
    """the key of a fragment, its offset, whether more follow, and its bytes; none if the packet is whole, or not all there"""
    if len(packet) >= 20 and packet[0] >> 4 == 4:
        front, total, place = packet[0] % 16 * 4, int.from_bytes(packet[2:4], 'big'), int.from_bytes(packet[6:8], 'big')
        if 20 <= front <= total <= len(packet) and place & 0x3fff:
            return (packet[12:20], packet[9], packet[4:6]), place & 0x1fff, place >> 13 & 1, packet[front:total]
    if len(packet) >= 40 and packet[0] >> 4 == 6:
        total = 40 + int.from_bytes(packet[4:6], 'big')
        number, at = packet[6], 40
        while total <= len(packet) and at + 8 <= total and number in (0, 43, 44, 60):
            place = int.from_bytes(packet[at + 2:at + 4], 'big')
            if number == 44 and place & 0xfff9:
                return (packet[8:40], packet[at + 4:at + 8]), place >> 3, place & 1, packet[at + 8:total]
            number, at = packet[at], at + 8 * (1 if number == 44 else packet[at + 1] + 1)
    return None


def answers(program, groups):
    """the states after each fragment of each group, and the datagram at its end"""
    text = ''.join(
        f"fragments {len(group)} " + ' '.join(f"{offset} {more} {payload.hex() or '-'}" for _, offset, more, payload in group) + '\n'
        for group in groups)
    done = subprocess.run([program], input=text, capture_output=True, text=True, check=True)
    return [line.split(' ; ') for line in done.stdout.splitlines()]


def ours(program, path):
    """the datagram that is whole after a frame, by the number of the frame"""
    link, found = frames(path)
    keys = collections.defaultdict(list)
    for number, frame in enumerate(found, 1):
        fragment = fragment_of(packet_of(link, frame))
        if fragment:
            keys[fragment[0]].append((number, *fragment[1:]))
    groups, whole = list(keys.values()), {}
    count = sum(map(len, groups))
    while groups:
        later, fronts = [], []
        for group, words in zip(groups, answers(program, groups), strict=True):
            if 'complete' in words[:-1]:
                front = words.index('complete') + 1
                fronts.append(group[:front])
                if group[front:]:
                    later.append(group[front:])
        for group, words in zip(fronts, answers(program, fronts) if fronts else [], strict=True):
            whole[group[-1][0]] = bytes.fromhex(words[-1])
        groups = later
    return count, whole


def theirs(path):
    done = subprocess.run(
        ['tshark', '-n', '-o', 'ip.defragment:TRUE', '-o', 'ipv6.defragment:TRUE', '-r', path, '-Y', 'ip.reassembled.length || ipv6.reassembled.length',
         '-T', 'fields', '-e', 'frame.number', '-e', 'ip.reassembled.data', '-e', 'ipv6.reassembled.data'],
        capture_output=True, text=True)
    lines = [line.split('\t') for line in done.stdout.splitlines()]
    return {int(number): bytes.fromhex((four or six).split(',')[0]) for number, four, six in lines}


def main():
    parser = argparse.ArgumentParser(description=__doc__.splitlines()[0])
    parser.add_argument('--program', default=PROGRAM)
    parser.add_argument('captures', nargs='+')
    arguments = parser.parse_args()
    total = collections.Counter()
    for path in arguments.captures:
        count, found = ours(arguments.program, path)
        wanted = theirs(path)
        sums = collections.Counter(fragments=count)
        for number in found.keys() | wanted.keys():
            if number not in wanted:
                sums['here alone'] += 1
            elif number not in found:
                sums['tshark alone'] += 1
            else:
                sums['same' if found[number] == wanted[number] else 'differ'] += 1
        print(f"{path}: {dict(sums)}")
        total += sums
    words = ('same', 'differ', 'here alone', 'tshark alone')
    print(f"{total['fragments']} fragments: " + ', '.join(f'{total[word]} {word}' for word in words))
    return total['same'] != sum(total[word] for word in words)


if __name__ == '__main__':
    sys.exit(main())
