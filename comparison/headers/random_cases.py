#!/usr/bin/env python3
"""Random headers, options and packets to build, most of them right but for one thing, as cases for `reference.py`.

    random_cases.py --kind link.arp --seed 1 --count 1000

The same arguments give the same cases. Without `--kind` they are of all kinds in turn.
"""
import argparse
import random

import reference


def some(rng, *choices):
    return choices[int(rng.random() * len(choices))]


def up_to(rng, most):
    return int(rng.random() * (most + 1))


def one_in(rng, n):
    return rng.random() * n < 1


def byte(rng, *likely):
    """One of these, or any."""
    return up_to(rng, 255) if one_in(rng, 4) else some(rng, *likely)


def word16(rng, *likely):
    return up_to(rng, 65535) if not likely or one_in(rng, 4) else some(rng, *likely)


def number(rng, bits):
    """A number of so many bits, sometimes the least or the greatest."""
    return some(rng, 0, 1, (1 << bits) - 1) if one_in(rng, 5) else rng.getrandbits(bits)


def raw(held):
    return held.hex() or '-'


def near(rng, held, size):
    """Bytes of about this size: these, cut or with more after them."""
    size = max(0, size + (some(rng, -2, -1, 0, 1, 2) if one_in(rng, 2) else up_to(rng, 8)))
    if one_in(rng, 40):
        size = up_to(rng, size)
    return held[:size] if size <= len(held) else held + rng.randbytes(size - len(held))


def filled(rng, size):
    """Random bytes, sometimes all alike."""
    return bytes([some(rng, 0, 255)]) * size if one_in(rng, 12) else rng.randbytes(size)


# Link headers and ARP.

def of_layout(layout):
    def case(rng):
        return raw(near(rng, filled(rng, layout.len), layout.len))
    return case


def double_vlan(rng):
    held = bytearray(filled(rng, 8))
    if not one_in(rng, 8):
        held[2:4] = some(rng, 0x8100, 0x88a8, 0x9100, 0x8100, 0x88a8, 0x9100, 0x8101, 0x88a7, 0x9000, 0x9200).to_bytes(2, 'big')
    return raw(near(rng, bytes(held), 8))


def arp(rng):
    hw, protocol = byte(rng, 0, 1, 4, 6, 6, 6, 6, 7, 255), byte(rng, 0, 1, 4, 4, 4, 4, 6, 16, 255)
    front = reference.ARP.written({
        'hw_addr_type': word16(rng, 1, 1, 1, 1, 1, 1, 7, 256), 'proto_addr_type': word16(rng, *[0x0800] * 6, 0x0806, 8),
        'hw_addr_size': hw, 'protocol_addr_size': protocol, 'operation': word16(rng, 1, 2)})
    size = 8 + 2 * (hw + protocol)
    return raw(near(rng, front + filled(rng, size - 8), size))


def arp_new(rng):
    words = []
    for likely in (6, 4):
        size = some(rng, 254, 255, 256, 257) if one_in(rng, 20) else byte(rng, likely, likely, 0, 1) % 32
        other = max(0, size + some(rng, -1, 1)) if one_in(rng, 8) else size
        words.append((raw(filled(rng, size)), raw(filled(rng, other))))
    return f'{word16(rng, 1)} {word16(rng, 0x0800)} {word16(rng, 1, 2)} {words[0][0]} {words[1][0]} {words[0][1]} {words[1][1]}'


# Extension headers.

def auth(rng):
    units = byte(rng, 0, 1, 2, 3, 4, 4, 5, 255) % 256 if not one_in(rng, 3) else up_to(rng, 9)
    size = 4 * (units + 2)
    return raw(near(rng, bytes([up_to(rng, 255), units]) + filled(rng, size - 2), max(size, 12) if units else some(rng, 8, 12)))


def raw_header(rng):
    units = byte(rng, 0, 1, 2, 3, 255) if one_in(rng, 4) else up_to(rng, 4)
    return raw(near(rng, bytes([up_to(rng, 255), units]) + filled(rng, 8 * units + 6), 8 * units + 8))


def auth_new(rng):
    size = up_to(rng, 24) if not one_in(rng, 10) else 1016 + some(rng, -4, -3, 0, 1, 3, 4)
    return f'{up_to(rng, 255)} {number(rng, 32)} {number(rng, 32)} {raw(filled(rng, size))}'


def raw_new(rng):
    size = some(rng, up_to(rng, 32), 8 * up_to(rng, 4) + 6) if not one_in(rng, 10) else 2046 + some(rng, -8, -1, 0, 1, 8)
    return f'{up_to(rng, 255)} {raw(filled(rng, size))}'


def chain(rng):
    first = likely = some(rng, 0, 43, 44, 51, 60, 135, 139, 140, up_to(rng, 255))
    held = b''
    for _ in range(up_to(rng, 4)):
        after = some(rng, 0, 43, 44, 51, 51, 60, 135, 139, 140, 17, 6, 59, up_to(rng, 255))
        units = up_to(rng, 2) if not one_in(rng, 10) else up_to(rng, 9)
        size = 8 if likely == 44 else 4 * units + 8 if likely == 51 else 8 * units + 8
        held += bytes([after, units]) + filled(rng, size - 2)
        likely = after
    return f'{first} {raw(near(rng, held, len(held)))}'


# Options.

def option4(rng):
    kind = byte(rng, 1, 1, 7, 68, 131, 137, 148, 130)
    if kind == 1 or one_in(rng, 40) and kind:
        return bytes([kind])
    size = some(rng, 0, 1, 2, 3, 255) if one_in(rng, 12) else 2 + up_to(rng, 6)
    return bytes([kind, size]) + rng.randbytes(max(0, min(size, 12) - 2))


def option6(rng):
    kind = byte(rng, 0, 0, 1, 1, 5, 0x26, 0x63, 0xc2, 0xc9, 0x1e, 0x3e, 0x5e, 0x9e, 0xde)
    if kind == 0:
        return b'\0'
    size = some(rng, 0, 1, 30, 255) if one_in(rng, 12) else up_to(rng, 6)
    return bytes([kind, size]) + rng.randbytes(min(size, 12))


def tcp_option(rng):
    kind = byte(rng, 1, 1, 2, 3, 4, 5, 8)
    size = {1: 1, 2: 4, 3: 3, 4: 2, 5: 2 + 8 * (1 + up_to(rng, 3)), 8: 10}.get(kind, 2 + up_to(rng, 6))
    if kind == 1:
        return b'\1'
    told = up_to(rng, 40) if one_in(rng, 15) else size
    return bytes([kind, told]) + filled(rng, size - 2)


def list_of(option, most):
    def case(rng):
        held = b''.join([option(rng) for _ in range(up_to(rng, most))])
        return raw(near(rng, held, len(held)) if one_in(rng, 3) else held)
    return case


def append(rng):
    words = []
    for _ in range(up_to(rng, 8)):
        kind = byte(rng, 0, 1, 5, 5, 0xc2)
        size = some(rng, 50, 58, 59, 60, 61, 255, 256, 257) if one_in(rng, 12) else up_to(rng, 9)
        words.append(f'{kind} {raw(rng.randbytes(0 if kind == 0 and not one_in(rng, 4) else size))}')
    return ' '.join([str(len(words)), *words])


# UDP, TCP and ICMP.

def addresses(rng, size):
    return filled(rng, size), filled(rng, size)


def payload_of(rng):
    if one_in(rng, 20000):
        return rng.randbytes(65480 + up_to(rng, 60))
    return filled(rng, up_to(rng, 24) if not one_in(rng, 20) else up_to(rng, 300))


def udp_new(rng):
    most = some(rng, 65527, 65528, 65526, 0, 1, 1 << 32, (1 << 64) - 1)
    return f'{word16(rng)} {word16(rng)} {most if one_in(rng, 3) else number(rng, 17)}'


def udp_sum(size):
    def case(rng):
        (source, destination), payload = addresses(rng, size), payload_of(rng)
        length = (8 + len(payload)) % 65536 if not one_in(rng, 6) else word16(rng)
        fields = {'source_port': 0, 'destination_port': word16(rng), 'length': length, 'checksum': word16(rng, 0)}
        fields['source_port'] = word16(rng)
        if one_in(rng, 4): # a sum of all ones, whose complement is 0
            fields['source_port'] = 0
            fields['source_port'] = reference.udp_checksum(source, destination, fields, payload)
        held = reference.UDP.written(fields) + payload
        return f'{raw(source)} {raw(destination)} {raw(near(rng, held, 8) if one_in(rng, 12) else held)}'
    return case


def tcp_header(rng):
    held = bytearray(filled(rng, 20))
    offset = some(rng, 5, 5, 6, 8, 10, 15, up_to(rng, 15))
    held[12] = offset << 4 | held[12] & 15
    size = max(20, 4 * offset)
    options = b''.join([tcp_option(rng) for _ in range(up_to(rng, 5))]) if one_in(rng, 2) else b''
    return (bytes(held) + options + rng.randbytes(40))[:size]


def tcp(rng):
    held = tcp_header(rng)
    return raw(near(rng, held, len(held)))


def tcp_sum(size):
    def case(rng):
        (source, destination), held, payload = addresses(rng, size), tcp_header(rng), payload_of(rng)
        if one_in(rng, 4) and len(held) == 4 * (held[12] >> 4) and len(payload) < 1000:
            front = b'\0\0' + reference.tcp_parts(held)[1][2:]
            held = reference.tcp_checksum(source, destination, front, payload).to_bytes(2, 'big') + held[2:]
        held += payload
        return f'{raw(source)} {raw(destination)} {raw(near(rng, held, 20) if one_in(rng, 12) else held)}'
    return case


def raw_options(rng):
    return raw(filled(rng, up_to(rng, 44)))


def elements(rng):
    words = []
    for _ in range(up_to(rng, 6)):
        name = some(rng, 'noop', 'mss', 'scale', 'permitted', 'ack', 'timestamp')
        bits = {'noop': [], 'mss': [16], 'scale': [8], 'permitted': [], 'ack': [32, 32], 'timestamp': [32, 32]}[name]
        words.append(' '.join([name, *[str(number(rng, n)) for n in bits]]))
        if name == 'ack':
            words[-1] += ''.join([f' 1 {number(rng, 32)} {number(rng, 32)}' if one_in(rng, 3) else ' 0' for _ in range(3)])
    return ' '.join([str(len(words)), *words])


def message(rng, kinds, codes):
    kind, code = byte(rng, *kinds), some(rng, 0, 0, 1, up_to(rng, codes), up_to(rng, 255))
    held = bytes([kind, code]) + filled(rng, 6 + up_to(rng, 24))
    return near(rng, held, 8) if one_in(rng, 6) else held


def icmpv4(rng):
    return raw(message(rng, (0, 3, 3, 4, 5, 8, 11, 12, 13, 14, 17), 17))


def icmpv6(rng):
    source, destination = addresses(rng, 16)
    return f'{raw(source)} {raw(destination)} {raw(message(rng, (1, 2, 3, 4, 4, 128, 129, 133, 134, 135, 136, 137), 12))}'


# Packets that are built.

def ip_words(rng):
    if one_in(rng, 2):
        options = filled(rng, 4 * up_to(rng, 10)) if one_in(rng, 3) else b''
        return ' '.join(map(str, [
            4, up_to(rng, 63), up_to(rng, 3), word16(rng), word16(rng), up_to(rng, 1), up_to(rng, 1), up_to(rng, 8191) * up_to(rng, 1),
            up_to(rng, 255), up_to(rng, 255), word16(rng), raw(filled(rng, 4)), raw(filled(rng, 4)), raw(options)]))
    return ' '.join(map(str, [
        6, up_to(rng, 255), up_to(rng, (1 << 20) - 1), word16(rng), up_to(rng, 255), up_to(rng, 255), raw(filled(rng, 16)),
        raw(filled(rng, 16))]))


def tag(rng):
    return f'{up_to(rng, 7)} {up_to(rng, 1)} {some(rng, 0, 1, 4095, up_to(rng, 4095))}'


def build(rng):
    link = some(rng, 'none', 'ethernet2', 'sll')
    words = [link]
    if link == 'ethernet2':
        words += [raw(filled(rng, 6)), raw(filled(rng, 6))]
    elif link == 'sll':
        words += [str(word16(rng, 0, 4)), str(word16(rng, 1)), str(word16(rng, 6)), raw(filled(rng, 8))]
    tags = 'none' if link == 'none' else some(rng, 'none', 'single', 'double')
    words += [tags, *[tag(rng) for _ in range({'none': 0, 'single': 1, 'double': 2}[tags])], ip_words(rng)]
    upper = some(rng, 'udp', 'tcp', 'ip')
    if upper == 'udp':
        words += [upper, str(word16(rng)), str(word16(rng))]
    elif upper == 'tcp':
        held = tcp_header(rng)
        words += [upper, raw(held if held[12] >> 4 >= 5 else held[:12] + bytes([0x50 | held[12] & 15]) + held[13:])]
    else:
        words += [upper, str(up_to(rng, 255))]
    words.append(raw(payload_of(rng)))
    case = ' '.join(words)
    size = int(reference.build(0, *case.split(' ')).split(' ')[0][5:])
    room = size + some(rng, -1, -20, 0, 0, 1, up_to(rng, 16))
    return f'{min(max(room, 0), 65535)} {case}'


KINDS = {
    'link.ethernet2': of_layout(reference.ETHERNET2), 'link.vlan': of_layout(reference.VLAN), 'link.double_vlan': double_vlan,
    'link.sll': of_layout(reference.SLL), 'link.sll2': of_layout(reference.SLL2), 'link.arp': arp, 'link.arp_new': arp_new,
    'ext.auth': auth, 'ext.auth_new': auth_new, 'ext.fragment': of_layout(reference.FRAGMENT), 'ext.raw': raw_header,
    'ext.raw_new': raw_new, 'ext.options4': list_of(option4, 8), 'ext.options6': list_of(option6, 8), 'ext.append': append,
    'ext.chain': chain, 'udp.head': of_layout(reference.UDP), 'udp.new': udp_new, 'udp.v4': udp_sum(4), 'udp.v6': udp_sum(16),
    'tcp.head': tcp, 'tcp.options': list_of(tcp_option, 7), 'tcp.raw_options': raw_options, 'tcp.elements': elements,
    'tcp.v4': tcp_sum(4), 'tcp.v6': tcp_sum(16), 'icmp.v4': icmpv4, 'icmp.v6': icmpv6, 'build': build,
}


def cases(kind, rng, count):
    """So many cases of a kind."""
    make = KINDS[kind]
    return [f'{kind} {make(rng)}' for _ in range(count)]


def main():
    parser = argparse.ArgumentParser(description=__doc__.splitlines()[0])
    parser.add_argument('--kind', choices=KINDS)
    parser.add_argument('--seed', type=int, default=1)
    parser.add_argument('--count', type=int, default=100)
    arguments = parser.parse_args()
    for kind in [arguments.kind] if arguments.kind else KINDS:
        print('\n'.join(cases(kind, random.Random(f'{kind} {arguments.seed}'), arguments.count)))


if __name__ == '__main__':
    main()
