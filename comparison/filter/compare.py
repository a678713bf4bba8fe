#!/usr/bin/env python3
"""compare.py [--program ANSWERS] [--covered] [--show N] < CASES

Cases of the operation `filter` (random_cases.py), answered by the model here (grammar.py and
meaning.py) and by libpcap. Without `--program` it tells where the two differ: for each intended
difference how many pairs it is about, how many of them differ, and one that does. A difference that
is not intended is shown, and the exit code is 1. So it is if `--program` is given, the file with
the answers of crates/conformance to the same cases, and one of them is not the model's. A program
may call all refusals at a word `unexpected`; if it calls any `mixed` or `unsupported`, it has to
call all of that kind so.

With `--covered` each two cases are a plain frame and the same one with tags, extension headers and
padding (random_cases.py --kind covered). An expression that is not about these has to say the same
of both, so what libpcap says of the plain one holds for the other.

libpcap reads the text itself. Where it refuses a text of the language, it gets the tree in its own
words, and the refusal is counted by its reason. It knows nothing like `checksum wrong`."""
import argparse
import collections
import ipaddress
import re
import socket
import sys

import grammar
import meaning
from libpcap import CompileError, Libpcap

# words that libpcap would take for names of hosts, and ask the network for
OWN_WORDS = {'fragment', 'first', 'checksum', 'wrong'}

# ---- a tree in libpcap's words

ENDS = {'either': 'src or dst', 'both': 'src and dst', 'src': 'src', 'dst': 'dst'}
VERSIONS = {4: 'ip ', 6: 'ip6 ', None: ''}


def net_text(protocol, direction, version, address, bits):
    width = meaning.WIDTH[version]
    address = address >> (width - bits) << (width - bits)
    kind = ipaddress.IPv4Address if version == 4 else ipaddress.IPv6Address
    front = f'{protocol} ' if protocol else ''
    value = f'host {kind(address)}' if bits == width else f'net {kind(address)}/{bits}'
    return f'{front}{ENDS[direction]} {value}'


def masked_net_text(protocol, direction, address, mask):
    front = f'{protocol} ' if protocol else ''
    return (f'{front}{ENDS[direction]} net {ipaddress.IPv4Address(address)}'
            f' mask {ipaddress.IPv4Address(mask)}')


def ports_text(transport, direction, low, high):
    front = f'{transport} ' if transport else ''
    value = f'port {low}' if low == high else f'portrange {low}-{high}'
    return f'{front}{ENDS[direction]} {value}'


def masked_text(front, mask, relation, value):
    return f'{front} ' + ('' if mask is None else f'& {mask} ') + f'{relation} {value}'


def load_text(protocol, at, size, *rest):
    if protocol not in ('esp', 'ah'):
        return masked_text(f'{protocol}[{at}:{size}]', *rest)
    # libpcap has no such loads, but what they are made of
    number = grammar.CARRIED[protocol][1]
    return (f'(ip proto {number} and ip[6:2] & 0x1fff = 0 and '
            + masked_text(f'ip[(ip[0] & 15) * 4 + {at}:{size}]', *rest)
            + f') or (ip6 proto {number} and ' + masked_text(f'ip6[40 + {at}:{size}]', *rest) + ')')


TEXTS = {
    'version': lambda version: VERSIONS[version],
    'ether-type': lambda number: f'ether proto {number}',
    'proto': lambda version, number: f'{VERSIONS[version]}proto {number}',
    'net': net_text,
    'masked': masked_net_text,
    'ports': ports_text,
    'ether-host': lambda direction, address: f'ether {ENDS[direction]} host ' + ':'.join(
        '%02x' % byte for byte in address.to_bytes(6, 'big')),
    'broadcast': lambda: 'ether broadcast',
    'multicast': lambda: 'ether multicast',
    'ip-multicast': lambda: 'ip multicast',
    'ip6-multicast': lambda: 'ip6 multicast',
    # without extension headers only IPv4 has fragments
    'fragment': lambda: 'ip[6:2] & 0x3fff != 0',
    'first-fragment': lambda: 'ip[6:2] & 0x3fff = 0x2000',
    'less': lambda limit: f'less {limit}',
    'greater': lambda limit: f'greater {limit}',
    'len': lambda *rest: masked_text('len', *rest),
    'vlan': lambda identifier: 'vlan' if identifier is None else f'vlan {identifier}',
    'load': load_text}


def text_of(tree):
    if tree[0] == 'not':
        return f'not ({text_of(tree[1])})'
    if tree[0] in ('and', 'or'):
        return f'({text_of(tree[1])}) {tree[0]} ({text_of(tree[2])})'
    return TEXTS[tree[0]](*tree[1:])


def primitives(tree):
    """those of a tree, in the order of the text"""
    if tree[0] in ('not', 'and', 'or'):
        return [one for part in tree[1:] for one in primitives(part)]
    return [tree]


# ---- where the answers are to differ

ARP = 0x806, 0x8035

def port_of_one_protocol(name):
    """whether the names of services here have it for TCP alone or for UDP alone"""
    found = set()
    for protocol in 'tcp', 'udp':
        try:
            found.add(socket.getservbyname(name, protocol))
        except OSError:
            found.add(None)
    return len(found) > 1


ONE_PROTOCOL = {name for name in grammar.PORT_NAMES if port_of_one_protocol(name)}


class Pair:
    """an expression and a frame"""

    def __init__(self, text, tree, frame):
        self.text, self.tree, self.frame = text, tree, frame
        self.words = {word for _, word in grammar.words_of(text)}
        self.primitives = primitives(tree)

    def has(self, name):
        return any(one[0] == name for one in self.primitives)

    def number(self, *numbers):
        return self.frame.ip is not None and self.frame.ip.upper in numbers


def more_after_vlan(pair):
    return 'vlan' in [one[0] for one in pair.primitives[:-1]]


def transport_load_over_ipv6(pair):
    ip = pair.frame.ip
    return ip is not None and ip.version == 6 and any(
        one[0] == 'load' and one[1] in ('tcp', 'udp', 'sctp', 'pim')
        and grammar.CARRIED[one[1]][1] == ip.upper for one in pair.primitives)


def load_past_the_end(pair):
    for one in pair.primitives:
        if one[0] == 'load':
            data = meaning.bytes_of_load(pair.frame, one[1])
            if data is not None and len(data) < one[2] + one[3]:
                return True
    return False


def place_before_header(pair):
    """a load whose place is so great that libpcap goes round 2^32 to bytes before the header"""
    return any(one[0] == 'load' and one[2] > 0xffff0000 for one in pair.primitives)


def reserved_address(pair):
    ip = pair.frame.ip
    return (pair.has('ip-multicast') and ip is not None and ip.version == 4
            and ip.destination >> 28 == 0xf)


def all_32_bits(pair):
    return any(one[0] in ('load', 'len') and 0xffffffff in one[1:] and one[-1] == 0
               for one in pair.primitives)


def name_of_one_protocol(pair):
    return bool(pair.words & ONE_PROTOCOL)


def apple_talk(pair):
    """a frame with a length and an LLC header, and the EtherType of AppleTalk or of its ARP"""
    return (pair.frame.ether_type is not None and pair.frame.ether_type <= 1500
            and any(one in pair.primitives for one in (
                ('ether-type', 0x809b), ('ether-type', 0x80f3))))


def net_of_zero(pair):
    return any(one[0] == 'net' and one[3:] == (4, 0, 8) for one in pair.primitives)


def hexadecimal_end(pair):
    return any(re.search('-0[xX]', word) and grammar.port_range(word) for word in pair.words)


def type_of_ip_alone(pair):
    return pair.frame.ether_type is None and any(
        one in pair.primitives for one in (('ether-type', 0x800), ('ether-type', 0x86dd)))


def other_device(pair):
    return pair.frame.other


# ---- frames that are not plain

def tagged(pair):
    return bool(pair.frame.tags) or pair.frame.ether_type in meaning.TAGS


def extended(pair):
    ip = pair.frame.ip
    return ip is not None and ip.version == 6 and (
        bool(ip.chain) or ip.upper in meaning.EXTENSIONS)


def padded(pair):
    """bytes after what the length field says, or after an ARP packet"""
    frame, ip = pair.frame, pair.frame.ip
    if ip is not None:
        return len(ip.whole) < len(frame.payload) and not without_length(pair)
    return frame.ether_type in ARP and len(frame.payload) > 28


def cut(pair):
    """fewer bytes than the length field says, or than an ARP packet has, or no IP header"""
    frame, ip = pair.frame, pair.frame.ip
    if ip is not None:
        return not ip.complete and not without_length(pair)
    return frame.ether_type in (0x800, 0x86dd, None) or (
        frame.ether_type in ARP and len(frame.payload) < 28)


def without_length(pair):
    """a length field of 0: a long packet that the network card cuts, or a jumbogram"""
    ip, payload = pair.frame.ip, pair.frame.payload
    return ip is not None and meaning.number_at(payload, 2 if ip.version == 4 else 4) == 0 and (
        ip.version == 4 or len(payload) > 40)


def other_version(pair):
    ip = pair.frame.ip
    return ip is not None and pair.frame.ether_type not in (
        None, {4: 0x800, 6: 0x86dd}[ip.version])


def without_ports(pair):
    ip = pair.frame.ip
    return ip is not None and not ip.later and pair.number(6, 17, 132) and len(ip.payload) < 4


def other_arp(pair):
    """ARP or RARP that is not for Ethernet and IPv4"""
    return pair.frame.ether_type in ARP and pair.frame.payload[:6] != bytes([0, 1, 8, 0, 6, 4])


def is_about_cover(pair):
    """whether an expression is about the headers that cover a packet, or about lengths"""
    return any(one[0] in ('vlan', 'less', 'greater', 'len', 'fragment', 'first-fragment',
                          'checksum-wrong')
               or one[0] == 'load' and (one[1] in ('ether', 'ip6')
                                        or one[1] in ('arp', 'rarp') and one[2] + one[3] > 28)
               for one in pair.primitives)


INTENDED = [
    ('more after vlan: libpcap then looks for it 4 bytes further', more_after_vlan),
    ('a load of TCP, UDP, SCTP or PIM over IPv6: libpcap has none', transport_load_over_ipv6),
    ('a load of a place near 2^32: libpcap goes round to the bytes before', place_before_header),
    ('a load past the end of the packet: libpcap rejects the packet', load_past_the_end),
    ('ip multicast, and 240.0.0.0/4: libpcap takes it for multicast', reserved_address),
    ('`& 0xffffffff` and 0: the optimiser of libpcap forgets the comparison', all_32_bits),
    ('a port name that services have for one protocol: libpcap then asks for that',
     name_of_one_protocol),
    ('net 0: libpcap takes it for the address 0.0.0.0', net_of_zero),
    ('a range to a hexadecimal number: libpcap takes that for 0', hexadecimal_end),
    ('ether proto 0x809b or 0x80f3: libpcap finds AppleTalk after an LLC header too', apple_talk),
    ('ether proto of IP without a link header: libpcap goes by its version', type_of_ip_alone),
    ('a Linux cooked capture of netlink, frame relay or radiotap: libpcap takes any protocol type for'
     ' an EtherType', other_device),
    ('a VLAN tag', tagged),
    ('an extension header of IPv6', extended),
    ('bytes after the packet', padded),
    ('a length field of 0', without_length),
    ('a packet that is not all there', cut),
    ('another version than the EtherType says', other_version),
    ('too short for ports', without_ports),
    ('ARP or RARP that is not for Ethernet and IPv4', other_arp)]


# libpcap's own number of a link type, where it is not that of captures
OWN_NUMBER = {101: 12}
OPTIMISER = 'the optimiser of libpcap changes the answer: without it the two agree'


class Libpcaps:
    """libpcap, with the programs of the last text"""

    def __init__(self):
        self.libraries, self.library = {}, None
        self.last, self.programs, self.why = None, [], None

    def read(self, text, tree, link_type=1):
        """Compiles a text, with and without the optimiser; the tree in libpcap's own words if the
        text is refused. Gives the reason of that."""
        if (text, link_type) == self.last:
            return self.why
        for program in self.programs:
            self.library.free(program)
        if link_type not in self.libraries:
            self.libraries[link_type] = Libpcap(OWN_NUMBER.get(link_type, link_type))
        self.library, self.last, self.why = self.libraries[link_type], (text, link_type), None
        self.programs = []
        if not OWN_WORDS & {word for _, word in grammar.words_of(text)}:
            try:
                self.compile(text)
                return None
            except CompileError as error:
                self.why = re.sub('"[^"]*"|\'[^\']*\'|[0-9]{3,}', '..', str(error))
        self.compile(text_of(tree).encode())
        return self.why

    def compile(self, text):
        plain = self.library.compile(text, optimised=False)
        try:
            self.programs = [self.library.compile(text), plain]
        except CompileError as error:
            # nothing can match: the optimiser says so, and gives no program
            if 'rejects all packets' not in str(error):
                self.library.free(plain)
                raise
            self.programs = [plain]

    def answers(self, frame, wire):
        """with the optimiser, if it gave a program, and without"""
        return [self.library.matches(program, frame, wire) for program in self.programs]


def is_about_ethernet(pair):
    """whether libpcap has an expression for Ethernet alone"""
    return any(one[0] in ('ether-host', 'broadcast', 'multicast', 'vlan')
               or one[0] == 'load' and one[1] == 'ether' for one in pair.primitives)


# kinds of refusals that a program may call `unexpected`
KINDS = 'err mixed', 'err unsupported'


def accepted(ours, told):
    """what a program may answer, where it tells some of the kinds"""
    found = [ours]
    for kind in KINDS:
        if ours.startswith(kind) and kind not in told:
            found.append(ours.replace(kind, 'err unexpected'))
    return found


def main():
    parser = argparse.ArgumentParser(usage=__doc__)
    parser.add_argument('--program')
    parser.add_argument('--covered', action='store_true')
    parser.add_argument('--show', type=int, default=10)
    asked = parser.parse_args()
    answers = open(asked.program, encoding='ascii').read().splitlines() if asked.program else None
    told = {kind for kind in KINDS if any(one.startswith(kind) for one in answers or [])}
    tally, example, refusals = collections.Counter(), {}, collections.Counter()
    libpcaps, shown = Libpcaps(), 0

    def wrong(what, case, ours, theirs):
        nonlocal shown
        tally['wrong'] += 1
        shown += 1
        if shown <= asked.show:
            print(f'{what}: {case[3]!r}\n  {case[1].hex()} {case[2]}\n  {ours} and {theirs}')

    read_last = None, None
    if answers is not None:
        cases = sys.stdin.read().splitlines()
        if len(cases) != len(answers):
            sys.exit(f'{len(cases)} cases and {len(answers)} answers')
    for at, line in enumerate(sys.stdin if answers is None else cases):
        _, link, data, wire, text = line.split()
        text, data = bytes.fromhex('' if text == '-' else text), bytes.fromhex(data)
        case = link, data, int(wire), text
        tally['cases'] += 1
        if read_last[0] != text:
            read_last = text, grammar.read(text)
        read = read_last[1]
        ours = meaning.answer(read, data, int(wire), int(link))
        if answers is not None and answers[at] not in accepted(ours, told):
            wrong('program and model', case, answers[at], ours)
        if ours.startswith('err'):
            tally['refused'] += 1
            tally['refused', ours.split()[1]] += 1
            continue
        pair = Pair(text, read[1], meaning.read_frame(data, int(link)))
        if asked.covered and at % 2 == 1 and not is_about_cover(pair):
            tally['pairs of a plain and a covered frame'] += 1
            if ours != of_plain:
                wrong('plain and covered', case, of_plain, ours)
        of_plain = ours
        if pair.has('checksum-wrong') or link != '1' and is_about_ethernet(pair):
            tally['no counterpart in libpcap'] += 1
            continue
        why = libpcaps.read(text, read[1], int(link))
        if why:
            refusals[why] += 1
        said = libpcaps.answers(data, int(wire))
        theirs = 'true' if said[0] else 'false'
        tally['pairs'] += 1
        tally['pairs that match'] += ours == 'true'
        classes = [name for name, applies in INTENDED if applies(pair)]
        if not classes and said[0] != said[-1]:
            classes = [OPTIMISER]
            if ours != ('true' if said[-1] else 'false'):
                wrong('libpcap without its optimiser and model', case, theirs, ours)
        for name in classes:
            tally['about', name] += 1
            if ours != theirs:
                tally['differ', name] += 1
                # the best example differs for this reason alone, and is short
                worth = len(classes), len(text)
                if name not in example or worth < example[name][0]:
                    example[name] = worth, *case, ours, theirs
        if not classes and ours != theirs:
            wrong('libpcap and model', case, theirs, ours)
        if not classes:
            tally['pairs without an intended difference'] += 1
    for name in [*(name for name, _ in INTENDED), OPTIMISER]:
        if ('about', name) in tally:
            print(f'{name}\n  {tally["about", name]} pairs, {tally["differ", name]} differ')
        if name in example:
            _, _, data, wire, text, ours, theirs = example[name]
            print(f'  {text.decode("latin-1")!r} {data.hex()} {wire}: '
                  f'libpcap {theirs}, here {ours}')
    for why, count in refusals.most_common():
        print(f'refused by libpcap, asked in its words: {count}  {why}')
    for name in ('cases', 'refused', 'no counterpart in libpcap', 'pairs', 'pairs that match',
                 'pairs without an intended difference', 'pairs of a plain and a covered frame'):
        print(f'{tally[name]} {name}')
    print('refused:', *(f'{count} {name[1]}' for name, count in sorted(
        (name, count) for name, count in tally.items() if name[0] == 'refused')))
    if told:
        print('the program tells', *sorted(kind[4:] for kind in told))
    print(f'{tally["wrong"]} differ without intention')
    sys.exit(1 if tally['wrong'] else 0)


if __name__ == '__main__':
    main()
