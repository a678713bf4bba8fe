#!/usr/bin/env python3
"""What an expression says of a frame: a model of its own, over frames that it takes apart itself.

    meaning.py FRAME [WIRE_LENGTH] < EXPRESSIONS     `true`, `false`, or why it is none

Two VLAN tags are seen past, and in IPv6 all extension headers and an atomic fragment header. What a
packet does not have is not found: the primitive is false, and `not` of it true.

RFC 791, 8200, 4302 and 6946 for IP, RFC 826 and 903 for ARP and RARP, IEEE 802.1Q for tags,
LINKTYPE_LINUX_SLL and LINKTYPE_LINUX_SLL2 of tcpdump.org for Linux cooked captures."""
import itertools
import os
import struct
import sys
from dataclasses import dataclass, field

import grammar

sys.path.append(os.path.join(os.path.dirname(os.path.abspath(__file__)), '../../crates/conformance'))
import covered

TAGS = 0x8100, 0x88a8, 0x9100
# hop-by-hop options, routing, fragment, authentication, destination options, mobility, host
# identity, shim6: the extension headers of IPv6 that have a length or are of a fixed one
EXTENSIONS = 0, 43, 44, 51, 60, 135, 139, 140
NUMBERS = {'tcp': 6, 'udp': 17, 'sctp': 132}
ARP_TYPES = {'arp': 0x806, 'rarp': 0x8035}
WIDTH = {4: 32, 6: 128}
LINK_HEADERS = {1: 14, 101: 0, 113: 16, 276: 20}
ETHER_TYPE_AT = {1: 12, 113: 14, 276: 0}
# where a Linux cooked capture has the ARPHRD type; those for which its protocol type is no
# EtherType: ARPHRD_NETLINK, ARPHRD_FRAD and ARPHRD_IEEE80211_RADIOTAP
ARPHRD_AT, NO_ETHER_TYPE = {113: 2, 276: 8}, (824, 770, 803)

# ---- frames


@dataclass
class Ip:
    """an IP packet, as far as its length field says, if it does, and its bytes are there"""
    version: int
    source: int
    destination: int
    # header, extension headers and payload
    whole: bytes
    # without extension headers
    header: bytes
    # the number of the payload, or of the extension header that is cut
    upper: int
    payload: bytes
    fragment: bool
    # the offset of the fragment, in units of 8 bytes
    offset: int
    later: bool
    # all that the length field says is there, and no extension header is cut
    complete: bool
    # extension headers of IPv6, by their numbers
    chain: list = field(default_factory=list)


@dataclass
class Frame:
    # all of it, if it is of Ethernet
    ethernet: bytes
    tags: list
    ether_type: int
    payload: bytes
    ip: Ip
    # a Linux cooked capture of a device whose protocol type is no EtherType
    other: bool = False


def number_at(data, at, size=2):
    return int.from_bytes(data[at:at + size], 'big')


def read_ipv4(data):
    if len(data) < 20 or data[0] // 16 != 4:
        return None
    header_length, total = data[0] % 16 * 4, number_at(data, 2)
    if header_length < 20 or len(data) < header_length or 0 < total < header_length:
        return None
    whole = data if total == 0 else data[:total]
    flags = number_at(data, 6)
    offset, more = flags % 2**13, flags // 2**13 % 2
    return Ip(4, number_at(data, 12, 4), number_at(data, 16, 4), whole, data[:header_length],
              data[9], whole[header_length:], bool(more or offset), offset, offset > 0,
              0 < total <= len(data))


def read_ipv6(data):
    if len(data) < 40 or data[0] // 16 != 6:
        return None
    # a jumbogram (RFC 2675) has its length in an option after the header
    told = 40 + number_at(data, 4) if data[4:7] != bytes(3) else 0
    whole = data if told == 0 else data[:told]
    number, rest = data[6], whole[40:]
    chain, fragment, offset, later, complete = [], False, 0, False, 0 < told <= len(data)
    while number in EXTENSIONS and not later:
        if number == 44:
            length = 8
        elif number == 51:
            length = 4 * (rest[1] + 2) if len(rest) > 1 else 2
        else:
            length = 8 * (rest[1] + 1) if len(rest) > 1 else 2
        if len(rest) < length:
            complete = False
            break
        if number == 44:
            place = number_at(rest, 2)
            # the first header that is not atomic decides
            if not fragment and (place // 8 > 0 or place % 2 == 1):
                fragment, offset = True, place // 8
            later = place // 8 > 0
        chain.append(number)
        number, rest = rest[0], rest[length:]
    return Ip(6, number_at(data, 8, 16), number_at(data, 24, 16), whole, data[:40], number, rest,
              fragment, offset, later, complete, chain)


def read_frame(data, link_type=1):
    """A frame by the number of its link type: Ethernet (1), an IP packet alone (101), a Linux
    cooked capture (113, 276). None if it is shorter than its link header."""
    if len(data) < LINK_HEADERS[link_type]:
        return None
    payload, tags, ip = data[LINK_HEADERS[link_type]:], [], None
    other = link_type in ARPHRD_AT and number_at(data, ARPHRD_AT[link_type]) in NO_ETHER_TYPE
    told = link_type in ETHER_TYPE_AT and not other
    ether_type = number_at(data, ETHER_TYPE_AT[link_type]) if told else None
    while ether_type in TAGS and len(tags) < 2 and len(payload) >= 4:
        tags.append(payload[:4])
        ether_type, payload = number_at(payload, 2), payload[4:]
    # the version is told by the packet itself
    if ether_type in (0x800, 0x86dd) or link_type == 101:
        ip = read_ipv4(payload) or read_ipv6(payload)
    return Frame(data if link_type == 1 else b'', tags, ether_type, payload, ip, other)


# ---- parts

def arp_addresses(frame, ether_type):
    """source and target of ARP or RARP for Ethernet and IPv4, each if it is there"""
    data = frame.payload
    if frame.ether_type != ether_type or data[:6] != bytes([0, 1, 8, 0, 6, 4]):
        return None, None
    return tuple((4, number_at(data, at, 4)) if len(data) >= at + 4 else None for at in (14, 24))


def addresses(frame, protocol):
    """who sends a packet and who is to get it, by the protocols that a qualifier allows"""
    ip = frame.ip
    if ip is not None:
        if protocol in (None, 'ip' if ip.version == 4 else 'ip6'):
            return (ip.version, ip.source), (ip.version, ip.destination)
        return None, None
    for name, ether_type in ARP_TYPES.items():
        if protocol in (None, name) and frame.ether_type == ether_type:
            return arp_addresses(frame, ether_type)
    return None, None


def of_ends(direction, source, destination, is_so):
    if direction == 'src':
        return is_so(source)
    if direction == 'dst':
        return is_so(destination)
    if direction == 'both':
        return is_so(source) and is_so(destination)
    return is_so(source) or is_so(destination)


def has_number(frame, version, number):
    ip = frame.ip
    return ip is not None and version in (None, ip.version) and ip.upper == number


def bytes_of_load(frame, protocol):
    """what a load counts from, or None where the packet has no such header"""
    ip = frame.ip
    if protocol == 'ether':
        return frame.ethernet or None
    if protocol in ARP_TYPES:
        return frame.payload if frame.ether_type == ARP_TYPES[protocol] else None
    if ip is None:
        return None
    if protocol in ('ip', 'ip6'):
        return ip.whole if ip.version == (4 if protocol == 'ip' else 6) else None
    if ip.later or not has_number(frame, *grammar.CARRIED[protocol]):
        return None
    return ip.payload


def compared(left, relation, right):
    return {'=': left == right, '!=': left != right, '<': left < right, '>': left > right,
            '<=': left <= right, '>=': left >= right}[relation]


def ones_complement_sum(data):
    """RFC 1071 section 1"""
    total = sum(high * 256 + low for high, low in itertools.zip_longest(
        data[::2], data[1::2], fillvalue=0))
    while total > 0xffff:
        total = total // 0x10000 + total % 0x10000
    return total


def ends_of(ip):
    """the original source and the final destination of a whole packet, each None if unknown"""
    if ip.version == 4:
        return ip.header[12:16], covered.past_source_route(ip.header[16:20], ip.header[20:])
    body, chain, place = ip.whole[40:], [], 0
    for number in ip.chain:
        chain.append((number, place))
        place += covered.extension_len(number, body[place:])
    return (covered.original_source(ip.header[8:24], chain, body),
            covered.final_destination(ip.header[24:40], chain, body))


def checksum_is_wrong(ip):
    """whether the final destination finds the checksum of the IPv4 header, or of UDP, TCP, ICMP or
    ICMPv6 wrong; of the latter a fragment, or a packet that is cut, has none, and that of a packet
    between ends that are not known is not judged"""
    if ip is None:
        return False
    if ip.version == 4 and ones_complement_sum(ip.header) != 0xffff:
        return True
    if ip.fragment or not ip.complete:
        return False
    icmp = 1 if ip.version == 4 else 58
    datagram, ends = ip.payload, ends_of(ip)
    if None in ends:
        return False
    if ip.upper == 17:
        length = number_at(datagram, 4)
        if not 8 <= length <= len(datagram):
            return False
        datagram = datagram[:length]
        if number_at(datagram, 6) == 0:
            return ip.version == 6
    elif ip.upper == 6:
        if len(datagram) < 20:
            return False
    elif ip.upper != icmp or len(datagram) < 4:
        return False
    if ip.version == 4 and ip.upper == 1:
        front = b''
    elif ip.version == 4:
        front = b''.join(ends) + struct.pack('>xBH', ip.upper, len(datagram))
    else:
        front = b''.join(ends) + struct.pack('>I3xB', len(datagram), ip.upper)
    return ones_complement_sum(front + datagram) != 0xffff


# ---- primitives. Each function takes the frame, its length on the wire, and the arguments.

def is_version(frame, wire, version):
    if frame.ip is None:
        return frame.ether_type == {4: 0x800, 6: 0x86dd}[version]
    return frame.ip.version == version


def is_net(frame, wire, protocol, direction, version, address, bits):
    shift = WIDTH[version] - bits

    def within(found):
        return found is not None and found[0] == version and found[1] >> shift == address >> shift
    return of_ends(direction, *addresses(frame, protocol), within)


def has_masked(frame, wire, protocol, direction, address, mask):
    """an IPv4 network by its address and the bits that count"""
    def within(found):
        return found is not None and found[0] == 4 and found[1] & mask == address & mask
    return of_ends(direction, *addresses(frame, protocol), within)


def has_port(frame, wire, transport, direction, low, high):
    ip = frame.ip
    if ip is None or ip.later or len(ip.payload) < 4:
        return False
    if ip.upper not in ([NUMBERS[transport]] if transport else NUMBERS.values()):
        return False
    return of_ends(direction, number_at(ip.payload, 0), number_at(ip.payload, 2),
                   lambda port: low <= port <= high)


def has_load(frame, wire, protocol, at, size, mask, relation, value):
    data = bytes_of_load(frame, protocol)
    if data is None or len(data) < at + size:
        return False
    found = number_at(data, at, size)
    return compared(found if mask is None else found & mask, relation, value)


PRIMITIVES = {
    'version': is_version,
    'ether-type': lambda frame, wire, number: frame.ether_type == number,
    'proto': lambda frame, wire, version, number: has_number(frame, version, number),
    'net': is_net,
    'masked': has_masked,
    'ports': has_port,
    'ether-host': lambda frame, wire, direction, address: bool(frame.ethernet) and of_ends(
        direction, number_at(frame.ethernet, 6, 6), number_at(frame.ethernet, 0, 6),
        lambda found: found == address),
    'broadcast': lambda frame, wire: frame.ethernet[:6] == bytes([0xff] * 6),
    'multicast': lambda frame, wire: bool(frame.ethernet) and frame.ethernet[0] % 2 == 1,
    'ip-multicast': lambda frame, wire: frame.ip is not None and frame.ip.version == 4
    and frame.ip.destination >> 28 == 0xe,
    'ip6-multicast': lambda frame, wire: frame.ip is not None and frame.ip.version == 6
    and frame.ip.destination >> 120 == 0xff,
    'fragment': lambda frame, wire: frame.ip is not None and frame.ip.fragment,
    'first-fragment': lambda frame, wire: frame.ip is not None and frame.ip.fragment
    and frame.ip.offset == 0,
    'checksum-wrong': lambda frame, wire: checksum_is_wrong(frame.ip),
    'less': lambda frame, wire, limit: wire <= limit,
    'greater': lambda frame, wire, limit: wire >= limit,
    'len': lambda frame, wire, mask, relation, value: compared(
        wire if mask is None else wire & mask, relation, value),
    'vlan': lambda frame, wire, identifier: any(
        identifier in (None, number_at(tag, 0) % 2**12) for tag in frame.tags),
    'load': has_load}


def matches(tree, frame, wire):
    kind = tree[0]
    if kind == 'not':
        return not matches(tree[1], frame, wire)
    if kind == 'and':
        return matches(tree[1], frame, wire) and matches(tree[2], frame, wire)
    if kind == 'or':
        return matches(tree[1], frame, wire) or matches(tree[2], frame, wire)
    return PRIMITIVES[kind](frame, wire, *tree[1:])


def refusal(kind, *rest):
    """why a text is refused, as the conformance program writes it"""
    return ' '.join(['err', kind.replace(' ', '_'), *(f'place={place}' for place in rest)])


def answer(read, data, wire, link_type=1):
    """`true` or `false`; else why the text, as grammar.py read it, or the frame is refused"""
    if read[0] != 'ok':
        return refusal(*read)
    frame = read_frame(data, link_type)
    if frame is None:
        return f'err link required={LINK_HEADERS[link_type]} len={len(data)}'
    return 'true' if matches(read[1], frame, wire) else 'false'


def main(arguments):
    if not 1 <= len(arguments) <= 2:
        sys.exit(__doc__)
    data = bytes.fromhex(arguments[0])
    wire = int(arguments[1]) if len(arguments) == 2 else len(data)
    for line in sys.stdin.buffer.read().split(b'\n')[:-1]:
        print(answer(grammar.read(line), data, wire))


if __name__ == '__main__':
    main(sys.argv[1:])
