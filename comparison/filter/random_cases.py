#!/usr/bin/env python3
"""random_cases.py [--seed S] [--count N] [--kind KIND] [--frames N]

Random cases of the operation `filter`, one a line: `filter 1 FRAME LENGTH TEXT`, the frame and the
text in hex. The same arguments give the same cases. KIND is

    plain    expressions, and frames without tags, extension headers, padding or missing bytes
    other    expressions, and frames with those
    bytes    texts of random bytes
    words    texts of words of the language in random order
    ways     texts that go on with any words that can follow, most of them with a wrong word at the
             end
    links    expressions, and IP packets alone or frames with the headers of Linux cooked captures
    covered  expressions, each first on a plain frame and then on the same with tags, extension
             headers and padding, where it has to say the same
    changed  expressions, and those of real.txt, with a word or a byte changed, and some that are
             too long
    values   numbers, addresses, ranges and the like in all their forms and nearly so, on frames
             that have them
    real     those of real.txt in turn, on frames with their addresses and ports
    masks    expressions that are mostly about networks with masks, and what is nearly one

`--frames` is how many frames an expression gets. The addresses, ports and flags come from small
pools, and half of what an expression names is taken from its first frame, so that about half of the
pairs match."""
import argparse
import ipaddress
import os
import random
import struct

import grammar
from meaning import ones_complement_sum

HARDWARE = ['00:11:22:33:44:55', '00:11:22:33:44:66', '0a:0b:0c:0d:0e:0f', 'ff:ff:ff:ff:ff:ff',
            '01:00:5e:00:00:fb', '33:33:00:00:00:01']
ADDRESSES4 = ['10.0.0.1', '10.0.0.2', '10.1.2.3', '192.168.1.1', '192.168.1.200', '172.16.0.5',
              '224.0.0.251', '239.1.2.3', '240.0.0.1', '255.255.255.255', '0.0.0.0', '0.1.2.3']
ADDRESSES6 = ['::1', '2001:db8::1', '2001:db8::2', '2001:db8:0:1::5', 'fe80::1', 'ff02::1',
              'ff02::fb', '::ffff:10.0.0.1', '::']
PORTS = [20, 21, 22, 25, 53, 67, 68, 80, 81, 90, 123, 443, 1024, 5353, 8080, 65535]
ETHER_TYPES = [0x6001, 0x6002, 0x6003, 0x6004, 0x6007, 0x809b, 0x8863, 0x888e, 0x88a2, 0x88cc,
               0x88d9, 0x9000]
# IP protocols that have no header of their own here; igrp, pim and vrrp twice
# ARPHRD types: ARPHRD_ETHER most of the time, ARPHRD_IPGRE, and those without an EtherType
DEVICES = [1] * 12 + [778, 824, 770, 803]
OTHER_NUMBERS = [4, 8, 9, 9, 41, 47, 88, 89, 103, 103, 112, 112, 115, 255]
ICMP_TYPES = [0, 3, 4, 5, 8, 9, 10, 11, 12, 13, 14]
ICMP6_TYPES = [1, 2, 3, 4, 128, 129, 130, 133, 134, 135, 136, 143]
FLAGS = [0x02, 0x12, 0x10, 0x18, 0x11, 0x04, 0x14, 0x01, 0xc2, 0x20, 0x00, 0x29]
EXTENSIONS = [0, 43, 44, 51, 60, 135, 139, 140]

# values and what is nearly one
SOME_WORDS = r"""80 443 0x50 0X50 0X1bb 0xa.0 10.0x0 65535 65536 4294967295 4294967296 080 0 00 0x
    255 256 4095 4096 1500 1501 0x5dc 80-90 90-80 80- -80 10.0.0.1 10.0.0.256 10.0.0 10 10/8 10/33
    10/0x8 10/08 0xa 10.0.0.0/8 10.0.0.1/8 10.0.0.0/33 10.0.0.0/0x20 /8 10.0.0.0/ 10/tcp-push
    icmp-echo/8 255.0.0.0 255.0.255.0 :: ::1 fe80::1 fe80::/10 ::/129 ::/0x80 ::1:: 1:2:3:4:5:6
    0:0:0:0:0:0:0:1 a:b:c:d:e:f 00:11:22:33:44:55 00:11:22:33:44:5 00-11-22-33-44-55
    0011.2233.4455 001122334455 0:1:2:3:4:g 12:2 12:3 0:1 0:01 0x0c:2 0:0x2 13 tcpflags tcpflags:1
    tcpflags:2 tcpflags:3 icmptype icmp6code:4 tcp-syn tcp-syn:2 tcp-fin-tcp-syn icmp-echo
    icmp6-echo icmp6-multicastrouterterm http domain ftp-data login http:2 \tcp \ip gre \gre eigrp
    ipv6-icmp loopback \loopback \isis""".split()
FIXED, UNSUPPORTED = sorted(grammar.FIXED), sorted(grammar.UNSUPPORTED)
# words of each kind of value
VALUES_OF = {f'<{kind}>': [
    word for word in [*SOME_WORDS, *grammar.PORT_NAMES, *grammar.IP_NUMBERS, *grammar.ETHER_TYPES,
                      *grammar.NUMBER_NAMES, *HARDWARE, *ADDRESSES4, *ADDRESSES6]
    if read(word) is not None] for kind, read in grammar.VALUES.items()}


class Cases:
    def __init__(self, seed):
        self.dice = random.Random(seed)
        self.pick = self.dice.choice
        self.facts = {}
        self.hardware, self.ports = HARDWARE, PORTS
        self.addresses4, self.addresses6 = ADDRESSES4, ADDRESSES6
        # how many networks of IPv4 have a mask
        self.masks = 0
        here = os.path.dirname(os.path.abspath(__file__))
        with open(os.path.join(here, 'real.txt'), encoding='ascii') as file:
            self.real = [line.split('\t')[1] for line in file.read().splitlines()]

    def chance(self, part):
        return self.dice.random() < part

    def some_bytes(self, length):
        return self.dice.randbytes(length)

    # ---- frames

    def checksum(self, front, data, at):
        """data with its checksum at a place, wrong once in eight"""
        data = data[:at] + b'\0\0' + data[at + 2:]
        right = 0xffff - ones_complement_sum(front + data)
        if self.chance(0.125):
            right ^= 1 << self.dice.randrange(16)
        return data[:at] + struct.pack('>H', right) + data[at + 2:]

    def transport(self, version, pseudo):
        """(number, bytes) of what IP carries; `pseudo` makes a pseudo-header"""
        known = ['tcp', 'tcp', 'tcp', 'udp', 'udp', 'udp', 'icmp', 'sctp', 'igmp', 'esp', 'other']
        name = self.pick(known if version == 4 else [*known, 'icmp', 'icmp'])
        body = self.some_bytes(self.pick([0, 1, 8, 12, 20, 33, 60]))
        source, destination = self.pick(self.ports), self.pick(self.ports)
        if name in ('tcp', 'udp', 'sctp'):
            self.facts['ports'] = [source, destination]
        if name == 'tcp':
            flags, options = self.pick(FLAGS), b'\1' * 4 * self.pick([0, 0, 0, 1, 5])
            data = struct.pack('>HHIIBBHHH', source, destination, self.dice.getrandbits(32),
                               self.dice.getrandbits(32), (5 + len(options) // 4) << 4, flags, 1024,
                               0, 0) + options + body
            self.facts['loads'] = [('tcp', 'tcpflags', flags), ('tcp', '0:2', source)]
            return 6, self.checksum(pseudo(6, len(data)), data, 16)
        if name == 'udp':
            body = body or b'\0' * 4
            data = struct.pack('>HHHH', source, destination, 8 + len(body), 0) + body
            self.facts['loads'] = [('udp', '2:2', destination), ('udp', '4:2', 8 + len(body))]
            if version == 4 and self.chance(0.1):
                return 17, data
            return 17, self.checksum(pseudo(17, len(data)), data, 6)
        if name == 'sctp':
            self.facts['loads'] = [('sctp', '2:2', destination)]
            return 132, struct.pack('>HHII', source, destination, 1, 0) + body
        if name == 'icmp' and version == 4:
            kind = self.pick(ICMP_TYPES)
            data = struct.pack('>BBHI', kind, self.pick([0, 0, 1, 3]), 0, 7) + body
            self.facts['loads'] = [('icmp', 'icmptype', kind), ('icmp', '0', kind)]
            return 1, self.checksum(b'', data, 2)
        if name == 'icmp':
            kind = self.pick(ICMP6_TYPES)
            data = struct.pack('>BBHI', kind, self.pick([0, 0, 1, 4]), 0, 7) + body
            self.facts['loads'] = [('icmp6', 'icmp6type', kind), ('ip6', '40', kind)]
            return 58, self.checksum(pseudo(58, len(data)), data, 2)
        if name == 'igmp':
            kind = self.pick([0x11, 0x16, 0x17, 0x22])
            self.facts['loads'] = [('igmp', '0', kind)]
            return 2, struct.pack('>BBHI', kind, 0, 0, 0xe00000fb) + body
        if name == 'esp':
            number = 50 if version == 6 or self.chance(0.5) else 51
            self.facts['loads'] = [({50: 'esp', 51: 'ah'}[number], '0:4', 256)] * 2
            return number, b'\0\0\1\0' * 4 + body
        # the first bytes look like ports, which they are not
        number = self.pick(OTHER_NUMBERS)
        self.facts['loads'] = [(word, '0:2', source) for word, (_, carried) in
                               grammar.CARRIED.items() if carried == number] * 2
        return number, struct.pack('>HH', source, destination) + body

    def ipv4(self, plain):
        source, destination = self.pick(self.addresses4), self.pick(self.addresses4)
        self.facts.update(addresses=[source, destination], version=4)
        packed = b''.join(bytes(map(int, one.split('.'))) for one in (source, destination))
        number, data = self.transport(4, lambda number, length: packed + struct.pack(
            '>xBH', number, length))
        place = 0x4000 if self.chance(0.4) else 0
        if self.chance(0.2):
            # a fragment: the first, one in the middle, or the last
            place = self.pick([0x2000, 0x2000, 0x2001, 0x20b9, 0x0001, 0x00b9, 0x1fff])
            if place & 0x2000:
                data = data[:max(8, len(data) // 8 * 8)]
            if place & 0x1fff and self.chance(0.5):
                data = self.some_bytes(len(data))
        options = b'\1' * 4 * self.pick([0, 0, 0, 0, 0, 1, 3, 10])
        total = 20 + len(options) + len(data)
        if not plain and self.chance(0.04):
            total = self.pick([0, 19, 20, total - 4])
        time_to_live = self.pick([1, 4, 64, 128, 255])
        header = struct.pack('>BBHHHBBH', 0x45 + len(options) // 4, self.pick([0, 0, 0x10, 0xb8]),
                             total, self.dice.getrandbits(16), place, time_to_live, number, 0)
        header = self.checksum(b'', header + packed + options, 10)
        self.facts.setdefault('loads', []).extend([
            ('ip', '2:2', total), ('ip', '6:2', place), ('ip', '8', time_to_live),
            ('ip', '9', number), ('ip', '16', int(destination.split('.')[0]))])
        self.facts['number'] = number
        return header + data

    def ipv6(self, plain):
        source, destination = self.pick(self.addresses6), self.pick(self.addresses6)
        self.facts.update(addresses=[source, destination], version=6)
        packed = b''.join(grammar.ipv6(one)[1].to_bytes(16, 'big') for one in (source, destination))
        number, data = self.transport(6, lambda number, length: packed + struct.pack(
            '>I3xB', length, number))
        self.facts['number'] = number
        for _ in range(0 if plain else self.pick([0, 1, 1, 1, 2, 3])):
            number, data = self.extension(number, data)
        length = len(data)
        if not plain and self.chance(0.03):
            length = 0
        self.facts.setdefault('loads', []).extend([('ip6', '6', number), ('ip6', '4:2', length)])
        return struct.pack('>IHBB', 0x60000000, length, number, 64) + packed + data

    def extension(self, number, data, is_first=False):
        """an extension header before what IP carries, if it is so in the first fragment"""
        kind = self.pick([0, 0, 44, 44, 44, 60, 60, 43, 51, 135, 139, 140])
        if kind == 44:
            place = self.pick([0, 0, 1, 1] if is_first else [0, 0, 1, 1, 0xb8, 0x5c8, 0x5c9])
            return 44, struct.pack('>BxHI', number, place, 5) + data
        units = self.pick([0, 0, 1, 2])
        if kind == 51:
            return 51, bytes([number, units + 1]) + self.some_bytes(10 + 4 * units) + data
        return kind, bytes([number, units]) + self.some_bytes(6 + 8 * units) + data

    def arp(self, plain):
        """ARP or RARP, if plain for Ethernet and IPv4"""
        source, destination = self.pick(self.addresses4), self.pick(self.addresses4)
        self.facts.update(addresses=[source, destination], version=4)
        parts = [bytes(map(int, one.split('.'))) for one in (source, destination)]
        kind = (1, 0x800, 6, 4) if plain or self.chance(0.6) else self.pick([
            (6, 0x800, 6, 4), (1, 0x806, 6, 4), (1, 0x800, 4, 4), (1, 0x800, 6, 16)])
        operation = self.pick([1, 2])
        self.facts['loads'] = [
            (word, place, value) for word in ('arp', 'arp', 'rarp') for place, value in (
                ('6:2', operation), ('7', operation), ('0:2', kind[0]), ('5', kind[3]),
                ('14:4', int.from_bytes(parts[0], 'big')))]
        return (struct.pack('>HHBBH', *kind, operation) + self.some_bytes(6) + parts[0]
                + self.some_bytes(6) + parts[1])

    def frame(self, plain=True):
        """(bytes, length on the wire), and `facts` of what is in it"""
        self.facts = {}
        to, by = self.pick(self.hardware), self.pick(self.hardware)
        self.facts['hardware'] = [by, to]
        kind = self.dice.random()
        if kind < 0.5:
            ether_type, data = 0x800, self.ipv4(plain)
        elif kind < 0.85:
            ether_type, data = 0x86dd, self.ipv6(plain)
        elif kind < 0.95:
            ether_type, data = self.pick([0x806, 0x806, 0x8035]), self.arp(plain)
        else:
            ether_type, data = self.pick(ETHER_TYPES), self.some_bytes(50)
            if self.chance(0.2):
                # a length in its place, and an LLC header (IEEE 802.3 section 3.2.6)
                ether_type, data = 50, b'\x42\x42\3' + self.some_bytes(47)
                if self.chance(0.5):
                    # SNAP, also of AppleTalk
                    name = self.pick([b'\0\0\0\x80\xf3', b'\0\0\0\x08\0', b'\x08\0\x07\x80\x9b'])
                    data = b'\xaa\xaa\3' + name + data[8:]
        self.facts['ether type'] = (struct.unpack('>H', data[6:8])[0] if data[:2] == b'\xaa\xaa'
                                    else ether_type)
        self.facts['words'] = [word for word, tree in grammar.ALONE.items() if tree in (
            ('version', self.facts.get('version')), ('ether-type', ether_type),
            ('proto', None, self.facts.get('number')),
            ('proto', self.facts.get('version'), self.facts.get('number')))]
        self.facts.setdefault('loads', []).extend([
            ('ether', '0', int(to.split(':')[0], 16)), ('ether', '12:2', ether_type)])
        front = b''.join(grammar.hardware_address(one).to_bytes(6, 'big') for one in (to, by))
        tags = []
        if not plain:
            for _ in range(self.pick([0, 0, 1, 1, 2, 3])):
                identifier = self.pick([0, 5, 6, 100, 4095])
                tags.append((self.pick([0x8100, 0x8100, 0x88a8, 0x9100]),
                             self.pick([0, 0xa000]) + identifier))
            if tags:
                self.facts['vlan'] = self.pick(tags)[1] % 4096
        for number, control in reversed(tags):
            data, ether_type = struct.pack('>HH', control, ether_type) + data, number
        whole = front + struct.pack('>H', ether_type) + data
        if not plain and self.chance(0.4):
            whole += self.pick([bytes(1), bytes(8), bytes(max(0, 60 - len(whole))),
                                self.some_bytes(6)])
        if not plain and self.chance(0.2):
            # another byte in the headers
            at = self.dice.randrange(14, max(15, min(len(whole), 80)))
            whole = whole[:at] + self.pick([self.some_bytes(1), b'\0', b'\xff']) + whole[at + 1:]
        # a frame check sequence, or padding, that was not captured
        wire = len(whole) + (self.pick([4, 46, 1000]) if self.chance(0.1) else 0)
        self.facts['length'] = wire
        if not plain and self.chance(0.3):
            whole = whole[:max(14, self.pick([14, 16, 18, 33, 34, 36, 37, 38, 42, 53, 54, 58, 62,
                                              68, wire - 1, wire // 2]))]
        return whole, wire

    def covered(self, plain):
        """a plain frame with tags, with extension headers before what IPv6 carries, and padding"""
        front, ether_type, data = plain[:12], plain[12:14], plain[14:]
        tags = b''
        for _ in range(self.pick([0, 1, 1, 2])):
            tags += struct.pack('>HH', self.pick([0x8100, 0x88a8, 0x9100]), self.pick([5, 0xa006]))
        if ether_type == b'\x86\xdd':
            number, rest = data[6], data[40:]
            for _ in range(self.pick([0, 1, 2, 3])):
                number, rest = self.extension(number, rest, is_first=True)
            data = data[:4] + struct.pack('>HB', len(rest), number) + data[7:40] + rest
        return front + tags + ether_type + data + self.pick([b'', b'', b'', bytes(20)])

    def relinked(self, frame, link_type, device=1):
        """what an Ethernet frame has, alone (101) or after a header of Linux (113, 276) with the
        ARPHRD type of a device"""
        kind = struct.pack('>H', device)
        front = {101: b'', 113: b'\0\0' + kind + b'\0\6' + frame[6:12] + b'\0\0' + frame[12:14],
                 276: frame[12:14] + b'\0\0\0\0\0\2' + kind + b'\0\6' + frame[6:12] + b'\0\0'}
        return front[link_type] + frame[14:]

    def aim(self, text):
        """most of the time, lets frames have the values of a text"""
        words = [] if self.chance(0.3) else [
            word.partition('/')[0] for _, word in grammar.words_of(text)]
        for pool, usual, kind in (('addresses4', ADDRESSES4, grammar.ipv4),
                                  ('addresses6', ADDRESSES6, grammar.ipv6),
                                  ('hardware', HARDWARE, grammar.hardware_address)):
            found = [word for word in words if kind(word)]
            setattr(self, pool, found * 3 + usual[:2] if found else usual)
        found = [grammar.port(word) for word in words if grammar.port(word)]
        self.ports = found * 3 + PORTS[:2] if found else PORTS

    # ---- expressions

    def fact(self, name, pool):
        """half of the time what the frame has, else anything"""
        found = self.facts.get(name)
        if found is not None and self.chance(0.7):
            return self.pick(found) if isinstance(found, list) else found
        return self.pick(pool)

    def address(self):
        return self.fact('addresses', self.addresses4 + self.addresses6)

    def direction(self, optional=True):
        if optional and self.chance(0.6):
            return []
        return self.pick([['src'], ['src'], ['dst'], ['dst'],
                          ['src', self.pick(['or', 'or', 'or', '||']), 'dst'],
                          ['src', self.pick(['and', 'and', 'and', '&&']), 'dst']])

    def protocol_of(self, address):
        """a qualifier that an address can have"""
        if self.chance(0.85):
            return []
        return ['ip6'] if ':' in address else [self.pick(['ip', 'ip', 'arp', 'rarp'])]

    def other_address(self, protocol):
        """an address that the qualifier of another can have"""
        if not protocol:
            return self.address()
        return self.pick(self.addresses6 if protocol == ['ip6'] else self.addresses4)

    def values(self, value, depth=0):
        """what stands after a head: a value, or now and then a group of values"""
        kind = self.dice.random()
        if kind < 0.85 or depth > 2:
            return [value()]
        if kind < 0.9:
            return [self.pick(['not', 'not', '!']), *self.values(value, depth + 1)]
        return ['(', *self.group(value, depth + 1), ')']

    def group(self, value, depth=1):
        """values joined by one operator"""
        operator = self.pick(['or', 'or', 'or', '||', 'and', '&&'])
        words = self.values(value, depth)
        for _ in range(self.pick([0, 1, 1, 1, 2, 2, 3])):
            words += [operator, *self.values(value, depth)]
        return words

    def headed(self, front, value):
        """a primitive with a value, and what makes another value for its head"""
        return [*front, *self.values(value)], value

    def named(self, number, chance=0.1):
        """a number by its digits, or by a name that has nothing to do with what it stands for"""
        names = [name for name, found in grammar.NUMBER_NAMES.items() if found == number]
        if names and self.chance(chance):
            return self.pick(names)
        return hex(number) if self.chance(0.1) else str(number)

    def host(self):
        protocol = self.protocol_of(self.address())
        if self.chance(0.25):
            front = [*protocol, *self.direction(optional=False)]
        else:
            front = [*protocol, *self.direction(), 'host']
        return self.headed(front, lambda: self.other_address(protocol))

    def octets_of(self, number):
        """an IPv4 address, now and then without its last octets if they are 0"""
        parts = list(number.to_bytes(4, 'big'))
        while len(parts) > 2 and parts[-1] == 0 and self.chance(0.3):
            parts.pop()
        return '.'.join(map(str, parts))

    def masked_word(self, address):
        """an IPv4 net with a mask of any bits, now and then one that lacks bits of the address"""
        mask = self.pick([0xff000000, 0xffff0000, 0xffffff00, 0xffffffff, 0xfff00000, 0xff00ff00,
                          0xff0000ff, 0x000000ff, 0x0f0f0f0f, 0xaaaaaaaa, 1, 0x80000000, 0,
                          self.dice.getrandbits(32)])
        number = grammar.ipv4(address)[1]
        if not self.chance(0.05):
            number &= mask
        return f'{self.octets_of(number)} mask {self.octets_of(mask)}'

    def net_word(self, address):
        """a net with an address, now and then with bits after its prefix, which libpcap refuses"""
        if self.masks and ':' not in address and self.chance(self.masks):
            return self.masked_word(address)
        version, number = grammar.address(address)
        width = 32 if version == 4 else 128
        bits = self.pick([0, 4, 8, 12, 16, 24, 25, 32] if version == 4 else
                         [0, 3, 8, 10, 32, 64, 128])
        if not self.chance(0.05):
            number = number >> (width - bits) << (width - bits)
        kind = ipaddress.IPv4Address if version == 4 else ipaddress.IPv6Address
        length = hex(bits) if self.chance(0.02) else bits
        if version == 6:
            return f'{kind(number)}/{length}' if self.chance(0.95) else address
        parts = address.split('.')
        form = self.dice.random()
        if form < 0.5:
            return f'{kind(number)}/{length}'
        if form < 0.6:
            return address
        count = self.pick([1, 2, 3])
        front = '.'.join(parts[:count])
        if form < 0.9:
            return front if count > 1 else self.named(int(parts[0]))
        return f'{front}/{8 * count}'

    def net(self):
        protocol = self.protocol_of(self.address())
        return self.headed([*protocol, *self.direction(), 'net'],
                           lambda: self.net_word(self.other_address(protocol)))

    def port_word(self):
        number = self.fact('ports', self.ports)
        named = [name for name, found in grammar.PORT_NAMES.items() if found == number]
        if named and self.chance(0.15):
            return self.pick(named)
        return self.named(self.pick([1, 2, 4, 13]) if self.chance(0.02) else number, 0.5)

    def port(self):
        front = [*self.pick([[], [], ['tcp'], ['tcp'], ['udp'], ['sctp']]), *self.direction()]
        if self.chance(0.1):
            return self.headed([*front, 'portrange'], self.range_word)
        return self.headed([*front, 'port'], self.port_word)

    def range_word(self):
        low = self.fact('ports', self.ports)
        return f'{low}-{self.pick([low, low, min(65535, low + 1000), 65535])}'

    def word(self):
        if self.chance(0.5) and self.facts.get('words'):
            return [self.pick(self.facts['words'])], None
        if self.chance(0.7):
            return [self.pick(['tcp', 'udp', 'ip', 'icmp', 'arp', 'ip6', 'icmp6'])], None
        return [self.pick(['rarp', *grammar.CARRIED, 'decnet', 'lat', 'moprc', 'mopdl',
                           'sca'])], None

    def ip_number(self):
        return self.pick([*grammar.IP_NUMBERS, self.named(
            self.fact('number', [1, 6, 17, 47, 58, 89]))])

    def proto(self):
        return self.headed([*self.pick([[], ['ip'], ['ip6']]), 'proto'], self.ip_number)

    def ether_type(self):
        if self.chance(0.3):
            return self.pick([*grammar.ETHER_TYPES])
        number = self.fact('ether type', [0x800, 0x806, 0x86dd, 0x888e, 0x88cc, 0x809b, 0x80f3])
        # up to 1500 it is a length
        number = number if number > 1500 else 1501
        return hex(number) if self.chance(0.8) else str(number)

    def ether_proto(self):
        return self.headed(['ether', 'proto'], self.ether_type)

    def ether_host(self):
        front = self.direction()
        if not front or self.chance(0.3):
            front = [*front, 'host']
        return self.headed(['ether', *front], lambda: self.fact('hardware', self.hardware))

    def cast(self):
        return self.pick([['broadcast'], ['ether', 'broadcast'], ['multicast'],
                          ['ether', 'multicast'], ['ip', 'multicast'], ['ip6', 'multicast']]), None

    def list_of(self, words):
        """numbers that stand for their bitwise or"""
        if len(words) == 1 and self.chance(0.9):
            return words
        return ['(', *' | '.join(words).split(), ')']

    def masked(self, term, mask):
        """a term with its mask, if it has one, now and then in parentheses"""
        for words in [], ['&', *mask] if mask else []:
            term = [*term, *words]
            while self.chance(0.08):
                term = ['(', *term, ')']
        return term

    def relation(self):
        return self.pick(['=', '=', '==', '!=', '!=', '<', '>', '<=', '>='])

    def length(self):
        number = self.pick([60, 64, 100, 128, 0, 8, 137, self.facts.get('length', 74)])
        if self.chance(0.4):
            return [self.pick(['less', 'greater']), self.named(number)], None
        mask = []
        if self.chance(0.3):
            bits = self.dice.sample([1, 2, 4, 8, 32, 64, 128, 0xfffe], self.pick([1, 1, 2, 3]))
            mask = self.list_of([self.named(bit) for bit in bits])
            number = self.pick([0, bits[0], number & sum(bits)])
        return [*self.masked(['len'], mask), self.relation(),
                *self.list_of([self.named(number)])], None

    def vlan(self):
        return ['vlan', *([self.named(self.fact('vlan', [0, 5, 6, 100, 4095]))]
                          if self.chance(0.6) else [])], None

    def fragment(self):
        return self.pick([['fragment'], ['first', 'fragment']]), None

    def checksum_wrong(self):
        return ['checksum', 'wrong'], None

    def load(self):
        protocol, place, found = self.pick([
            *self.facts.get('loads', []) * 3, ('tcp', 'tcpflags', 2), ('tcp', 'tcpflags:1', 16),
            ('tcp', '13', 18), ('icmp', 'icmptype', 8), ('icmp6', 'icmp6type', 128),
            ('icmp', 'icmpcode', 1), ('icmp6', 'icmp6code', 0), ('icmp6', 'icmp6type:2', 0x8000),
            ('ip', '6:2', 0), ('ip', '0', 0x45), ('ip', '12:4', 0x0a000001), ('ip6', '6', 6),
            ('ip6', '40', 128), ('arp', '6:2', 1), ('rarp', '6:2', 2), ('arp', '26:2', 0),
            ('arp', '27:2', 0), ('esp', '2', 1), ('ah', '2', 1), ('pim', '0', 0), ('vrrp', '0', 0),
            ('carp', '1', 80), ('igrp', '1', 80), ('esp', '0x0c:4', 256),
            ('udp', '2:2', 53), ('udp', '10', 0), ('ether', '0', 255), ('sctp', '0:2', 80),
            ('igmp', '0', 0x16), ('ip', '20', 8), ('tcp', '0:4', 0x00500050), ('ip', '120', 0),
            ('tcp', '20:4', 0), ('ether', '60:2', 0), ('icmp', '8:4', 0), ('sctp', '12', 0)])
        front, colon, size = place.partition(':')
        if front.isdigit():
            number = int(front)
            place = (self.pick([str, hex])(number) + colon + size if colon else
                     self.named(number, 0.05))
        most = 2**(8 * int(size or '1')) - 1
        mask = []
        if self.chance(0.5):
            if front in ('tcpflags', '13') and self.chance(0.9):
                names = self.dice.sample([name for name in grammar.NUMBER_NAMES
                                          if name.startswith('tcp-')], self.pick([1, 1, 2, 3]))
            else:
                names = [self.named(bits & most) for bits in self.dice.sample(
                    [1, 2, 0xf, 0xf0, 0x1fff, 0x3fff, most], self.pick([1, 1, 1, 2]))]
            mask = self.list_of(names)
            bits = 0
            for name in names:
                bits |= grammar.number(name)
            found = self.pick([0, bits, bits, found & bits])
            if bits == found and len(names) > 1 and self.chance(0.8):
                return [*self.masked([protocol, '[', place, ']'], mask), self.relation(),
                        *mask], None
        value = str(found) if self.chance(0.7) else hex(found)
        if not mask and front in ('icmptype', 'icmp6type'):
            named = [name for name, number in grammar.NUMBER_NAMES.items()
                     if number == found and name.startswith('icmp6-' if '6' in front else 'icmp-')]
            value = self.pick([value, *named])
        return [*self.masked([protocol, '[', place, ']'], mask), self.relation(),
                *self.list_of([value])], None

    def primitive(self):
        makers = [self.word] * 45 + [self.port] * 35 + [self.host] * 27 + [self.load] * 20 + [
            self.ether_host] * 6 + [self.net] * 7 + [self.ether_proto] * 4 + [self.vlan] * 4 + [
            self.proto] * 4 + [self.length] * 3 + [self.cast] * 3 + [self.fragment] * 2 + [
            self.checksum_wrong]
        if self.masks:
            makers = [self.net] * 16 + [self.host] * 2 + [self.word, self.port]
        return self.pick(makers)()

    def negated(self, words):
        return [self.pick(['not', 'not', '!']), *words] if self.chance(0.1) else words

    def operand(self, count, value):
        """The words of what stands between operators, at most `count` primitives; how many; and
        what makes a value alone after them. `value` makes one here, None if it is an address."""
        alone = value or self.address
        if self.chance(0.2 if value else 0.02):
            return self.negated([alone()]), 1, value
        if value and self.chance(0.05):
            return self.negated(['(', *self.group(alone), ')']), 1, value
        if count > 1 and self.chance(0.3):
            inner = self.dice.randint(1, count)
            return self.negated(['(', *self.level(inner, value), ')']), inner, value
        words, value = self.primitive()
        return self.negated(words), 1, value

    def level(self, count, value=None):
        """the words of an expression of some primitives, joined by one operator"""
        operator = ['or', 'or', '||'] if self.chance(0.6) else ['and', 'and', '&&']
        words = []
        while count > 0:
            if words:
                words.append(self.pick(operator))
            operand, done, value = self.operand(count, value)
            words += operand
            count -= done
        return words

    def expression(self):
        """a text of the language"""
        count = self.pick([1, 1, 1, 2, 2, 2, 3, 3, 4, 5, 8])
        while True:
            # a value can be several words
            words = ' '.join(self.level(count)).split(' ')
            if len(words) <= grammar.MAX_WORDS:
                return self.spaced(words)

    def spaced(self, words):
        marks = set('()[]&|=<>!') | {'&&', '||', '==', '!=', '<=', '>='}
        tight = self.chance(0.5)
        text = ''
        for left, right in zip(['', *words], words):
            # libpcap takes what follows an escaped word for a part of it
            both = left in marks, right in marks
            apart = left and (not tight or left.startswith('\\') or both == (False, False)
                              or left + right in marks
                              or all(both) and left not in '()[]!' and right not in '()[]!')
            if apart:
                text += ' ' if self.chance(0.98) else self.pick(['  ', '\t', '\n', ' \r\n '])
            text += right
        return text.encode('latin-1')

    # ---- texts that need not be expressions

    def text(self, kind):
        if kind == 'bytes':
            pool = self.pick([range(256), range(32, 127), b'ipno and(or)!&|=<>[]0123456789 :./-\\'])
            return bytes(self.dice.choices(pool, k=self.pick([0, 1, 2, 5, 20, 80])))
        if kind == 'ways':
            return self.ways()
        if kind == 'words':
            count = self.pick([1, 2, 3, 4, 5, 8, 12])
            return self.spaced([self.some_word() for _ in range(count)])
        if self.chance(0.02):
            one = self.pick([['ip'], ['(', 'ip', ')'], ['not', 'ip'], ['port', '80'], ['80', '80'],
                             ['(', 'len', ')', '=', '5'], ['port', '(', '80', 'or', '81', ')']])
            words = one.copy()
            while len(words) < grammar.MAX_WORDS + self.pick([-1, 0, 1, 2]):
                words += ['or', *one]
            return self.spaced(words)
        source = self.expression() if self.chance(0.7) else self.pick(self.real).encode('ascii')
        if self.chance(0.15):
            at = self.dice.randrange(len(source))
            # a byte more, another one, or one less
            usual = b'0', b'1', b'x', b':', b'.', b'/', b'-', b'\\', b'\v', b'\f', b'('
            more = self.pick([b'', self.some_bytes(1), self.pick(usual)])
            return source[:at] + more + source[at + self.pick([0, 1]):]
        words = [word for _, word in grammar.words_of(source)]
        at = self.dice.randrange(len(words))
        change = self.dice.random()
        operators = [at for at, word in enumerate(words) if word in grammar.OTHER_OPERATOR]
        if change < 0.1 and operators:
            at = self.pick(operators)
            words[at] = grammar.OTHER_OPERATOR[words[at]]
        elif change < 0.4:
            words[at] = self.some_word()
        elif change < 0.6:
            words.insert(at, self.some_word())
        elif change < 0.8:
            del words[at]
        elif change < 0.9:
            words = words[:at]
        else:
            other = self.dice.randrange(len(words))
            words[at], words[other] = words[other], words[at]
        return self.spaced(words)

    def ways(self):
        """words that can follow each other, most of the time ended by one that cannot"""
        ways, words = [(grammar.NETWORK.start, None, None)], []
        length = self.pick([1, 2, 3, 5, 8, 12, 16, 24, 40])
        while len(words) < length:
            choices = {word for state, _, _ in ways for word in grammar.NETWORK.next_words[state]}
            if any(grammar.NETWORK.next_calls[state] for state, _, _ in ways):
                choices.add('(')
            # also where no parenthesis is open
            if any(grammar.NETWORK.at_end[state] for state, _, _ in ways):
                choices.add(')')
            word = self.pick(sorted(choices))
            if word in VALUES_OF:
                word = self.pick(VALUES_OF[word])
            after = grammar.step(grammar.NETWORK, ways, word)
            if after:
                ways = after
                words.append(word)
        if self.chance(0.7):
            words.append(self.some_word())
            words += [self.some_word() for _ in range(self.pick([0, 0, 1]))]
        return self.spaced(words)

    # ---- values

    def odd_number(self, most=33):
        """a number beside a power of two, in a form that numbers have, or nearly"""
        number = max(0, (1 << self.dice.randrange(most)) + self.pick([-1, 0, 0, 1, 5]))
        if self.chance(0.4):
            number = self.dice.randrange(number + 1)
        return self.pick([str, str, str, hex, lambda n: f'0X{n:X}', lambda n: f'0x{n:08x}',
                          lambda n: f'0x{n:012x}', lambda n: f'0{n}', lambda n: f'{n:x}',
                          lambda n: f'{n}.0', lambda n: f'-{n}', lambda n: f'{n}:'])(number)

    def odd_address4(self):
        parts = [self.pick(['0', '1', '10', '99', '127', '255', '256', '01', '00', '', '0x1',
                            str(self.dice.randrange(256)), str(self.dice.randrange(300))])
                 if self.chance(0.3) else str(self.dice.randrange(256))
                 for _ in range(self.pick([4, 4, 4, 4, 3, 2, 1, 5]))]
        return '.'.join(parts)

    def odd_address6(self):
        groups = [f'{self.dice.getrandbits(self.pick([1, 4, 8, 12, 16, 16])):x}'
                  for _ in range(self.pick([8, 8, 7, 6, 5, 4, 3, 2, 1, 0, 9]))]
        groups = [self.pick([group, group, group.upper(), group.zfill(4)]) for group in groups]
        if self.chance(0.05) and groups:
            groups[0] = self.pick(['00000', '', 'g', '12345', '+1', '0x1'])
        if self.chance(0.2):
            groups = groups[:-2] + [self.pick([self.odd_address4(), '10.0.0.1'])]
        at = self.dice.randrange(len(groups) + 1)
        if self.chance(0.75) and len(groups) < 8 or self.chance(0.1):
            return ':'.join(groups[:at]) + '::' + ':'.join(groups[at:])
        return ':'.join(groups)

    def odd_value(self, kind):
        if kind == 'net':
            address = self.pick([self.odd_address4, self.odd_address6])()
            return address + self.pick(['', f'/{self.dice.randrange(34)}', '/128', '/129', '/0',
                                        f'/{self.odd_number(8)}', '/', '/08'])
        if kind == 'host':
            return self.pick([self.odd_address4, self.odd_address6])()
        if kind == 'range':
            low, high = sorted(self.dice.randrange(66000) for _ in range(2))
            if self.chance(0.5):
                return self.pick([f'{low}-{high}', f'{low}-{high}', f'{high}-{low}',
                                  f'{low}-{low}', f'{low:#x}-{high}', f'{low}--{high}'])
            return f'{self.odd_number(17)}-{self.odd_number(17)}'
        if kind == 'hardware':
            parts = [self.pick([f'{byte:02x}', f'{byte:02x}', f'{byte:02x}', f'{byte:02X}'])
                     for byte in self.some_bytes(self.pick([6, 6, 6, 6, 6, 5, 7]))]
            if self.chance(0.1):
                parts[0] = self.pick(['1', '', '123', '0g', '+1', '0x'])
            return self.pick([':', ':', ':', ':', ':', '-', '.', '']).join(parts)
        if kind == 'place':
            return self.odd_number(8) + self.pick(['', '', ':1', ':2', ':4', ':3', ':0', ':', ':8',
                                                   ':01', ':0x1'])
        return self.odd_number()

    def valued(self):
        """a primitive with a value, which fits its head most of the time"""
        kind, head = self.pick([
            ('net', 'net'), ('net', 'ip net'), ('net', 'src net'), ('net', 'ip6 dst net'),
            ('net', 'net 10 or'), ('host', 'host'), ('host', 'ip6 host'), ('host', 'src'),
            ('host', 'arp host'), ('host', 'host ::1 or'), ('host', ''), ('number', 'port'),
            ('number', 'port 80 or not'), ('range', 'portrange'), ('number', 'proto'),
            ('number', 'ip proto'), ('number', 'ether proto'), ('hardware', 'ether host'),
            ('hardware', 'ether src'), ('number', 'vlan'), ('number', 'less'),
            ('number', 'greater'), ('number', 'len ='), ('number', 'len & 0xff ='),
            ('number', 'ip[0] & ( 0 |'), ('place', 'ip ['), ('place', 'ether [')])
        if self.chance(0.05):
            kind = self.pick(['net', 'host', 'range', 'hardware', 'place', 'number'])
        words = [*head.split(), self.odd_value(kind)]
        words += {'[': ['] >= 0'], '|': [') = 0']}.get(head[-1:], [])
        return ' '.join(words).encode('latin-1')

    def masked_net(self):
        """a network with a mask, or nearly, after words that can have one most of the time"""
        front = self.pick(['net', 'net', 'src net', 'dst net', 'src or dst net', 'src and dst net',
                           'ip net', 'arp net', 'rarp dst net', 'not net', 'net not', 'net 10 or',
                           'net 10.0/8 or', 'net 1.2 mask 255.255 or', 'port 80 or net', 'net (',
                           'host', 'src', 'ip6 net', 'tcp net', 'ether net', 'host 10.0.0.1 or'])
        if self.chance(0.5):
            value = self.masked_word('.'.join(map(str, self.some_bytes(4))))
        else:
            value = f'{self.odd_address4()} mask {self.odd_address4()}'
            value += self.pick(['', '', '', '/8', ' mask 255.0', ' or 10.0 mask 255.0'])
        return f'{front} {value}{")" if "(" in front else ""}'.encode('latin-1')

    def frame_of(self, text):
        """a frame that has what a text names, if it is an expression, and its length"""
        self.aim(text)
        read = grammar.read(text)
        frame, wire = self.frame()
        tree = read[1] if read[0] == 'ok' else ('none',)
        while tree[0] in ('or', 'not'):
            tree = tree[-1]
        if tree[0] == 'len' or tree[0] in ('less', 'greater'):
            wire = min(max(0, tree[-1] + self.pick([0, 0, 1, -1])), 2**32 - 1)
        if tree[0] == 'masked' and frame[12:14] == b'\x08\0':
            found = tree[-2] | self.dice.getrandbits(32) & ~tree[-1]
            found ^= self.pick([0, 0, 0, 1, 1 << 31, 1 << self.dice.randrange(32)])
            frame = frame[:26] + found.to_bytes(4, 'big') + frame[30:]
        if tree[0] == 'ether-type':
            frame = frame[:12] + struct.pack('>H', tree[1]) + frame[14:]
        if tree[0] == 'vlan' and tree[1] is not None:
            frame = frame[:12] + struct.pack('>HH', 0x8100, tree[1]) + frame[12:]
        if tree[0] == 'proto' and frame[12:14] == b'\x08\0':
            frame = frame[:23] + bytes([tree[2]]) + frame[24:]
        if tree[0] == 'ports' and frame[12:14] == b'\x08\0' and frame[14] == 0x45:
            frame = frame[:34] + struct.pack('>H', self.pick(tree[-2:])) + frame[36:]
        return frame, wire

    def some_word(self):
        kind = self.dice.random()
        if kind < 0.65:
            return self.pick(FIXED)
        if kind < 0.68:
            return self.pick(UNSUPPORTED)
        if kind < 0.95:
            return self.pick(SOME_WORDS)
        return self.pick('foo IP Tcp ip. _ \\ * + % " ,'.split())


def main():
    parser = argparse.ArgumentParser(usage=__doc__)
    parser.add_argument('--seed', type=int, default=1)
    parser.add_argument('--count', type=int, default=10000)
    parser.add_argument('--kind', default='plain',
                        choices=['plain', 'other', 'covered', 'bytes', 'words', 'changed', 'ways',
                                 'links', 'real', 'values', 'masks'])
    parser.add_argument('--frames', type=int, default=2)
    asked = parser.parse_args()
    cases = Cases(asked.seed)
    if asked.kind == 'masks':
        cases.masks = 0.8
    done = 0
    while done < asked.count:
        if asked.kind == 'real':
            text = cases.real[done // asked.frames % len(cases.real)].encode('ascii')
            cases.aim(text)
        first, link_type = cases.frame(asked.kind != 'other'), 1
        if asked.kind == 'masks' and cases.chance(0.3):
            text = cases.masked_net()
            frames = [cases.frame_of(text)]
        elif asked.kind in ('plain', 'other', 'masks'):
            text = cases.expression()
            frames = [first] + [cases.frame(asked.kind != 'other')
                                for _ in range(asked.frames - 1)]
        elif asked.kind == 'covered':
            text = cases.expression()
            frames = [(frame, len(frame)) for frame in (first[0], cases.covered(first[0]))]
        elif asked.kind == 'values':
            text = cases.valued()
            frames = [cases.frame_of(text)]
        elif asked.kind == 'real':
            frames = [first]
            while len(frames) < asked.frames:
                cases.aim(text)
                frames.append(cases.frame())
        elif asked.kind == 'links':
            text, link_type = cases.expression(), cases.pick([101, 113, 276])
            frames = [(cases.relinked(frame, link_type, cases.pick(DEVICES)), wire)
                      for frame, wire in (first, cases.frame(cases.chance(0.7)))]
            if link_type == 101:
                frames = [one for one in frames if one[0] and one[0][0] // 16 in (4, 6)]
        else:
            text, frames = cases.text(asked.kind), [first]
        for frame, wire in frames[:asked.count - done]:
            print('filter', link_type, frame.hex() or '-', wire, text.hex() or '-')
        done += len(frames)


if __name__ == '__main__':
    main()
