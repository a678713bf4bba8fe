#!/usr/bin/env python3
"""Compares the reference with scapy on random headers and on packets to build, and the program with both.

    PYTHONPATH=/usr/lib/python3/dist-packages python3 peer.py --seed 1 --count 10000

For each kind of `random_cases.py` that scapy has: cases that are accepted, up to that count. scapy reads the bytes of the case, and its
fields have to be those of the answer; it writes the same fields, and its bytes have to be the answer's; it computes the checksum anew.
With `--program FILE`, a build of `crates/conformance`, its answers have to be the same too.
"""
import argparse
import logging
import random
import socket
import subprocess
import sys

logging.getLogger('scapy').setLevel(logging.ERROR)

from scapy.layers.inet import ICMP, IP, IPOption, TCP, UDP, in4_chksum # noqa: E402
from scapy.layers.inet6 import (ICMPv6DestUnreach, ICMPv6EchoReply, ICMPv6EchoRequest, ICMPv6ND_NA, ICMPv6ND_RA, # noqa: E402
                                ICMPv6PacketTooBig, ICMPv6ParamProblem, ICMPv6TimeExceeded, IPv6, IPv6ExtHdrDestOpt,
                                IPv6ExtHdrFragment, IPv6ExtHdrHopByHop, in6_chksum)
from scapy.layers.ipsec import AH # noqa: E402
from scapy.layers.l2 import ARP, CookedLinux, CookedLinuxV2, Dot1AD, Dot1Q, Dot3, Ether # noqa: E402
from scapy.packet import Raw # noqa: E402
from scapy.utils import checksum # noqa: E402

import random_cases # noqa: E402
import reference # noqa: E402

raw, flag = reference.raw, reference.flag


class NotThere(Exception):
    """scapy has no such thing, or another one."""


def fields_of(answer):
    """The named values of an answer."""
    return dict(word.split('=', 1) for word in answer.split(' ') if '=' in word)


def rewritten(packet):
    """The bytes of the fields of a packet that was read."""
    packet.raw_packet_cache = None
    return bytes(packet)


def mac(held):
    return ':'.join(f'{byte:02x}' for byte in held)


def ipv4_text(held):
    return socket.inet_ntop(socket.AF_INET, held)


def ipv6_text(held):
    return socket.inet_ntop(socket.AF_INET6, held)


def same(*pairs):
    """What differs, of pairs of a name, what scapy says and what the answer says."""
    return [f'{name}: {ours!r}, scapy {theirs!r}' for name, theirs, ours in pairs if theirs != ours]


def numbers(fields, theirs):
    return same(*[(name, value, int(fields[name])) for name, value in theirs.items()])


# What scapy says of each kind: a list of what differs.

def ethernet2(words, fields):
    held = raw(words[0])[:14]
    ether_type = int(fields['ether_type'])
    packet = Ether(held) if ether_type > 1500 else Dot3(held)
    made = (Ether(dst=packet.dst, src=packet.src, type=ether_type) if ether_type > 1500
            else Dot3(dst=packet.dst, src=packet.src, len=ether_type))
    return same(('destination', packet.dst, mac(raw(fields['destination']))), ('source', packet.src, mac(raw(fields['source']))),
                ('ether_type', packet.type if ether_type > 1500 else packet.len, ether_type), ('bytes', bytes(made), raw(fields['bytes'])))


def tag(fields):
    return Dot1Q(prio=int(fields['pcp']), id=int(fields['drop_eligible_indicator'] == 'true'), vlan=int(fields['vlan_id']),
                 type=int(fields['ether_type']))


def vlan(words, fields):
    packet = Dot1Q(raw(words[0])[:4])
    return (numbers(fields, {'pcp': packet.prio, 'vlan_id': packet.vlan, 'ether_type': packet.type})
            + same(('drop_eligible_indicator', bool(packet.id), fields['drop_eligible_indicator'] == 'true'),
                   ('bytes', bytes(tag(fields)), raw(fields['bytes']))))


def sll(words, fields):
    packet = CookedLinux(raw(words[0])[:16])
    made = CookedLinux(pkttype=packet.pkttype, lladdrtype=packet.lladdrtype, lladdrlen=packet.lladdrlen, src=packet.src,
                       proto=packet.proto)
    return (numbers(fields, {'packet_type': packet.pkttype, 'arp_hrd_type': packet.lladdrtype,
                             'sender_address_valid_length': packet.lladdrlen, 'protocol_type': packet.proto})
            + same(('sender_address', packet.src, raw(fields['sender_address'])), ('bytes', bytes(made), raw(fields['bytes']))))


def sll2(words, fields):
    packet = CookedLinuxV2(raw(words[0])[:20])
    made = CookedLinuxV2(proto=packet.proto, ifindex=packet.ifindex, lladdrtype=packet.lladdrtype, pkttype=packet.pkttype,
                         lladdrlen=packet.lladdrlen, src=packet.src)
    return (numbers(fields, {'protocol_type': packet.proto, 'interface_index': packet.ifindex, 'arp_hrd_type': packet.lladdrtype,
                             'packet_type': packet.pkttype, 'sender_address_valid_length': packet.lladdrlen})
            + same(('sender_address', packet.src, raw(fields['sender_address'])), ('bytes', bytes(made), raw(fields['bytes']))))


def arp(words, fields):
    held = raw(words[0])
    packet = ARP(held[:len(held) - len(raw(fields['rest']))])
    found = numbers(fields, {'hw_addr_type': packet.hwtype, 'proto_addr_type': packet.ptype, 'hw_addr_size': packet.hwlen,
                             'protocol_addr_size': packet.plen, 'operation': packet.op})
    for name, value in (('sender_hw_addr', packet.hwsrc), ('sender_protocol_addr', packet.psrc), ('target_hw_addr', packet.hwdst),
                        ('target_protocol_addr', packet.pdst)):
        ours = raw(fields[name])
        if isinstance(value, str):
            ours = mac(ours) if ':' in value and len(ours) == 6 else ipv4_text(ours) if len(ours) == 4 else ipv6_text(ours)
        found += same((name, value, ours))
    return found + same(('bytes', rewritten(packet), raw(fields['bytes'].split(' ')[0])))


def auth(words, fields):
    packet = AH(raw(words[0]))
    icv = raw(fields['icv'])
    made = AH(nh=packet.nh, payloadlen=len(icv) // 4 + 1, spi=packet.spi, seq=packet.seq, icv=icv)
    return (numbers(fields, {'next_header': packet.nh, 'spi': packet.spi, 'sequence_number': packet.seq})
            + same(('icv', packet.icv or b'', icv), ('bytes', bytes(made), raw(fields['bytes']))))


def fragment(words, fields):
    packet = IPv6ExtHdrFragment(raw(words[0])[:8])
    made = IPv6ExtHdrFragment(nh=packet.nh, offset=packet.offset, m=packet.m, id=packet.id)
    return (numbers(fields, {'next_header': packet.nh, 'fragment_offset': packet.offset, 'identification': packet.id})
            + same(('more_fragments', bool(packet.m), fields['more_fragments'] == 'true'),
                   ('bytes', bytes(made), raw(fields['bytes']))))


def raw_header(words, fields):
    written = raw(fields['bytes'])
    packet = IPv6ExtHdrDestOpt(written)
    return same(('next_header', packet.nh, int(fields['next_header'])), ('length', 8 * packet.len + 8, len(written)))


# Options that scapy reads by their type: router alert, jumbo payload and home address, with the lengths of their data.
OPTION6 = {5: 2, 0xc2: 4, 0xc9: 16}


def options6(words, answer):
    """scapy reads the options of a whole header, which Pad1 fill up here."""
    ours = [fields_of(text) for text in answer.split(' ; ')[:-1]]
    ours = [(int(fields['type']), raw(fields['data'])) for fields in ours]
    if any(OPTION6.get(kind, len(held)) != len(held) for kind, held in ours):
        raise NotThere
    held = raw(words[0])
    padding = (6 - len(held)) % 8
    packet = IPv6ExtHdrHopByHop(bytes([59, (len(held) + padding - 6) // 8]) + held + bytes(padding))
    theirs = [(option.otype, bytes(option)[2:]) for option in packet.options]
    return same(('options', theirs, ours + [(0, b'')] * padding))


# Options that scapy reads by their kind, and whether their data has a length that the kind has.
OPTION4 = {1: lambda n: n == 0, 7: lambda n: n % 4 == 1, 131: lambda n: n % 4 == 1, 137: lambda n: n % 4 == 1, 148: lambda n: n == 2}


def options4(words, answer):
    held = raw(words[0])
    ours = [fields_of(text) for text in answer.split(' ; ')[:-1]]
    for fields in ours:
        if int(fields['number']) in IPOption.registered_ip_options:
            kind = int(fields['type'])
            if kind not in OPTION4 or not OPTION4[kind](len(raw(fields['data']))):
                raise NotThere
    held = held[:int(answer.rsplit('offset=', 1)[1].split(' ')[0])] # scapy goes on after the end of the list
    if len(held) > 40:
        raise NotThere
    held += bytes(-len(held) % 4)
    packet = IP(bytes([0x45 + len(held) // 4, 0]) + (20 + len(held)).to_bytes(2, 'big') + bytes(5) + b'\xfd' + bytes(10) + held)
    theirs = [option for option in packet.options if bytes(option)[:1] != b'\0']
    found = same(('count', len(theirs), len(ours)))
    for option, fields in zip(theirs, ours):
        found += numbers(fields, {'class': option.optclass, 'number': option.option})
        found += same(('copied', bool(option.copy_flag), fields['copied'] == 'true'),
                      ('data', rewritten(option)[2:], raw(fields['data'])))
    return found


def udp(words, fields):
    packet = UDP(raw(words[0])[:8])
    made = UDP(sport=packet.sport, dport=packet.dport, len=packet.len, chksum=packet.chksum)
    return (numbers(fields, {'source_port': packet.sport, 'destination_port': packet.dport, 'length': packet.len,
                             'checksum': packet.chksum}) + same(('bytes', bytes(made), raw(fields['bytes']))))


def ip_of(words):
    source, destination = raw(words[0]), raw(words[1])
    if len(source) == 4:
        return IP(src=ipv4_text(source), dst=ipv4_text(destination))
    return IPv6(src=ipv6_text(source), dst=ipv6_text(destination))


def sum_over(ip, protocol, segment):
    return (in6_chksum if isinstance(ip, IPv6) else in4_chksum)(protocol, ip, segment)


def udp_sum(words, answer):
    held = raw(words[2])
    if int.from_bytes(held[4:6], 'big') != len(held):
        raise NotThere
    header = UDP(held[:8])
    made = bytes(ip_of(words) / UDP(sport=header.sport, dport=header.dport, len=header.len) / Raw(held[8:]))
    return same(('checksum', int.from_bytes(made[-len(held) + 6:len(made) - len(held) + 8], 'big'), int(answer.split(' ')[1])))


TCP_NAMES = ['fin', 'syn', 'rst', 'psh', 'ack', 'urg', 'ece', 'cwr', 'ns']


def tcp_fields(held):
    """A TCP header without payload, and its options as bytes."""
    packet = TCP(held[:20])
    packet.options = []
    return packet, held[20:4 * (held[12] >> 4)]


def tcp(words, fields):
    packet, options = tcp_fields(raw(words[0]))
    made = bytes(TCP(sport=packet.sport, dport=packet.dport, seq=packet.seq, ack=packet.ack, dataofs=packet.dataofs, reserved=0,
                     flags=int(packet.flags), window=packet.window, chksum=packet.chksum, urgptr=packet.urgptr)) + options
    flags = int(packet.flags)
    return (numbers(fields, {'source_port': packet.sport, 'destination_port': packet.dport, 'sequence_number': packet.seq,
                             'acknowledgment_number': packet.ack, 'data_offset': packet.dataofs, 'window_size': packet.window,
                             'checksum': packet.chksum, 'urgent_pointer': packet.urgptr})
            + same(*[(name, bool(flags >> at & 1), fields[name] == 'true') for at, name in enumerate(TCP_NAMES)],
                   ('bytes', made, raw(fields['bytes']))))


def tcp_options(words, answer):
    held = raw(words[0])
    if len(held) > 40:
        raise NotThere
    held += bytes(-len(held) % 4)
    packet = TCP(bytes(12) + bytes([0x50 + len(held) * 4, 0]) + bytes(6) + held)
    theirs = []
    for name, value in packet.options:
        if name == 'EOL':
            break
        if name == 'SAck':
            blocks = [f'({value[at]}, {value[at + 1]})' for at in range(0, len(value), 2)]
            others = [f'Some({block})' for block in blocks[1:]] + ['None'] * (4 - len(blocks))
            theirs.append(f'SelectiveAcknowledgement({blocks[0]}, [{", ".join(others)}])')
        else:
            theirs.append({'NOP': lambda v: 'Noop', 'MSS': 'MaximumSegmentSize({})'.format, 'WScale': 'WindowScale({})'.format,
                           'SAckOK': lambda v: 'SelectiveAcknowledgementPermitted',
                           'Timestamp': lambda v: 'Timestamp({}, {})'.format(*v)}[name](value))
    return same(('options', theirs, [text[3:] for text in answer.split(' ; ')[:-1]]))


def elements(words, answer):
    left, options = list(words[1:]), []
    while left:
        name = left.pop(0)
        if name in ('noop', 'permitted'):
            options.append(('NOP', None) if name == 'noop' else ('SAckOK', b''))
        elif name == 'timestamp':
            options.append(('Timestamp', (int(left.pop(0)), int(left.pop(0)))))
        elif name == 'ack':
            blocks = [int(left.pop(0)), int(left.pop(0))]
            for _ in range(3):
                if left.pop(0) == '1':
                    blocks += [int(left.pop(0)), int(left.pop(0))]
            options.append(('SAck', tuple(blocks)))
        else:
            options.append(({'mss': 'MSS', 'scale': 'WScale'}[name], int(left.pop(0))))
    return same(('bytes', bytes(TCP(options=options))[20:], raw(answer.split(' ')[1])))


def tcp_sum(words, answer):
    held = raw(words[2])
    packet, options = tcp_fields(held)
    packet.reserved, packet.chksum = 0, 0
    front = rewritten(packet) + options
    segment = front + held[len(front):]
    made = sum_over(ip_of(words), 6, segment)
    return same(('checksum', made, int(answer.split(' ')[1])))


def icmpv4(words, answer):
    held, fields = raw(words[0]), fields_of(answer)
    kind = answer.split(' kind=')[1].split(' rest=')[0]
    found = []
    if not kind.startswith('Unknown'): # scapy reads times after any code
        packet = ICMP(held)
        found = numbers(fields, {'type': packet.type, 'code': packet.code, 'checksum': packet.chksum})
    if kind.startswith('Echo'):
        found += same(('kind', f'IcmpEchoHeader {{ id: {packet.id}, seq: {packet.seq} }}', kind.split('(')[1][:-1]))
    elif kind.startswith('Timestamp'):
        found += same(('kind', f'TimestampMessage {{ id: {packet.id}, seq: {packet.seq}, originate_timestamp: {packet.ts_ori}, '
                       f'receive_timestamp: {packet.ts_rx}, transmit_timestamp: {packet.ts_tx} }}', kind.split('(')[1][:-1]))
    elif kind.startswith('Redirect'):
        found += same(('gateway', packet.gw, '.'.join(kind.split('[')[1].split(']')[0].split(', '))))
    elif 'FragmentationNeeded' in kind:
        found += same(('mtu', packet.nexthopmtu, int(kind.split('mtu: ')[1].split(' ')[0])))
    elif 'PointerIndicatesError' in kind:
        found += same(('pointer', packet.ptr, int(kind.split('Error(')[1].split(')')[0])))
    written = raw(fields['bytes'])
    return found + same(('calc', checksum(written[:2] + b'\0\0' + written[4:] + raw(fields['rest'])), int(fields['calc'])))


ICMPV6 = {1: ICMPv6DestUnreach, 2: ICMPv6PacketTooBig, 3: ICMPv6TimeExceeded, 4: ICMPv6ParamProblem, 128: ICMPv6EchoRequest,
          129: ICMPv6EchoReply, 134: ICMPv6ND_RA, 136: ICMPv6ND_NA}


def icmpv6(words, answer):
    held, fields = raw(words[2]), fields_of(answer)
    kind = answer.split(' kind=')[1].split(' rest=')[0]
    found = []
    if held[0] in ICMPV6 and not kind.startswith('Unknown'):
        # (what follows the 8 bytes of an advertisement is a part of scapy's header)
        packet = ICMPV6[held[0]](held[:8] + bytes(16 * (held[0] in (134, 136))))
        found = numbers(fields, {'type': packet.type, 'code': packet.code, 'checksum': packet.cksum})
        if kind.startswith('Echo'):
            found += same(('kind', f'IcmpEchoHeader {{ id: {packet.id}, seq: {packet.seq} }}', kind.split('(')[1][:-1]))
        elif kind.startswith('PacketTooBig'):
            found += same(('mtu', f'PacketTooBig {{ mtu: {packet.mtu} }}', kind))
        elif kind.startswith('ParameterProblem'):
            found += same(('pointer', packet.ptr, int(kind.split('pointer: ')[1].split(' ')[0])))
        elif kind.startswith('RouterAdvertisement'):
            router = (f'cur_hop_limit: {packet.chlim}, managed_address_config: {flag(packet.M)}, other_config: {flag(packet.O)}, '
                      f'router_lifetime: {packet.routerlifetime}')
            found += same(('router', router, kind.split('{ ')[1].split(' }')[0]))
        elif kind.startswith('NeighborAdvertisement'):
            neighbor = f'router: {flag(packet.R)}, solicited: {flag(packet.S)}, override_flag: {flag(packet.O)}'
            found += same(('neighbor', neighbor, kind.split('{ ')[1].split(' }')[0]))
    written = raw(fields['bytes'])
    whole = written[:2] + b'\0\0' + written[4:] + raw(fields['rest'])
    made = sum_over(ip_of(words), 58, whole)
    return found + same(('calc', made, int(answer.rsplit(' ', 1)[1])))


def built_ip(left, protocol, size):
    """scapy's IP header from the words of a case."""
    if left.pop(0) == '4':
        dscp, ecn, _, identification, dont, more, offset, ttl, _, _ = (int(left.pop(0)) for _ in range(10))
        source, destination, options = raw(left.pop(0)), raw(left.pop(0)), raw(left.pop(0))
        header = IP(ihl=5 + len(options) // 4, tos=4 * dscp + ecn, len=20 + len(options) + size, id=identification, flags=2 * dont + more,
                    frag=offset, ttl=ttl, proto=protocol, chksum=0, src=ipv4_text(source), dst=ipv4_text(destination))
        written = bytes(header)[:20] + options
        return written[:10] + checksum(written).to_bytes(2, 'big') + written[12:], header, 0x0800
    traffic, flow, _, _, hops = (int(left.pop(0)) for _ in range(5))
    source, destination = raw(left.pop(0)), raw(left.pop(0))
    header = IPv6(tc=traffic, fl=flow, plen=size, nh=protocol, hlim=hops, src=ipv6_text(source), dst=ipv6_text(destination))
    return bytes(header), header, 0x86dd


def build(words, answer):
    if ' ok ' not in answer:
        raise NotThere
    left = list(words[1:])
    link, layers = left.pop(0), []
    if link == 'ethernet2':
        source, destination = raw(left.pop(0)), raw(left.pop(0))
        layers.append(Ether(src=mac(source), dst=mac(destination)))
    elif link == 'sll':
        kind, device, valid = (int(left.pop(0)) for _ in range(3))
        layers.append(CookedLinux(pkttype=kind, lladdrtype=device, lladdrlen=valid, src=raw(left.pop(0))))
    tags = {'none': 0, 'single': 1, 'double': 2}[left.pop(0)]
    for at in range(tags):
        pcp, drop, vlan_id = (int(left.pop(0)) for _ in range(3))
        layers.append((Dot1AD if tags == 2 and at == 0 else Dot1Q)(prio=pcp, id=drop, vlan=vlan_id))
    ip_words = [left.pop(0) for _ in range(14 if left[0] == '4' else 8)]
    upper, payload = left[0], raw(left[-1])
    if upper == 'udp':
        size, protocol = 8 + len(payload), 17
    elif upper == 'tcp':
        packet, options = tcp_fields(raw(left[1]))
        packet.reserved, packet.chksum = 0, 0
        size, protocol = 20 + len(options) + len(payload), 6
    else:
        size, protocol = len(payload), int(left[1])
    written, header, ether_type = built_ip(ip_words, protocol, size)
    if upper == 'ip':
        segment = payload
    else:
        front = bytes(UDP(sport=int(left[1]), dport=int(left[2]), len=size, chksum=0)) if upper == 'udp' else rewritten(packet) + options
        segment = front + payload
        made = sum_over(header, protocol, segment)
        made = 65535 if upper == 'udp' and made == 0 else made
        at = 6 if upper == 'udp' else 16
        segment = segment[:at] + made.to_bytes(2, 'big') + segment[at + 2:]
    for layer, after in zip(layers, layers[1:] + [None]):
        number = 0x8100 if isinstance(after, Dot1Q) and not isinstance(after, Dot1AD) else 0x88a8 if after is not None else ether_type
        if isinstance(layer, CookedLinux):
            layer.proto = number
        else:
            layer.type = number
    whole = b''.join([bytes(layer) for layer in layers]) + written + segment
    memory = raw(answer.rsplit('=', 1)[1])
    return same(('packet', whole, memory[:len(whole)]), ('size', f'size={len(whole)}', answer.split(' ')[0]))


# Kinds whose functions take the named values of the answer, and those that take its text.
READ = {'link.ethernet2': ethernet2, 'link.vlan': vlan, 'link.sll': sll, 'link.sll2': sll2, 'link.arp': arp, 'ext.auth': auth,
        'ext.fragment': fragment, 'ext.raw': raw_header, 'udp.head': udp, 'tcp.head': tcp}
TOLD = {'ext.options4': options4, 'ext.options6': options6, 'udp.v4': udp_sum, 'udp.v6': udp_sum, 'tcp.options': tcp_options,
        'tcp.elements': elements, 'tcp.v4': tcp_sum, 'tcp.v6': tcp_sum, 'icmp.v4': icmpv4, 'icmp.v6': icmpv6, 'build': build}


def answers_of(program, cases):
    done = subprocess.run([program], input='\n'.join(cases) + '\n', capture_output=True, text=True, check=True)
    return done.stdout.splitlines()


def differences(case, answer):
    kind, *words = case.split(' ')
    if kind in READ:
        return READ[kind](words, fields_of(answer.split(' ; ')[0]))
    return TOLD[kind](words, answer)


def main():
    parser = argparse.ArgumentParser(description=__doc__.splitlines()[0])
    parser.add_argument('--kind', action='append', choices=[*READ, *TOLD])
    parser.add_argument('--seed', type=int, default=1)
    parser.add_argument('--count', type=int, default=1000)
    parser.add_argument('--program')
    arguments = parser.parse_args()
    total = failed = 0
    for kind in arguments.kind or [*READ, *TOLD]:
        rng, same_count, differ, other = random.Random(f'peer {kind} {arguments.seed}'), 0, 0, 0
        while same_count + differ < arguments.count:
            cases = random_cases.cases(kind, rng, 1000)
            answers = answers_of(arguments.program, cases) if arguments.program else [None] * len(cases)
            for case, found in zip(cases, answers, strict=True):
                answer = reference.answer(case)
                if same_count + differ == arguments.count or 'err' in answer or len(case) > 4000:
                    continue
                try:
                    wrong = differences(case, answer)
                except NotThere:
                    other += 1
                    continue
                if found not in (None, answer):
                    wrong.append(f'the program answers {found}')
                differ += bool(wrong)
                same_count += not wrong
                if wrong and differ <= 3:
                    print(case, *wrong, sep='\n  ', flush=True)
        print(f'{kind}: {same_count} are the same, {differ} differ; scapy has no word about {other}', flush=True)
        total, failed = total + same_count + differ, failed + differ
    print(f'{total} compared, {failed} differ')
    return failed > 0


if __name__ == '__main__':
    sys.exit(main())
