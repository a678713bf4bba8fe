"""packets.py: writes the cases `packet` anew at the end of stdin, and their answers at the end of
stdout (SAMPLE.md). The answers are read from the packets here, after the RFCs. What tshark, scapy
and the answers before them in stdout tell of the same packets has to agree, else it stops before
anything is written.
"""
import collections
import ipaddress
import itertools
import os
import re
import struct
import subprocess
import sys
import tempfile
import xml.etree.ElementTree as xml

from scapy.layers.inet import ICMP, IP, TCP, UDP, in4_chksum
from scapy.layers.inet6 import ICMPv6EchoReply, IPv6, in6_chksum
from scapy.utils import checksum as scapy_checksum

from covered import extension_len, final_destination, options_of, original_source, past_source_route

# how many packets of the cases before, and how many that are refused in one way
MOST_FROM_SAMPLE, MOST_REFUSED = 1500, 12
EXTENSIONS = 0, 43, 44, 51, 60, 135, 139, 140
# the addresses that translation gives (RFC 5737)
SOURCE, DESTINATION = bytes([198, 51, 100, 7]), bytes([203, 0, 113, 9])
NEAR4, FAR4 = bytes([192, 168, 0, 1]), bytes([192, 168, 0, 199])
NEAR6, FAR6 = (bytes.fromhex('20010db8' + '00' * 11) + bytes([n]) for n in (1, 2))
# lines that are no case
NO_CASES = [(case, 'bad line') for case in ('packet', 'packet 0', 'packet 00 00', 'packet.x -')]
tally = collections.Counter()


class Refused(Exception):
    """why bytes are not read, in the words of an answer"""


def too_short(required, packet, layer, offset=0, source='Slice'):
    """the refusal of bytes, or of a length, that are fewer than required"""
    there = packet if isinstance(packet, int) else len(packet)
    return Refused(f'err len required={required} len={there} source={source} layer={layer} '
                   f'offset={offset}')


# How packets are read.

def ones_complement_sum(data):
    """RFC 1071 section 1: of words of 16 bits, an odd byte with 0 behind it"""
    total = 0
    for high, low in itertools.zip_longest(data[::2], data[1::2], fillvalue=0):
        total += high * 256 + low
        if total > 0xffff:
            total -= 0xffff
    return total


def pseudo_header(parts, number, length, covered=None):
    """RFC 768 and RFC 9293 section 3.1; RFC 8200 section 8.1"""
    tells = (struct.pack('!xBH', number, length) if parts['version'] == 4
             else struct.pack('!I3xB', length, number))
    source, destination = covered or (parts['source'], parts['destination'])
    return source + destination + tells


def covered_by(parts):
    """the source and the destination that a checksum covers; None if one is not known"""
    covered = parts['original'], parts['final']
    return None if None in covered else covered


def is_all_ones(parts, number, datagram):
    """whether the words of a datagram and its pseudo-header sum to all ones, between the original
    source and the final destination; no if one is not known"""
    covered = covered_by(parts)
    return covered is not None and ones_complement_sum(
        pseudo_header(parts, number, len(datagram), covered) + datagram) == 0xffff


def read_header4(packet):
    """RFC 791 section 3.1, with RFC 2474 and RFC 3168 for the second byte"""
    if len(packet) < 20:
        raise too_short(20, packet, 'Ipv4Header')
    ihl = packet[0] % 16
    if ihl < 5:
        raise Refused(f'err ihl ihl={ihl}')
    if len(packet) < 4 * ihl:
        raise too_short(4 * ihl, packet, 'Ipv4Header')
    services, total, identification, flags, hops, protocol, checksum, source, destination = (
        struct.unpack('!xBHHHBBH4s4s', packet[:20]))
    return dict(
        version=4, dscp=services // 4, ecn=services % 4, total_len=total,
        identification=identification, dont_fragment=flags // 2**14 % 2 == 1,
        more_fragments=flags // 2**13 % 2 == 1, fragment_offset=flags % 2**13, time_to_live=hops,
        protocol=protocol, header_checksum=checksum, source=source, destination=destination,
        options=packet[20:4 * ihl], header_len=4 * ihl)


def read_header6(packet):
    """RFC 8200 section 3"""
    if len(packet) < 40:
        raise too_short(40, packet, 'Ipv6Header')
    first, length, number, hops, source, destination = struct.unpack('!IHBB16s16s', packet[:40])
    return dict(
        version=6, traffic_class=first // 2**20 % 2**8, flow_label=first % 2**20,
        payload_length=length, next_header=number, hop_limit=hops, source=source,
        destination=destination)


def read_extensions(body, number, past_fragments=False):
    """The numbers and places of extension headers, and the number and place behind them. RFC 8200
    section 4.5: the headers behind a fragment header are in the first fragment alone; the reference
    reads on past all of them."""
    chain, place = [], 0
    while number in EXTENSIONS:
        required = extension_len(number, body[place:])
        if len(body) - place < required:
            raise too_short(required, body[place:], 'Ipv6ExtHeader', 40 + place)
        chain.append((number, place))
        is_later = number == 44 and read_fragment_header(body[place:])['fragment_offset'] > 0
        number, place = body[place], place + required
        if is_later and not past_fragments:
            break
    return chain, number, place


def read_fragment_header(body):
    """RFC 8200 section 4.5"""
    number, word, identification = struct.unpack('!BxHI', body[:8])
    return dict(next_header=number, fragment_offset=word // 8, more_fragments=word % 2 == 1,
                identification=identification)


def is_part(header):
    """RFC 791 section 3.2, RFC 8200 section 4.5; an atomic fragment is whole (RFC 6946)"""
    return header['more_fragments'] or header['fragment_offset'] > 0


def find_fragment_header(body, number, past_atomic=False):
    """The first fragment header and the bytes behind it, if any. RFC 8200 section 4.5: a packet with
    an atomic one is processed as without it, so that one behind it can tell of a part."""
    place = 0
    while number in EXTENSIONS:
        if number == 44:
            if len(body) - place < 8:
                raise too_short(8, body[place:], 'Ipv6FragHeader', 40 + place)
            header = read_fragment_header(body[place:])
            if is_part(header) or not past_atomic:
                return header, body[place + 8:]
        required = extension_len(number, body[place:])
        if len(body) - place < required:
            raise too_short(required, body[place:], 'Ipv6ExtHeader', 40 + place)
        number, place = body[place], place + required
    return None


def read_packet(packet):
    """the parts of a packet, cut at its length field; in a refusal, which part is missing"""
    version = packet[0] // 16 if packet else None
    if version not in (4, 6):
        raise Refused(f"empty={too_short(1, packet, 'IpHeader')}" if version is None
                      else f'err version number={version}')
    try:
        parts = read_header4(packet) if version == 4 else read_header6(packet)
    except Refused as error:
        raise Refused(f'header={error}')
    front, end = ((parts['header_len'], parts['total_len']) if version == 4
                  else (40, 40 + parts['payload_length']))
    layer = f'Ipv{version}Packet'
    if end < front:
        raise Refused(f"packet={too_short(front, end, layer, source='Ipv4HeaderTotalLen')}")
    if len(packet) < end:
        raise Refused(f'packet={too_short(end, packet, layer)}')
    parts.update(body=packet[front:end], behind=packet[front:])
    if version == 4:
        return dict(parts, upper=parts['protocol'], payload=parts['body'], place=front,
                    is_fragment=is_part(parts), original=parts['source'],
                    final=past_source_route(parts['destination'], parts['options']))
    try:
        chain, upper, place = read_extensions(parts['body'], parts['next_header'])
    except Refused as error:
        ended = str(error).replace('source=Slice', 'source=Ipv6HeaderPayloadLen')
        raise Refused(f'extensions={ended}')
    part = find_fragment_header(parts['body'], parts['next_header'], past_atomic=True)
    return dict(parts, upper=upper, payload=parts['body'][place:], place=40 + place, chain=chain,
                extensions=parts['body'][:place], is_fragment=bool(part),
                original=original_source(parts['source'], chain, parts['body']),
                final=final_destination(parts['destination'], chain, parts['body']))


def read_udp(parts):
    """RFC 768: the fields, and of a datagram that is there whether it is right, and made so"""
    payload = parts['payload']
    if len(payload) < 8:
        raise too_short(8, payload, 'UdpHeader')
    source, destination, length, checksum = struct.unpack('!4H', payload[:8])
    udp = dict(source_port=source, destination_port=destination, length=length, checksum=checksum)
    if 8 <= length <= len(payload):
        datagram = payload[:length]
        is_right = is_all_ones(parts, 17, datagram)
        # 0 says none in IPv4 (RFC 768), and is not allowed in IPv6 (RFC 8200 section 8.1)
        udp['right'] = (is_right or checksum == 0 if parts['version'] == 4
                        else is_right and checksum != 0)
        without = payload[:6] + bytes(2) + payload[8:length]
        total = ones_complement_sum(pseudo_header(parts, 17, length) + without)
        udp['made'] = payload[:6] + struct.pack('!H', 0xffff - total or 0xffff)
    return udp


def read_tcp(parts):
    """RFC 9293 section 3.1"""
    segment = parts['payload']
    if len(segment) < 20:
        raise too_short(20, segment, 'TcpHeader')
    offset = segment[12] // 16
    if offset < 5:
        raise Refused(f'err data_offset offset={offset}')
    if len(segment) < 4 * offset:
        raise too_short(4 * offset, segment, 'TcpHeader')
    source, destination, sequence, acknowledged, flags, window, checksum, urgent = (
        struct.unpack('!HHIIxBHHH', segment[:20]))
    return dict(
        source_port=source, destination_port=destination, sequence_number=sequence,
        acknowledgment_number=acknowledged, data_offset=offset, flags=flags, window_size=window,
        checksum=checksum, urgent_pointer=urgent, fin=flags % 2 == 1, syn=flags // 2 % 2 == 1,
        rst=flags // 4 % 2 == 1, ack=flags // 16 % 2 == 1, options=segment[20:4 * offset],
        right=is_all_ones(parts, 6, segment))


def read_echo(parts):
    """the reply to an echo request: RFC 792, RFC 4443 sections 2.3, 4.1 and 4.2"""
    message = parts['payload']
    request, reply = (8, 0) if parts['version'] == 4 else (128, 129)
    if len(message) < 8 or message[0] != request or message[1] != 0:
        return dict(reply=False, message=message)
    without = bytes([reply, 0, 0, 0]) + message[4:]
    before = b'' if parts['version'] == 4 else pseudo_header(parts, 58, len(message))
    total = ones_complement_sum(before + without)
    return dict(reply=True, message=without[:2] + struct.pack('!H', 0xffff - total) + message[4:])


def updated(checksum, old, new):
    """RFC 1624 section 3, equation 3: ~(~HC + ~m + m'), for each word of an address"""
    words = [0xffff - checksum]
    for (before,), (after,) in zip(struct.iter_unpack('!H', old), struct.iter_unpack('!H', new)):
        words += [0xffff - before, after]
    return 0xffff - ones_complement_sum(struct.pack(f'!{len(words)}H', *words))


def translate(parts, checksum):
    """RFC 3022: another source and another destination, and both checksums; the upper layer's is
    for the end of a source route"""
    made = dict(source=SOURCE, destination=DESTINATION, header_checksum=parts['header_checksum'],
                checksum=checksum)
    for field in 'source', 'destination':
        for name in 'header_checksum', 'checksum':
            old, new = parts[field], made[field]
            if (field, name) == ('destination', 'checksum'):
                old, new = parts['final'], past_source_route(new, parts['options'])
            anew = updated(made[name], old, new)
            if name == 'checksum' and parts['upper'] == 17:
                # 0 says that there is none (RFC 768)
                anew = (anew or 0xffff) if checksum else 0
            made[name] = anew
    return made


# How answers are written.

def shown(value):
    if isinstance(value, bool):
        return 'true' if value else 'false'
    return (value.hex() or '-') if isinstance(value, bytes) else str(value)


def named(parts, names=None):
    return ' '.join(f'{n}={shown(parts[n])}' for n in names or parts)


FIELDS = {4: '''dscp ecn total_len identification dont_fragment more_fragments fragment_offset
    time_to_live protocol header_checksum source destination options'''.split(),
          6: '''traffic_class flow_label payload_length next_header hop_limit source
    destination'''.split()}


def answer_of(packet):
    """the answer to a packet, and what it was written from"""
    said, read = [], {}
    try:
        parts = read['packet'] = read_packet(packet)
        fields = FIELDS[parts['version']] + (['extensions'] if parts['version'] == 6 else [])
        said.append(f"ok {named(parts, fields)} upper={parts['upper']} "
                    f"payload={shown(parts['payload'])} fragment={shown(parts['is_fragment'])}")
        if not parts['is_fragment']:
            said += upper_layer(parts, read)
    except Refused as error:
        said.append(str(error))
    version = packet[0] // 16 if packet else 0
    if version == 4:
        said.append(key_of(lambda: read_header4(packet),
                           'source destination protocol identification'.split()))
    if version == 6:
        said += fragment_of(packet)
    return ' ; '.join(said), read


def upper_layer(parts, read):
    """what is said of UDP, TCP or an echo message"""
    name = {17: 'udp', 6: 'tcp', 1 if parts['version'] == 4 else 58: 'echo'}.get(parts['upper'])
    if name is None:
        return []
    try:
        found = read[name] = {'udp': read_udp, 'tcp': read_tcp, 'echo': read_echo}[name](parts)
    except Refused as error:
        return [f'{name}={error}']
    if name == 'echo':
        return [named(found)]
    said = [f'{name} {named(found)}']
    if parts['version'] == 4:
        read['translated'] = translate(parts, found['checksum'])
        said.append(f"translated {named(read['translated'])}")
    return said


def key_of(find, names):
    """the key of a fragment, none of a whole packet"""
    try:
        found = find()
    except Refused as error:
        return f'key={error}'
    return f'key {named(found, names)}' if found and is_part(found) else 'key=none'


def fragment_of(packet):
    """the fragment header of an IPv6 packet, which is not cut at its length field, and its key"""
    def find(past_atomic=False):
        header = read_header6(packet)
        found = find_fragment_header(packet[40:], header['next_header'], past_atomic)
        return found and dict({n: header[n] for n in ('source', 'destination')}, **found[0],
                              rest=found[1])
    try:
        found = find()
        said = 'fragment_header ' + named(found, '''next_header fragment_offset more_fragments
            identification rest'''.split()) if found else 'fragment_header=none'
    except Refused as error:
        said = f'fragment_header={error}'
    return [said, key_of(lambda: find(past_atomic=True),
                         'source destination identification'.split())]


# Which packets are asked for.

def in_ipv6(body, number, length=None, first=0x60000000, source=NEAR6, destination=FAR6):
    length = len(body) if length is None else length
    return struct.pack('!IHBB', first, length, number, 64) + source + destination + body


def in_ipv4(body, number, total=None, options=b'', flags=0, identification=0x1234, wrong=0,
            services=0, source=NEAR4, destination=FAR4):
    length = 20 + len(options)
    total = length + len(body) if total is None else total
    header = struct.pack('!BBHHHBBH', 0x40 + length // 4, services, total, identification, flags,
                         64, number, 0) + source + destination + options
    made = scapy_checksum(header) ^ wrong
    return header[:10] + struct.pack('!H', made) + header[12:] + body


def from_sample():
    """the packets of the cases before, spread over what is said of them"""
    by_kind = collections.defaultdict(dict)
    for case in known:
        operation, *words = case.split(' ')
        if operation == 'walk' and int(words[1]) < 256:
            packets = [in_ipv6(bytes.fromhex(words[0].replace('-', '')), int(words[1]))]
        elif operation in {f'v{v}.{name}' for v in (4, 6)
                           for name in ('view', 'view_header', 'view_eq', 'head', 'read')}:
            packets = [bytes.fromhex(word.replace('-', '')) for word in words]
        else:
            continue
        for packet in packets:
            try:
                parts = read_packet(packet)
                kind = (parts['version'], parts['upper'], parts['is_fragment'],
                        tuple(number for number, _ in parts.get('chain', [])))
            except Refused as error:
                # the same with more bytes is of one kind
                kind = re.sub(' len=[0-9]+', '', str(error))
            by_kind[kind][packet] = None
    # one of each kind, the longest first, then another of each; of a refusal only so many
    turns = itertools.zip_longest(*(
        sorted(of_kind, key=len, reverse=True)[:None if isinstance(kind, tuple) else MOST_REFUSED]
        for kind, of_kind in by_kind.items()))
    return [packet for turn in turns for packet in turn if packet is not None][:MOST_FROM_SAMPLE]


def text_of(address):
    return str(ipaddress.ip_address(address))


def with_checksum(version, number, datagram, place, change='right', to=None, source=NEAR6):
    """a datagram with the checksum that scapy makes, or with another one"""
    without = datagram[:place] + bytes(2) + datagram[place + 2:]
    if version == 4:
        made = in4_chksum(number, IP(src=text_of(NEAR4), dst=text_of(to or FAR4)), without)
    else:
        made = in6_chksum(number, IPv6(src=text_of(source), dst=text_of(to or FAR6)), without)
    if number == 17:
        made = made or 0xffff
    made = {'right': made, 'low bit': made ^ 1, 'high bit': made ^ 0x8000, 'none': 0,
            'exchanged': made % 256 * 256 + made // 256, 'all ones': 0xffff}[change]
    return without[:place] + struct.pack('!H', made) + without[place + 2:]


def counted(n):
    """n bytes that differ from their neighbours"""
    return bytes((7 * i + 1) % 256 for i in range(n))


def udp(version, data, change='right', length=None, behind=b'', ports=(40001, 60002)):
    length = 8 + len(data) if length is None else length
    return with_checksum(version, 17, struct.pack('!4H', *ports, length, 0) + data, 6,
                         change) + behind


def tcp(version, data=b'', options=b'', flags=0x02, change='right', offset=None, urgent=0):
    offset = 5 + len(options) // 4 if offset is None else offset
    header = struct.pack('!HHIIBBHHH', 40001, 60002, 0x01020304, 0xf5f6f7f8, offset * 16, flags,
                         0x2000, 0, urgent)
    return with_checksum(version, 6, header + options + data, 16, change)


def echo(version, data=b'', kind=None, code=0, change='right', number=0x1234, sequence=1):
    kind = (8 if version == 4 else 128) if kind is None else kind
    message = struct.pack('!BBHHH', kind, code, 0, number, sequence) + data
    if version == 6:
        return with_checksum(6, 58, message, 2, change)
    made = {'right': scapy_checksum(message), 'none': 0}.get(change, scapy_checksum(message) ^ 1)
    return message[:2] + struct.pack('!H', made) + message[4:]


def extension(number, following, units=0, fill=0, place=0):
    """an extension header; units as its second byte counts them, for a fragment its second word; the
    identification of a fragment tells its place in the chain"""
    if number == 44:
        return struct.pack('!BBHI', following, fill, units, 0x0a0b0c0d + place)
    length = (units + 2) * 4 if number == 51 else (units + 1) * 8
    # segments left of a routing header are 0, options are padding (RFC 8200 section 4.2)
    inside = bytes(length - 2) if number != 0 and number != 60 else bytes([1, length - 4]) + bytes(
        length - 4)
    return bytes([following, units]) + inside


def in_chain(numbers, upper, body, units=None):
    """extension headers in front of an upper layer, and the number of the first"""
    following = [*numbers[1:], upper]
    of = units or {}
    return numbers[0], b''.join(extension(number, n, of.get(i, 2 if number == 51 else 0), place=i)
                                for i, (number, n) in enumerate(zip(numbers, following))) + body


def carried(version, number, body, behind=b''):
    if version == 4:
        return in_ipv4(body + behind, number, 20 + len(body))
    return in_ipv6(body + behind, number, len(body))


def worked_udp(version):
    for n in 0, 1, 2, 3, 8, 15, 33, 301:
        for change in 'right', 'low bit', 'exchanged', 'none':
            yield carried(version, 17, udp(version, counted(n), change))
    for length in 0, 7, 8, 9, 17, 18, 19, 0xffff:
        yield carried(version, 17, udp(version, counted(10), length=length))
    for behind in b'\0', b'\x01', counted(4):
        yield carried(version, 17, udp(version, counted(5), behind=behind))
    for n in range(8):
        yield carried(version, 17, udp(version, b'')[:n])
    # a word that makes the sum all ones, so that 0xffff stands for 0
    word = struct.unpack('!H', udp(version, bytes(2))[6:8])[0]
    for change in 'right', 'none', 'low bit':
        yield carried(version, 17, udp(version, struct.pack('!H', word), change))


def worked_tcp(version):
    for options in b'', bytes.fromhex('020405b4'), bytes.fromhex('020405b40103030801010402'), (
            bytes.fromhex('01' * 40)):
        for n in 0, 1, 6, 33:
            for change in 'right', 'high bit':
                yield carried(version, 6, tcp(version, counted(n), options, change=change))
    for bit in range(8):
        yield carried(version, 6, tcp(version, flags=2**bit, urgent=bit))
    for change in 'right', 'exchanged':
        yield carried(version, 6, tcp(version, counted(301), change=change), b'\x01')
    for offset in 0, 4, 6, 15:
        yield carried(version, 6, tcp(version, counted(3), offset=offset))
    for n in 0, 1, 12, 19:
        yield carried(version, 6, tcp(version)[:n])
    # words that make the checksum 0, which is right here
    word = struct.unpack('!H', tcp(version, bytes(2))[16:18])[0]
    for change in 'right', 'all ones', 'low bit':
        yield carried(version, 6, tcp(version, struct.pack('!H', word), change=change))


def worked_echoes(version):
    number, other = (1, 58) if version == 4 else (58, 1)
    for n in 0, 1, 2, 7, 56, 301:
        for change in 'right', 'none':
            yield carried(version, number, echo(version, counted(n), change=change))
    yield carried(version, number, echo(version, counted(3)), b'\x01\x02')
    for kind, code in (0, 0), (3, 3), (8, 1), (8, 0), (128, 0), (128, 1), (129, 0):
        yield carried(version, number, echo(version, counted(4), kind, code))
    for n in 0, 1, 7:
        yield carried(version, number, echo(version)[:n])
    yield carried(version, number, echo(version, bytes(5), number=0, sequence=0))
    yield carried(version, number, echo(version, b'\xff' * 4, number=0xffff, sequence=0xffff))
    yield carried(version, other, echo(version, counted(2)))


def worked_ipv4():
    data = udp(4, counted(9))
    for options in b'', bytes(4), bytes([1] * 12), bytes([7, 39, 4]) + bytes(37):
        length = 20 + len(options)
        whole = length + len(data)
        for total in 0, length - 1, length, length + 7, length + 8, whole - 1, whole, whole + 1:
            yield in_ipv4(data, 17, total, options)
        yield in_ipv4(data + b'\xaa', 17, whole, options, wrong=0x0100)
    for flags in 0x2000, 1, 0x1fff, 0x3fff, 0x4000, 0x6000, 0x8000, 0xa001, 0xc000:
        yield in_ipv4(data, 17, flags=flags)
        yield in_ipv4(tcp(4, counted(4)), 6, flags=flags)
    for services in 1, 2, 3, 0xb8, 0xff:
        yield in_ipv4(data, 17, services=services)
    for number in 0, 2, 4, 41, 50, 51, 136, 255:
        yield in_ipv4(data, number)
    # checksums that translation makes 0, of the header and of the upper layer, that one also by the
    # first address alone: what it is where a word is 0 is the word that makes it so
    for number, make in (17, udp), (6, tcp):
        def with_word(n):
            return in_ipv4(make(4, struct.pack('!H', n)), number)

        def with_identification(n):
            return in_ipv4(make(4, b'zero'), number, identification=n)

        read = answer_of(with_word(0))[1]
        yield with_word(read['translated']['checksum'])
        yield with_word(updated(read[{17: 'udp', 6: 'tcp'}[number]]['checksum'], NEAR4, SOURCE))
        read = answer_of(with_identification(0))[1]
        yield with_identification(read['translated']['header_checksum'])


def worked_ipv6():
    data = udp(6, counted(9))
    for length in 0, 7, 8, len(data) - 1, len(data) + 1, 0xffff:
        yield in_ipv6(data, 17, length)
    for behind in b'\0', counted(3):
        yield in_ipv6(data + behind, 17, len(data))
    for first in 0x6fffffff, 0x60100000, 0x6b9abcde, 0x600fffff:
        yield in_ipv6(data, 17, first=first)
    for number in 4, 41, 50, 59, 136, 253, 255:
        yield in_ipv6(data, number)
    uppers = (17, data), (6, tcp(6, counted(3))), (58, echo(6, counted(3)))
    for number in EXTENSIONS:
        for upper, body in uppers:
            first, chain = in_chain([number], upper, body)
            yield in_ipv6(chain, first)
        first, chain = in_chain([number], 17, udp(6, counted(9), 'low bit'), {0: 8})
        yield in_ipv6(chain, first)
    chains = ([0, 60], [60, 43], [43, 44], [44, 60], [51, 60], [0, 60, 43, 44, 51, 60], [44, 44],
              [0, 44], [135, 60], [60, 60, 60, 60], [139, 140])
    for numbers in chains:
        for upper, body in uppers[:2]:
            first, chain = in_chain(numbers, upper, body)
            yield in_ipv6(chain, first)
    for numbers in [0, 60], [43, 44], [44, 60], [51, 44, 60], [44, 44]:
        first, chain = in_chain(numbers, 17, data)
        for length in 0, 1, 2, 7, 8, 9, 15, 16, 17:
            # cut by the length field, and by the capture
            yield in_ipv6(chain, first, length)
            yield in_ipv6(chain[:length], first, 17)
    # the offset in units of 8 bytes, two reserved bits, and the M flag
    for word in 0, 1, 6, 7, 8, 9, 0x5a8, 0xfff8, 0xffff:
        for numbers in [44], [60, 44], [44, 60]:
            first, chain = in_chain(numbers, 17, data, {numbers.index(44): word})
            yield in_ipv6(chain, first)
    # behind a fragment header with an offset nothing is a header, whatever number it names
    for number in EXTENSIONS:
        for n in 0, 1, 5, 8, 16:
            yield in_ipv6(extension(44, number, 8) + counted(n), 44)
    for one, other in (0, 1), (8, 0), (9, 9):
        first, chain = in_chain([44, 44], 6, tcp(6, counted(8)), {0: one, 1: other})
        yield in_ipv6(chain, first)


def routing(following, kind, left, inside, units=None):
    """a routing header with these bytes after its first four"""
    units = (len(inside) + 4) // 8 - 1 if units is None else units
    return bytes([following, units, kind, left]) + inside


def worked_routing():
    one, two, three = (FAR6[:15] + bytes([n]) for n in (0xa1, 0xa2, 0xa3))
    tail = [a[12:] for a in (one, two, three)]
    lists = ((0, bytes(4) + one), (0, bytes(4) + one + two + three), (0, bytes(4) + one + bytes(8)),
             (0, bytes(4)), (2, bytes(4) + two), (2, bytes(4) + one + two), (2, bytes(12)),
             # twelve bytes elided from each address, or from all but the last, and padding
             (3, bytes([0xcc, 0, 0, 0]) + tail[0] + tail[1]),
             (3, bytes([0xcc, 0x40, 0, 0]) + tail[0] + tail[1] + tail[2] + bytes(4)),
             (3, bytes([0xc0, 0x40, 0, 0]) + tail[0] + two + bytes(4)),
             (3, bytes([0, 0, 0, 0]) + one + two),
             (3, bytes([0xcc, 0x50, 0, 0]) + tail[0] + tail[1]),
             (3, bytes([0xff, 0xf0, 0, 0]) + bytes(8)), (3, bytes([0, 0xf0, 0, 0])),
             (4, bytes([0, 0, 0, 0]) + one), (4, bytes([1, 0, 0, 0]) + one + two),
             (4, bytes([1, 0, 0, 7]) + one + two + bytes([5, 6]) + bytes(6)),
             (4, bytes([2, 0, 0, 0]) + one + two), (4, bytes([0, 0, 0, 0]) + bytes(8)),
             (1, bytes(4) + one), (5, bytes(4) + one), (253, bytes(4)))
    for kind, inside in lists:
        for left in 0, 1, 2, 3:
            for to in FAR6, one, two, three:
                data = with_checksum(6, 17, udp(6, counted(5)), 6, to=to)
                yield in_ipv6(routing(17, kind, left, inside) + data, 43)
    for to in one, two:
        segment = with_checksum(6, 6, tcp(6, counted(3)), 16, to=to)
        yield in_ipv6(routing(6, 4, 1, bytes(4) + one) + segment, 43)
        # two routing headers: the second is passed after the first
        both = routing(43, 0, 1, bytes(4) + one) + routing(6, 4, 1, bytes(4) + two)
        yield in_ipv6(both + segment, 43)
        both = routing(43, 0, 1, bytes(4) + one) + routing(6, 4, 0, bytes(4) + two)
        yield in_ipv6(both + segment, 43)
        # behind destination options, and before an atomic fragment header
        yield in_ipv6(extension(60, 43) + routing(44, 0, 1, bytes(4) + one) + extension(44, 6)
                      + segment, 60)


def worked_source_routes():
    one, two, three = (FAR4[:3] + bytes([n]) for n in (0xa1, 0xa2, 0xa3))

    def route(pointer, stops, kind=131, behind=b''):
        return bytes([kind, 3 + len(stops) + len(behind), pointer]) + stops + behind

    fronts = b'', bytes([1]), bytes([148, 4, 0, 0, 1])
    stops = b'', one, one + two, one + two + three
    lists = [front + route(pointer, stop, kind) for front in fronts for stop in stops
             for kind in (131, 137) for pointer in (4, 8, 12, 16)]
    lists += [route(pointer, one + two) for pointer in (0, 1, 2, 3, 5, 6, 7, 9, 10, 11, 13, 255)]
    lists += [route(4, one, behind=bytes(n)) for n in (1, 2, 3)]
    lists += [bytes([131, 2]), bytes([131, 3, 4]), bytes([131, 1, 4]), bytes([131]),
              bytes([131, 12, 4]) + one + two, bytes([3]) + route(4, one)[1:],
              bytes([0]) + route(4, one), bytes([7, 7, 4]) + bytes(4) + route(4, one),
              bytes([68, 1]) + route(4, one), bytes([68, 40]) + route(4, one),
              # a second source route
              route(4, one) + route(4, two), route(8, one) + route(4, two, 137),
              route(5, one) + route(4, two), route(4, one, 137) + bytes([1]) + route(8, two)]
    for options in lists:
        options += bytes(-len(options) % 4)
        for to in FAR4, one, two, three:
            data = with_checksum(4, 17, udp(4, counted(5)), 6, to=to)
            yield in_ipv4(data, 17, options=options)
    for to in FAR4, two:
        segment = with_checksum(4, 6, tcp(4, counted(3)), 16, to=to)
        for pointer in 4, 8, 12:
            yield in_ipv4(segment, 6, options=route(pointer, one + two) + bytes([0]))
    yield in_ipv4(echo(4, counted(4)), 1, options=route(4, one) + bytes([0]))


def worked_shim6():
    for control in 0, 0x7f, 0x80, 0xff:
        for number, body in (17, udp(6, counted(5))), (6, tcp(6, counted(3))), (58, echo(6)):
            header = bytes([number, 0, control, 0, 1, 2, 3, 4])
            yield in_ipv6(header + body, 140)
            yield in_ipv6(extension(60, 140) + header + body, 60)


def worked_home():
    home, other = (NEAR6[:15] + bytes([n]) for n in (0xb1, 0xb2))

    def option(address, kind=201):
        return bytes([kind, len(address)]) + address

    def options(following, inside):
        """destination options with these, and padding up to a multiple of eight bytes"""
        left = -(len(inside) + 2) % 8
        inside += bytes(left) if left < 2 else bytes([1, left - 2]) + bytes(left - 2)
        return bytes([following, (len(inside) + 2) // 8 - 1]) + inside

    lists = [option(home), bytes([1, 2, 0, 0]) + option(home), bytes(1) + option(home),
             bytes([5, 2, 0, 0]) + option(home), option(home) + option(other),
             option(home) + bytes([0, 0, 30, 3, 201, 16, 0]), option(home[:15]),
             option(home + b'x'), option(b''), option(home, 202), option(home, 200),
             option(home, 73), bytes([1, 18]) + option(home), option(home) + option(other[:8]),
             bytes([1, 200]) + option(home), bytes([201])]
    for inside in lists:
        for source in NEAR6, home, other:
            data = with_checksum(6, 17, udp(6, counted(5)), 6, source=source)
            yield in_ipv6(options(17, inside) + data, 60)
    # a whole option, and two that are cut off by the end of their header
    for length in 16, 17, 255:
        header = bytes([17, 2, 1, 2, 0, 0, 201, length]) + home
        for source in NEAR6, home:
            yield in_ipv6(header + with_checksum(6, 17, udp(6, counted(5)), 6, source=source), 60)
    for source in NEAR6, home, other:
        for number, place, make in (17, 6, udp), (6, 16, tcp), (58, 2, echo):
            data = with_checksum(6, number, make(6, counted(3)), place, source=source)
            yield in_ipv6(options(number, option(home)) + data, 60)
            # in hop-by-hop options it is none; of two headers the last counts
            yield in_ipv6(options(number, option(home)) + data, 0)
            yield in_ipv6(extension(0, 60) + options(60, option(home)) + options(
                number, option(other)) + data, 0)
            # before an atomic fragment header, and behind an authentication header
            yield in_ipv6(options(44, option(home)) + extension(44, number) + data, 60)
            yield in_ipv6(extension(51, 60, 2) + options(number, option(home)) + data, 51)
            # a first fragment has no verdict
            yield in_ipv6(options(44, option(home)) + extension(44, number, 1) + data, 60)
    # from one mobile node to another
    to = FAR6[:15] + bytes([0xa1])
    for source in NEAR6, home:
        for last in FAR6, to:
            segment = with_checksum(6, 6, tcp(6, counted(3)), 16, to=last, source=source)
            yield in_ipv6(routing(60, 2, 1, bytes(4) + to) + options(6, option(home)) + segment, 43)
            yield in_ipv6(options(43, option(home)) + routing(6, 2, 1, bytes(4) + to) + segment, 60)
    # Shim6 hides the addresses, or is a control message
    for front in (options(140, option(home)) + bytes([17, 0, 0x80, 0, 1, 2, 3, 4]),
                  options(140, option(home)) + bytes([17, 0, 0, 0, 1, 2, 3, 4])):
        yield in_ipv6(front + with_checksum(6, 17, udp(6, counted(5)), 6, source=home), 60)


def worked():
    for version in 4, 6:
        for make in worked_udp, worked_tcp, worked_echoes:
            yield from make(version)
    yield from worked_ipv4()
    yield from worked_ipv6()
    yield from worked_routing()
    yield from worked_source_routes()
    yield from worked_shim6()
    yield from worked_home()


# What others tell of the same packets.

def agree(who, what, packet, told, read):
    tally[who, what] += 1
    if told != read:
        sys.exit(f'{who}, {what}: {told!r} and not {read!r}, of {packet.hex()}')


def ask_sample(packet):
    """the answers of the cases before, which the reference gave"""
    version = packet[0] // 16 if packet else 0
    hexed = packet.hex() or '-'
    if version in (4, 6) and f'v{version}.head {hexed}' in known:
        told = known[f'v{version}.head {hexed}']
        try:
            parts = (read_header4 if version == 4 else read_header6)(packet)
            agree('the reference', 'header', packet, told.split(' rest=')[0],
                  'ok ' + named(parts, FIELDS[version]))
        except Refused as error:
            agree('the reference', 'refusal of a header', packet, told, str(error))
    if version == 6 and len(packet) >= 40:
        case = f"walk {packet[40:].hex() or '-'} {packet[6]}"
        if case in known and len(packet) == 40 + int.from_bytes(packet[4:6], 'big'):
            try:
                _, number, place = read_extensions(packet[40:], packet[6], past_fragments=True)
                agree('the reference', 'upper layer', packet, known[case],
                      f'ok next={number} rest={shown(packet[40 + place:])}')
            except Refused as error:
                front, offset = known[case].rsplit('=', 1)
                agree('the reference', 'incomplete extension header', packet,
                      f'{front}={int(offset) + 40}', str(error))


def ask_scapy(packet, read):
    """the fields, the payload, checksums right or wrong, replies and translations made anew"""
    parts = read['packet']
    bare, number = (IP, 'proto') if parts['version'] == 4 else (IPv6, 'nh')
    ends = dict(src=text_of(parts['source']), dst=text_of(parts['destination']))
    ask_scapy_of_header(packet, parts, bare(packet), ends)
    sum_of = in4_chksum if parts['version'] == 4 else in6_chksum
    covered = covered_by(parts)
    covering = covered and bare(**dict(zip(('src', 'dst'), map(text_of, covered))))
    if 'udp' in read:
        ask_scapy_of_udp(packet, parts, read['udp'], sum_of, lambda: bare(**ends, **{number: 17}),
                         covering)
    if 'tcp' in read:
        is_right = bool(covering) and sum_of(6, covering, parts['payload']) == 0
        agree('scapy', 'TCP checksum', packet, is_right, read['tcp']['right'])
        ask_scapy_of_tcp(packet, TCP(parts['payload']), read['tcp'])
    if read.get('echo', {}).get('reply'):
        agree('scapy', 'echo reply', packet, reply_by_scapy(parts), read['echo']['message'])
    if 'translated' in read:
        ask_scapy_of_translation(packet, read)


def ask_scapy_of_header(packet, parts, ip, ends):
    if parts['version'] == 4:
        told = dict(dscp=ip.tos >> 2, ecn=ip.tos & 3, total_len=ip.len, identification=ip.id,
                    dont_fragment=ip.flags.DF, more_fragments=ip.flags.MF, fragment_offset=ip.frag,
                    time_to_live=ip.ttl, protocol=ip.proto, header_checksum=ip.chksum,
                    header_len=4 * ip.ihl)
    else:
        told = dict(traffic_class=ip.tc, flow_label=ip.fl, payload_length=ip.plen,
                    next_header=ip.nh, hop_limit=ip.hlim)
    for name in told:
        agree('scapy', name, packet, told[name], parts[name])
    agree('scapy', 'source', packet, ip.src, ends['src'])
    agree('scapy', 'destination', packet, ip.dst, ends['dst'])
    kept, _ = ip.extract_padding(parts['behind'])
    agree('scapy', 'bytes within the length field', packet, kept, parts['body'])


def ask_scapy_of_udp(packet, parts, udp_read, sum_of, carrier, covering):
    segment = UDP(parts['payload'])
    agree('scapy', 'UDP fields', packet,
          (segment.sport, segment.dport, segment.len, segment.chksum),
          tuple(udp_read[n] for n in 'source_port destination_port length checksum'.split()))
    if 'right' not in udp_read:
        return
    datagram = parts['payload'][:segment.len]
    is_right = bool(covering) and sum_of(17, covering, datagram) == 0
    is_none = segment.chksum == 0
    agree('scapy', 'UDP checksum', packet,
          is_right or is_none if parts['version'] == 4 else is_right and not is_none,
          udp_read['right'])
    segment = UDP(datagram)
    del segment.chksum
    front = len(carrier())
    agree('scapy', 'UDP header made', packet, bytes(carrier() / segment)[front:front + 8],
          udp_read['made'])


def ask_scapy_of_tcp(packet, segment, tcp_read):
    agree('scapy', 'TCP fields', packet,
          (segment.sport, segment.dport, segment.seq, segment.ack, segment.dataofs,
           int(segment.flags) % 256, segment.window, segment.chksum, segment.urgptr),
          tuple(tcp_read.values())[:9])
    agree('scapy', 'TCP flags', packet, tuple(flag in str(segment.flags) for flag in 'FSRA'),
          tuple(tcp_read[n] for n in 'fin syn rst ack'.split()))


def reply_by_scapy(parts):
    number, sequence = struct.unpack('!HH', parts['payload'][4:8])
    data = parts['payload'][8:]
    if parts['version'] == 4:
        return bytes(ICMP(type=0, id=number, seq=sequence) / data)
    ends = IPv6(src=text_of(parts['destination']), dst=text_of(parts['source']))
    return bytes(ends / ICMPv6EchoReply(id=number, seq=sequence, data=data))[40:]


def translated(packet, read):
    """the packet with the addresses and the checksums of a translation"""
    parts, made = read['packet'], read['translated']
    front = 4 * (packet[0] % 16)
    place = front + (6 if parts['upper'] == 17 else 16)
    body = packet[20:place] + struct.pack('!H', made['checksum']) + packet[place + 2:]
    return (packet[:10] + struct.pack('!H', made['header_checksum']) + made['source']
            + made['destination'] + body)


def ask_scapy_of_translation(packet, read):
    """computed anew where it was right before; else as wrong as it was"""
    parts, made = read['packet'], read['translated']
    name = 'tcp' if parts['upper'] == 6 else 'udp'
    after = translated(packet, read)
    front = parts['header_len']
    if scapy_checksum(packet[:front]) == 0:
        anew = scapy_checksum(after[:10] + bytes(2) + after[12:front])
        agree('scapy', 'header checksum computed anew', packet, made['header_checksum'], anew)
    else:
        agree('scapy', 'header checksum stays wrong', packet, scapy_checksum(after[:front]) != 0,
              True)
    if 'right' not in read[name] or (name == 'udp' and read[name]['checksum'] == 0):
        return
    end = front + (read['udp']['length'] if name == 'udp' else len(parts['payload']))
    place = front + (6 if name == 'udp' else 16)
    whole = IP(src=text_of(made['source']),
               dst=text_of(past_source_route(made['destination'], parts['options'])))
    if read[name]['right']:
        anew = in4_chksum(parts['upper'], whole,
                          after[front:place] + bytes(2) + after[place + 2:end])
        agree('scapy', f'{name} checksum computed anew', packet, made['checksum'],
              (anew or 0xffff) if name == 'udp' else anew)
    else:
        agree('scapy', f'{name} checksum stays wrong', packet,
              in4_chksum(parts['upper'], whole, after[front:end]) != 0, True)


PREFERENCES = '''ip.check_checksum:TRUE udp.check_checksum:TRUE tcp.check_checksum:TRUE
    ip.defragment:FALSE ipv6.defragment:FALSE tcp.desegment_tcp_streams:FALSE
    udp.ignore_ipv6_zero_checksum:FALSE ip.tso_support:FALSE'''.split()
OVER_IPV6 = '''ipv6.hopopts ipv6.dstopts ipv6.routing ipv6.fraghdr ah mipv6 hip shim6'''.split()


def tshark(packets):
    """what tshark tells of each packet: an element of protocols with their fields"""
    with tempfile.TemporaryDirectory() as folder:
        capture = os.path.join(folder, 'packets.pcap')
        with open(capture, 'wb') as file:
            # packets that begin with their IP header
            file.write(struct.pack('!IHHiIII', 0xa1b2c3d4, 2, 4, 0, 0, 2**18, 101))
            for packet in packets:
                file.write(struct.pack('!4I', 1, 0, len(packet), len(packet)) + packet)
        words = [word for preference in PREFERENCES for word in ('-o', preference)]
        ran = subprocess.run(['tshark', '-n', '-r', capture, '-T', 'pdml', *words],
                             check=True, stdout=subprocess.PIPE, stderr=subprocess.PIPE)
    told = list(xml.fromstring(ran.stdout).iter('packet'))
    if len(told) != len(packets):
        sys.exit(f'tshark told of {len(told)} packets and not of {len(packets)}')
    return told


def first_fields(told):
    """the first field of each name"""
    first = {}
    for field in told.iter('field'):
        first.setdefault(field.get('name'), field.get('show'))
    return first


def number_of(text):
    if text in ('True', 'False'):
        return int(text == 'True')
    return int(text, 16 if text.startswith('0x') else 10)


# what follows, as each extension header and both versions say it
FOLLOWING = {4: ['ip.proto'], 6: '''ipv6.nxt ipv6.hopopts.nxt ipv6.dstopts.nxt ipv6.routing.nxt
    ipv6.fraghdr.nxt ah.next_header mip6.proto hip.proto shim6.nxt'''.split()}
STATUS = {0: 'bad', 1: 'good', 2: 'unverified', 3: 'not present', 4: 'illegal'}


TOLD_OF_HEADER = {
    4: dict(dscp='ip.dsfield.dscp', ecn='ip.dsfield.ecn', total_len='ip.len',
            identification='ip.id', dont_fragment='ip.flags.df', more_fragments='ip.flags.mf',
            fragment_offset='ip.frag_offset', time_to_live='ip.ttl', protocol='ip.proto',
            header_checksum='ip.checksum', header_len='ip.hdr_len'),
    6: dict(traffic_class='ipv6.tclass', flow_label='ipv6.flow', payload_length='ipv6.plen',
            next_header='ipv6.nxt', hop_limit='ipv6.hlim')}
TOLD_OF_UDP = dict(source_port='udp.srcport', destination_port='udp.dstport', length='udp.length',
                   checksum='udp.checksum')
TOLD_OF_TCP = dict(
    source_port='tcp.srcport', destination_port='tcp.dstport', sequence_number='tcp.seq_raw',
    acknowledgment_number='tcp.ack_raw', window_size='tcp.window_size_value',
    checksum='tcp.checksum', urgent_pointer='tcp.urgent_pointer', fin='tcp.flags.fin',
    syn='tcp.flags.syn', rst='tcp.flags.reset', ack='tcp.flags.ack')


def ask_tshark(packet, read, told):
    """the fields, the chain of extension headers, checksums right or wrong"""
    parts, first = read['packet'], first_fields(told)

    def agree_on_fields(what, fields, of):
        for name, field in fields.items():
            if field in first:
                agree('tshark', what + name, packet, number_of(first[field]), int(of[name]))

    agree_on_fields('', TOLD_OF_HEADER[parts['version']], parts)
    ip = 'ip' if parts['version'] == 4 else 'ipv6'
    # in IPv4 tshark shows the final destination
    shows = parts['final'] if parts['version'] == 4 else parts['destination']
    if parts['version'] == 6 or not has_odd_route(parts['options']):
        agree('tshark', 'addresses', packet,
              [ipaddress.ip_address(first[f'{ip}.{end}']).packed for end in ('src', 'dst')],
              [parts['source'], shows])
    ask_tshark_of_chain(packet, parts, told, first)
    if 'udp' in read and 'udp.srcport' in first:
        agree_on_fields('UDP ', TOLD_OF_UDP, read['udp'])
        agree_on_status('UDP', packet, first.get('udp.checksum.status'), read['udp'], parts)
    if 'tcp' in read and 'tcp.srcport' in first:
        agree_on_fields('TCP ', TOLD_OF_TCP, read['tcp'])
        agree('tshark', 'TCP header length', packet, number_of(first['tcp.hdr_len']),
              4 * read['tcp']['data_offset'])
        agree('tshark', 'TCP flags', packet, number_of(first['tcp.flags']) % 256,
              read['tcp']['flags'])
        if read['tcp']['options']:
            agree('tshark', 'TCP options', packet,
                  bytes.fromhex(first['tcp.options'].replace(':', '')), read['tcp']['options'])
        agree_on_status('TCP', packet, first.get('tcp.checksum.status'), read['tcp'], parts)


def ask_tshark_of_chain(packet, parts, told, first):
    """the number of the upper layer, where it begins, and what the fragment header says"""
    protocols = [e for e in told if not e.get('name').startswith('_ws')]
    at = [e.get('name') for e in protocols].index('ip' if parts['version'] == 4 else 'ipv6') + 1
    while parts['version'] == 6 and at < len(protocols) and protocols[at].get('name') in OVER_IPV6:
        at += 1
    followed = [number_of(e.get('show')) for protocol in protocols[:at]
                for e in protocol.iter('field') if e.get('name') in FOLLOWING[parts['version']]]
    chain = parts.get('chain', [])
    fragments = [parts['body'][place:] for number, place in chain if number == 44]
    # tshark stops at headers of these two numbers
    end = next((parts['body'][place] for number, place in chain if number in (135, 139)), None)
    agree('tshark', 'upper layer', packet, followed[-1], parts['upper'] if end is None else end)
    if end is None and at < len(protocols) and not parts['is_fragment']:
        place = next(e.get('pos') for e in protocols[at].iter() if e.get('pos') is not None)
        agree('tshark', 'place of the upper layer', packet, int(place), parts['place'])
    if fragments and 'ipv6.fraghdr.nxt' in first:
        header = read_fragment_header(fragments[0])
        for name, end in ('next_header', 'nxt'), ('more_fragments', 'more'), (
                'identification', 'ident'), ('fragment_offset', 'offset'):
            agree('tshark', f'fragment header, {name}', packet,
                  number_of(first[f'ipv6.fraghdr.{end}']), int(header[name]))


def agree_on_status(name, packet, status, read, parts):
    """A checksum that tshark judges; none in IPv4 is right, none in IPv6 is not. Where a sender of
    TCP wrote 0xffff for 0, tshark calls it bad, for what RFC 1624 says to senders; the receiver's
    sum is all ones, which RFC 1071 section 1 calls right. By a routing header that is malformed or
    of an unknown type tshark goes to an address all the same, also by a source route whose length
    does not fit, and a payload header of Shim6 it passes. It takes a home address from any option of
    type 201, whatever its length, also in hop-by-hop options.
    """
    if status is None or 'right' not in read or name == 'TCP' and read['checksum'] == 0xffff:
        return
    if parts['final'] is None:
        tally['not asked of tshark', 'a checksum for an unknown destination'] += 1
        return
    if parts['version'] == 4 and has_odd_route(parts['options']):
        tally['not asked of tshark', 'a source route with a part of an address'] += 1
        return
    if parts['version'] == 6 and has_odd_home(parts['chain'], parts['body']):
        tally['not asked of tshark', 'a home address where none can be'] += 1
        return
    status = STATUS[number_of(status)]
    if status != 'unverified':
        agree('tshark', f'{name} checksum', packet, status in ('good', 'not present'),
              read['right'])


def has_odd_route(options):
    """a source route that ends within an address"""
    return any(kind in (131, 137) and 3 < length < len(options) - i + 1 and length % 4 != 3
               for i, (kind, length) in enumerate(zip(options, options[1:])))


def has_odd_home(chain, body):
    """whether an option of type 201 is no Home Address option, by its length or its header"""
    for number, place in chain:
        header = body[place:place + extension_len(number, body[place:])]
        kinds = [(option[0], len(option)) for option in options_of(header)]
        there = sum(length for _, length in kinds)
        if number in (0, 60) and (header[2 + there:3 + there] == bytes([201]) or any(
                kind == 201 and (number == 0 or length != 18) for kind, length in kinds)):
            return True
    return False


def ask_tshark_of_made(made):
    """what was made of packets: replies are right, translated packets as right as before"""
    for (what, packet, expected), told in zip(made, tshark([packet for _, packet, _ in made])):
        first = first_fields(told)
        for field, is_right in expected.items():
            if field in first and STATUS[number_of(first[field])] != 'unverified':
                agree('tshark', f'{what}, {field}', packet,
                      STATUS[number_of(first[field])] in ('good', 'not present'), is_right)


def made_of(packet, read):
    """replies and translated packets, each with what tshark is to say of its checksums"""
    parts = read['packet']
    if read.get('echo', {}).get('reply'):
        message = read['echo']['message']
        if parts['version'] == 4:
            yield 'reply', in_ipv4(message, 1, source=parts['destination'],
                                   destination=parts['source']), {'icmp.checksum.status': True}
        else:
            yield 'reply', in_ipv6(message, 58, source=parts['destination'],
                                   destination=parts['source']), {'icmpv6.checksum.status': True}
    if 'translated' in read and not has_odd_route(parts['options']):
        name = 'tcp' if parts['upper'] == 6 else 'udp'
        expected = {'ip.checksum.status':
                    ones_complement_sum(packet[:parts['header_len']]) == 0xffff}
        if 'right' in read[name]:
            expected[f'{name}.checksum.status'] = read[name]['right']
        yield 'translated', translated(packet, read), expected


def main():
    taken = from_sample()
    asked = dict.fromkeys(itertools.chain(taken, worked()))
    answers = {packet: answer_of(packet) for packet in asked}
    whole = {packet: read for packet, (_, read) in answers.items() if 'packet' in read}
    for packet in asked:
        ask_sample(packet)
    for packet, read in whole.items():
        ask_scapy(packet, read)
    for (packet, read), told in zip(whole.items(), tshark(list(whole))):
        ask_tshark(packet, read, told)
    ask_tshark_of_made([made for packet, read in whole.items() for made in made_of(packet, read)])
    asked_of = [(f"packet {p.hex() or '-'}", text) for p, (text, _) in answers.items()]
    for i, name in enumerate(('stdin', 'stdout')):
        with open(name, 'w') as file:
            file.writelines(lines[i] + '\n' for lines in before + asked_of + NO_CASES)
    print(f'{len(taken)} packets of the cases before, {len(asked) - len(taken)} worked ones; '
          f'{len(whole)} whole, {len(asked) - len(whole)} refused', file=sys.stderr)
    for (who, what), count in sorted(tally.items()):
        print(f'{who}: {what}: {count}', file=sys.stderr)


with open('stdin') as cases, open('stdout') as answers_before:
    before = [(case, answer) for case, answer
              in zip(cases.read().split('\n')[:-1], answers_before.read().split('\n')[:-1])
              if case.split(' ')[0].split('.')[0] != 'packet']
known = dict(before)
main()
