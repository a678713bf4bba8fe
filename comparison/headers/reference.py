#!/usr/bin/env python3
"""What headers, options and built packets are: a reference for the cases `link`, `ext`, `udp`, `tcp`, `icmp` and `build`.

    reference.py < cases > answers      answers cases, a line each

It is written from the standards that stand beside each layout. A header is read as one number, of which each field is some bits. The
names of fields, kinds and errors, and which error comes first, are those of `docs/SPECIFICATION.md`.
"""
import sys


class Layout:
    """The fields of a header, each with its bits; `-` is reserved: read as any value and written as 0."""

    def __init__(self, layer, text):
        self.layer, self.fields, at, self.kept = layer, [], 0, 0
        for name, bits in reversed([field.split(':') for field in text.split()]):
            mask = (1 << int(bits)) - 1
            if name != '-':
                self.fields.append((name, at, mask))
                self.kept |= mask << at
            at += int(bits)
        self.fields.reverse()
        self.len = at // 8

    def read(self, held):
        """The fields at the front of some bytes, and the bytes that say the same with what is reserved as 0."""
        number = int.from_bytes(held[:self.len], 'big')
        fields = {name: number >> at & mask for name, at, mask in self.fields}
        return fields, (number & self.kept).to_bytes(self.len, 'big')

    def written(self, fields):
        """The bytes of these fields."""
        return sum(fields[name] << at for name, at, _ in self.fields).to_bytes(self.len, 'big')

    def too_short(self, held):
        """Why some bytes that are fewer are no such header."""
        return too_short(self.len, held, self.layer)


# IEEE 802.3 section 3.1.1; IEEE 802.1Q section 9.6, from after the EtherType of the tag.
ETHERNET2 = Layout('Ethernet2Header', 'destination:48 source:48 ether_type:16')
VLAN = Layout('VlanHeader', 'pcp:3 drop_eligible_indicator:1 vlan_id:12 ether_type:16')
# https://www.tcpdump.org/linktypes/LINKTYPE_LINUX_SLL.html and LINKTYPE_LINUX_SLL2.html.
SLL = Layout('LinuxSllHeader', 'packet_type:16 arp_hrd_type:16 sender_address_valid_length:16 sender_address:64 protocol_type:16')
SLL2 = Layout('LinuxSllHeader', 'protocol_type:16 -:16 interface_index:32 arp_hrd_type:16 packet_type:8 '
              'sender_address_valid_length:8 sender_address:64')
# RFC 826.
ARP = Layout('Arp', 'hw_addr_type:16 proto_addr_type:16 hw_addr_size:8 protocol_addr_size:8 operation:16')
# RFC 4302 section 2; RFC 8200 sections 4.5 and 4.3.
AUTH = Layout('IpAuthHeader', 'next_header:8 payload_len:8 -:16 spi:32 sequence_number:32')
FRAGMENT = Layout('Ipv6FragHeader', 'next_header:8 -:8 fragment_offset:13 -:2 more_fragments:1 identification:32')
RAW = Layout('Ipv6ExtHeader', 'next_header:8 len:8 payload:48')
# RFC 768; RFC 9293 section 3.1, with the bit of RFC 3540.
UDP = Layout('UdpHeader', 'source_port:16 destination_port:16 length:16 checksum:16')
TCP = Layout('TcpHeader', 'source_port:16 destination_port:16 sequence_number:32 acknowledgment_number:32 data_offset:4 -:3 ns:1 '
             'cwr:1 ece:1 urg:1 ack:1 psh:1 rst:1 syn:1 fin:1 window_size:16 checksum:16 urgent_pointer:16')
TCP_NUMBERS = ['source_port', 'destination_port', 'sequence_number', 'acknowledgment_number', 'data_offset', 'window_size', 'checksum',
               'urgent_pointer']
TCP_FLAGS = ['ns', 'cwr', 'ece', 'urg', 'ack', 'psh', 'rst', 'syn', 'fin']
# RFC 791 section 3.1 and RFC 2474; RFC 8200 section 3.
IPV4 = Layout('Ipv4Header', 'version:4 ihl:4 dscp:6 ecn:2 total_len:16 identification:16 -:1 dont_fragment:1 more_fragments:1 '
              'fragment_offset:13 time_to_live:8 protocol:8 header_checksum:16 source:32 destination:32')
IPV4_ARGUMENTS = ['dscp', 'ecn', 'total_len', 'identification', 'dont_fragment', 'more_fragments', 'fragment_offset', 'time_to_live',
                  'protocol', 'header_checksum', 'source', 'destination']
IPV6 = Layout('Ipv6Header', 'version:4 traffic_class:8 flow_label:20 payload_length:16 next_header:8 hop_limit:8 source:128 '
              'destination:128')
IPV6_ARGUMENTS = ['traffic_class', 'flow_label', 'payload_length', 'next_header', 'hop_limit', 'source', 'destination']
# What the type of an ICMP message is followed by (RFC 792; RFC 1191 section 4; RFC 4861 sections 4.2 and 4.4).
ECHO = Layout('', 'id:16 seq:16')
ROUTER = Layout('', 'cur_hop_limit:8 managed_address_config:1 other_config:1 -:6 router_lifetime:16')
NEIGHBOR = Layout('', 'router:1 solicited:1 override_flag:1 -:29')
TIMESTAMP = Layout('', 'id:16 seq:16 originate_timestamp:32 receive_timestamp:32 transmit_timestamp:32')


# Words of cases and answers.

def raw(word):
    return b'' if word == '-' else bytes.fromhex(word)


def shown(held):
    return held.hex() or '-'


def flag(value):
    return 'true' if value else 'false'


def too_short(required, held, layer, offset=0, source='Slice'):
    return f'err len required={required} len={len(held)} source={source} layer={layer} offset={offset}'


def too_big(actual, most, name):
    return f'err too_big actual={actual} max={most} type={name}'


def named(fields, names):
    return ' '.join([f'{name}={fields[name]}' for name in names])


def header(fields, rest, written):
    return f'ok {fields} rest={shown(rest)} bytes={shown(written)}'


# Sums.

def checksum(held):
    """The complement of the ones-complement sum of 16-bit words, the last one padded with a zero (RFC 1071)."""
    number = int.from_bytes(held + b'\0' * (len(held) % 2), 'big')
    return 65535 - (number % 65535 or 65535) if number else 65535


def pseudo_header(source, destination, protocol, length):
    """RFC 768, RFC 9293 section 3.1; RFC 8200 section 8.1."""
    if len(source) == 4:
        return source + destination + bytes([0, protocol]) + length.to_bytes(2, 'big')
    return source + destination + length.to_bytes(4, 'big') + bytes([0, 0, 0, protocol])


def udp_checksum(source, destination, fields, payload):
    """A sum of 0 is sent as all ones (RFC 768)."""
    front = UDP.written({**fields, 'checksum': 0})
    return checksum(pseudo_header(source, destination, 17, fields['length']) + front + payload) or 65535


def tcp_checksum(source, destination, front, payload):
    """`front` is the header, of which bytes 16 and 17 count as 0."""
    front = front[:16] + b'\0\0' + front[18:]
    return checksum(pseudo_header(source, destination, 6, len(front) + len(payload)) + front + payload)


# Link headers and ARP.

def ethernet2(held):
    if len(held) < 14:
        return ETHERNET2.too_short(held)
    fields, written = ETHERNET2.read(held)
    return header('destination=%012x source=%012x ether_type=%d' % tuple(fields.values()), held[14:], written)


def tag(fields):
    return (f'pcp={fields["pcp"]} drop_eligible_indicator={flag(fields["drop_eligible_indicator"])} vlan_id={fields["vlan_id"]} '
            f'ether_type={fields["ether_type"]}')


def vlan(held):
    if len(held) < 4:
        return VLAN.too_short(held)
    fields, written = VLAN.read(held)
    return header(tag(fields), held[4:], written)


def double_vlan(held):
    if len(held) < 8:
        return too_short(8, held, 'VlanHeader')
    (outer, front), (inner, back) = VLAN.read(held), VLAN.read(held[4:])
    if outer['ether_type'] not in (0x8100, 0x88a8, 0x9100): # 0x9100 is older than the standard's
        return 'err NonVlanEtherType { unexpected_ether_type: EtherType(%d) }' % outer['ether_type']
    return header(f'outer {tag(outer)} inner {tag(inner)}', held[8:], front + back)


def sll(held):
    if len(held) < 16:
        return SLL.too_short(held)
    fields, written = SLL.read(held)
    numbers = named(fields, ['packet_type', 'arp_hrd_type', 'sender_address_valid_length', 'protocol_type'])
    return header(f'{numbers} sender_address={fields["sender_address"]:016x}', held[16:], written)


def sll2(held):
    if len(held) < 20:
        return SLL2.too_short(held)
    fields, written = SLL2.read(held)
    numbers = named(fields, ['protocol_type', 'interface_index', 'arp_hrd_type', 'packet_type', 'sender_address_valid_length'])
    return header(f'{numbers} sender_address={fields["sender_address"]:016x}', held[20:], written)


ARP_NUMBERS = ['hw_addr_type', 'proto_addr_type', 'hw_addr_size', 'protocol_addr_size', 'operation']


def arp(held):
    if len(held) < 8:
        return ARP.too_short(held)
    fields, front = ARP.read(held)
    hw, protocol = fields['hw_addr_size'], fields['protocol_addr_size']
    size = 8 + 2 * (hw + protocol)
    if len(held) < size:
        return too_short(size, held, 'Arp', source='ArpAddrLengths')
    addresses, at = [], 8
    for length in (hw, protocol, hw, protocol):
        addresses.append(held[at:at + length])
        at += length
    text = arp_fields(fields, addresses)
    return header(text, held[size:], front + b''.join(addresses)) + ' ; ' + arp_eth_ipv4(fields, addresses)


def arp_fields(fields, addresses):
    return ('%s sender_hw_addr=%s sender_protocol_addr=%s target_hw_addr=%s target_protocol_addr=%s'
            % (named(fields, ARP_NUMBERS), *map(shown, addresses)))


def arp_eth_ipv4(fields, addresses):
    """The packet as one of Ethernet and IPv4, or why it is none."""
    for name, of, wanted in (('NonMatchingHwType(ArpHardwareId(%d))', 'hw_addr_type', 1),
                             ('NonMatchingProtocolType(EtherType(%d))', 'proto_addr_type', 0x0800),
                             ('NonMatchingHwAddrSize(%d)', 'hw_addr_size', 6),
                             ('NonMatchingProtoAddrSize(%d)', 'protocol_addr_size', 4)):
        if fields[of] != wanted:
            return 'err ' + name % fields[of]
    written = bytes([0, 1, 8, 0, 6, 4]) + fields['operation'].to_bytes(2, 'big') + b''.join(addresses)
    return ('ok operation=%d sender_mac=%s sender_ipv4=%s target_mac=%s target_ipv4=%s bytes=%s'
            % (fields['operation'], *map(shown, addresses), shown(written)))


def arp_new(hw_type, proto_type, operation, *words):
    addresses = [raw(word) for word in words]
    sender_hw, sender_protocol, target_hw, target_protocol = map(len, addresses)
    for kind, sender, target in ('HwAddr', sender_hw, target_hw), ('ProtoAddr', sender_protocol, target_protocol):
        if sender != target:
            return f'err {kind}(LenNonMatching({sender}, {target}))'
        if sender > 255:
            return f'err {kind}(LenTooBig({sender}))'
    fields = dict(zip(ARP_NUMBERS, [int(hw_type), int(proto_type), sender_hw, sender_protocol, int(operation)]))
    return header(arp_fields(fields, addresses), b'', ARP.written(fields) + b''.join(addresses))


# Extension headers.

def auth_fields(fields, icv):
    return f'{named(fields, ["next_header", "spi", "sequence_number"])} icv={shown(icv)}'


def auth(held):
    if len(held) < 12:
        return AUTH.too_short(held)
    fields, front = AUTH.read(held)
    if fields['payload_len'] == 0:
        return 'err ZeroPayloadLen'
    size = 4 * (fields['payload_len'] + 2) # in 4-byte units, minus 2
    if len(held) < size:
        return too_short(size, held, 'IpAuthHeader')
    return header(auth_fields(fields, held[12:size]), held[size:], front + held[12:size])


def auth_new(next_header, spi, sequence_number, word):
    icv = raw(word)
    if len(icv) > 1016:
        return f'err TooBig({len(icv)})'
    if len(icv) % 4:
        return f'err Unaligned({len(icv)})'
    fields = {'next_header': int(next_header), 'payload_len': len(icv) // 4 + 1, 'spi': int(spi),
              'sequence_number': int(sequence_number)}
    return header(auth_fields(fields, icv), b'', AUTH.written(fields) + icv)


def fragment_fields(fields):
    return (f'next_header={fields["next_header"]} fragment_offset={fields["fragment_offset"]} '
            f'more_fragments={flag(fields["more_fragments"])} identification={fields["identification"]}')


def fragment(held):
    if len(held) < 8:
        return FRAGMENT.too_short(held)
    fields, written = FRAGMENT.read(held)
    return header(fragment_fields(fields), held[8:], written)


def raw_fields(held):
    return f'next_header={held[0]} payload={shown(held[2:])}'


def raw_header(held):
    if len(held) < 8:
        return RAW.too_short(held)
    size = 8 + 8 * held[1] # in 8-octet units, not including the first 8 octets
    if len(held) < size:
        return too_short(size, held, 'Ipv6ExtHeader')
    return header(raw_fields(held[:size]), held[size:], held[:size])


def raw_new(next_header, word):
    payload = raw(word)
    for name, refused in ('TooSmall', len(payload) < 6), ('TooBig', len(payload) > 2046), ('Unaligned', (len(payload) + 2) % 8):
        if refused:
            return f'err {name}({len(payload)})'
    written = bytes([int(next_header), (len(payload) + 2) // 8 - 1]) + payload
    return header(raw_fields(written), b'', written)


KINDS = {0: 'hop_by_hop', 43: 'routing', 60: 'destination_options', 44: 'fragment', 51: 'authentication', 135: '', 139: '', 140: ''}


def chain(first, word):
    """RFC 8200 section 4; of 135, 139 and 140 RFC 6275, RFC 7401 and RFC 5533."""
    held, number, at, found = raw(word), int(first), 0, []
    while number in KINDS:
        left = held[at:]
        size = 2 if len(left) < 2 else 8 if number == 44 else 4 * left[1] + 8 if number == 51 else 8 * left[1] + 8
        if len(left) < size:
            found.append(too_short(size, left, 'Ipv6ExtHeader', at))
            return ' ; '.join([*found, f'next_header=59 rest=- offset={at}'])
        one = left[:size]
        if number == 44:
            text = 'fragment ' + fragment_fields(FRAGMENT.read(one)[0])
        elif number == 51 and one[1]:
            text = 'authentication ' + auth_fields(AUTH.read(one)[0], one[12:])
        else:
            text = (KINDS[number] if number != 51 and KINDS[number] else f'other number={number}') + ' ' + raw_fields(one)
        found.append('ok ' + text)
        number, at = one[0], at + size
    return ' ; '.join([*found, f'next_header={number} rest={shown(held[at:])} offset={at}'])


# Options of IP.

def incomplete(kind, required, left, at):
    return f'IncompleteOption {{ option_type: {kind}, required_len: {required}, len: {left}, offset: {at} }}'


def options4(held):
    """RFC 791 section 3.1: two cases of an option; the length counts the type and itself."""
    at, found, error = 0, [], None
    while at < len(held) and held[at] != 0 and error is None:
        kind, left = held[at], len(held) - at
        size = 1 if kind == 1 else held[at + 1] if left > 1 else None
        if size is None:
            error = f'err Incomplete({incomplete(kind, 2, left, at)})'
        elif kind != 1 and size < 2:
            error = f'err LengthBelowTwo {{ option_type: {kind}, option_length: {size}, offset: {at} }}'
        elif size > left:
            error = f'err Incomplete({incomplete(kind, size, left, at)})'
        else:
            found.append(f'ok type={kind} class={kind // 32 % 4} number={kind % 32} copied={flag(kind >= 128)} '
                         f'data={shown(held[at + 2:at + size])} ; ')
            at += size
    return options_end(found, error, at, held)


def options6(held):
    """RFC 8200 section 4.2: Pad1 has neither length nor data; the length counts the data."""
    at, found, error = 0, [], None
    while at < len(held) and error is None:
        kind, left = held[at], len(held) - at
        size = 1 if kind == 0 else 2 if left == 1 else 2 + held[at + 1]
        if size > left:
            error = f'err {incomplete(kind, size, left, at)}'
            break
        action = ('Skip', 'Discard', 'DiscardAndReport', 'DiscardAndReportUnlessMulticast')[kind // 64]
        found.append(f'ok type={kind} action={action} may_change={flag(kind & 32)} padding={flag(kind < 2)} '
                     f'data={shown(held[at + 2:at + size])} ; ')
        at += size
    return options_end(found, error, at, held)


def options_end(found, error, at, held):
    if error is None:
        return ''.join(found) + f'offset={at} count=ok {len(found)}'
    return ''.join(found) + f'{error} ; offset={len(held)} count={error}'


def append(count, *words):
    """Options that are written where there is room for 62 bytes."""
    held, found = b'', []
    for kind, word in zip(map(int, words[::2]), words[1::2]):
        held_data = raw(word)
        size = 1 if kind == 0 else 2 + len(held_data)
        if len(held_data) > (255 if kind else 0):
            found.append(f'err DataTooLong({len(held_data)}) ; ')
        elif len(held) + size > 62:
            found.append(f'err NotEnoughSpace({len(held) + size}) ; ')
        else:
            found.append('ok ; ')
            held += bytes([kind]) + (bytes([len(held_data)]) + held_data if kind else b'')
    return ''.join(found) + shown(held)


# UDP and TCP.

def udp(held):
    if len(held) < 8:
        return UDP.too_short(held)
    fields, written = UDP.read(held)
    return header(named(fields, fields), held[8:], written)


def udp_new(source_port, destination_port, payload_len):
    if int(payload_len) > 65535 - 8:
        return too_big(payload_len, 65535 - 8, 'UdpPayloadLengthIpv4')
    return f'ok source_port={source_port} destination_port={destination_port} length={8 + int(payload_len)} checksum=0'


def udp_sum(source, destination, word):
    held = raw(word)
    if len(held) < 8:
        return UDP.too_short(held)
    source, destination, payload = raw(source), raw(destination), held[8:]
    if len(source) == 4 and len(payload) > 65527:
        return too_big(len(payload), 65527, 'UdpPayloadLengthIpv4')
    return f'ok {udp_checksum(source, destination, UDP.read(held)[0], payload)}'


def tcp_refused(held):
    """Why no TCP header is there."""
    if len(held) < 20:
        return TCP.too_short(held)
    offset = held[12] >> 4
    if offset < 5:
        return f'err data_offset offset={offset}'
    return too_short(4 * offset, held, 'TcpHeader') if len(held) < 4 * offset else None


def tcp_parts(held):
    """The fields, the header's bytes with what is reserved as 0, and the rest."""
    fields, front = TCP.read(held)
    size = 4 * fields['data_offset']
    return fields, front + held[20:size], held[size:]


def tcp(held):
    refused = tcp_refused(held)
    if refused:
        return refused
    fields, written, rest = tcp_parts(held)
    flags = ' '.join([f'{name}={flag(fields[name])}' for name in TCP_FLAGS])
    return header(f'{named(fields, TCP_NUMBERS)} {flags} options={shown(written[20:])}', rest, written)


def tcp_sum(source, destination, word):
    held = raw(word)
    refused = tcp_refused(held)
    if refused:
        return refused
    source, destination = raw(source), raw(destination)
    _, front, payload = tcp_parts(held)
    if len(source) == 4 and len(front) + len(payload) > 65535:
        return too_big(len(payload), 65535 - len(front), 'TcpPayloadLengthIpv4')
    return f'ok {tcp_checksum(source, destination, front, payload)}'


def number_at(held, at, size=4):
    return int.from_bytes(held[at:at + size], 'big')


# Kinds of one length (RFC 9293 section 3.2, RFC 7323, RFC 2018).
TCP_OPTIONS = {
    2: (4, lambda o: f'MaximumSegmentSize({number_at(o, 2, 2)})'),
    3: (3, lambda o: f'WindowScale({o[2]})'),
    4: (2, lambda o: 'SelectiveAcknowledgementPermitted'),
    8: (10, lambda o: f'Timestamp({number_at(o, 2)}, {number_at(o, 6)})'),
}


def acknowledged(held):
    """The blocks of kind 5 (RFC 2018)."""
    blocks = [f'({number_at(held, at)}, {number_at(held, at + 4)})' for at in range(2, len(held), 8)]
    others = [f'Some({block})' for block in blocks[1:]] + ['None'] * (4 - len(blocks))
    return f'SelectiveAcknowledgement({blocks[0]}, [{", ".join(others)}])'


def tcp_option(held):
    """The option at the front, and its length; or an error, and None."""
    kind = held[0]
    if kind == 1:
        return 'Noop', 1
    if kind in TCP_OPTIONS:
        size = TCP_OPTIONS[kind][0]
    elif kind == 5:
        if len(held) > 1 and held[1] not in (10, 18, 26, 34):
            return f'UnexpectedSize {{ option_id: 5, size: {held[1]} }}', None
        size = held[1] if len(held) > 1 else 2
    else:
        return f'UnknownId({kind})', None
    if len(held) < size:
        return f'UnexpectedEndOfSlice {{ option_id: {kind}, expected_len: {size}, actual_len: {len(held)} }}', None
    if held[1] != size:
        return f'UnexpectedSize {{ option_id: {kind}, size: {held[1]} }}', None
    return (acknowledged(held[:size]) if kind == 5 else TCP_OPTIONS[kind][1](held)), size


def tcp_options(held):
    found = []
    while held and held[0] != 0:
        text, size = tcp_option(held)
        if size is None:
            return ''.join(found) + f'err {text} ; rest=-'
        found.append(f'ok {text} ; ')
        held = held[size:]
    return ''.join(found) + 'rest=-'


def raw_options(held):
    if len(held) > 40:
        return f'err NotEnoughSpace({len(held)})'
    return 'ok ' + shown(held + bytes(-len(held) % 4))


def elements(count, *words):
    left, held = list(words), b''

    def number(size=4):
        return int(left.pop(0)).to_bytes(size, 'big')

    for _ in range(int(count)):
        name = left.pop(0)
        if name == 'noop':
            held += b'\1'
        elif name == 'mss':
            held += b'\2\4' + number(2)
        elif name == 'scale':
            held += b'\3\3' + number(1)
        elif name == 'permitted':
            held += b'\4\2'
        elif name == 'timestamp':
            held += b'\x08\x0a' + number() + number()
        else:
            blocks = number() + number()
            for _ in range(3):
                if left.pop(0) == '1':
                    blocks += number() + number()
            held += bytes([5, 2 + len(blocks)]) + blocks
    return raw_options(held)


# ICMP.

UNREACHABLE4 = ['Network', 'Host', 'Protocol', 'Port', 'FragmentationNeeded', 'SourceRouteFailed', 'NetworkUnknown', 'HostUnknown',
                'Isolated', 'NetworkProhibited', 'HostProhibited', 'TosNetwork', 'TosHost', 'FilterProhibited',
                'HostPrecedenceViolation', 'PrecedenceCutoff'] # RFC 792, RFC 1122 section 3.2.2.1, RFC 1812 section 5.2.7.1
REDIRECT4 = ['RedirectForNetwork', 'RedirectForHost', 'RedirectForTypeOfServiceAndNetwork', 'RedirectForTypeOfServiceAndHost']
EXCEEDED4 = ['TtlExceededInTransit', 'FragmentReassemblyTimeExceeded']
UNREACHABLE6 = ['NoRoute', 'Prohibited', 'BeyondScope', 'Address', 'Port', 'SourceAddressFailedPolicy', 'RejectRoute']
EXCEEDED6 = ['HopLimitExceeded', 'FragmentReassemblyTimeExceeded']
# RFC 4443 section 3.4, RFC 7112, RFC 8754, RFC 8883.
PROBLEM6 = ['ErroneousHeaderField', 'UnrecognizedNextHeader', 'UnrecognizedIpv6Option', 'Ipv6FirstFragmentIncompleteHeaderChain',
            'SrUpperLayerHeaderError', 'UnrecognizedNextHeaderByIntermediateNode', 'ExtensionHeaderTooBig',
            'ExtensionHeaderChainTooLong', 'TooManyExtensionHeaders', 'TooManyOptionsInExtensionHeader', 'OptionTooBig']


def listed(held):
    return '[' + ', '.join(map(str, held)) + ']'


def record(name, layout, held, flags=()):
    fields, _ = layout.read(held)
    texts = [f'{key}: {flag(value) if key in flags else value}' for key, value in fields.items()]
    return f'{name} {{ {", ".join(texts)} }}'


def icmpv4_kind(kind, code, rest):
    """What a message is, and the bytes after its checksum as they are written (RFC 792)."""
    unused = bytes(4)
    if kind == 3 and code < len(UNREACHABLE4):
        if code == 4: # RFC 1191 section 4
            mtu = rest[2:4]
            return f'DestinationUnreachable(FragmentationNeeded {{ next_hop_mtu: {number_at(mtu, 0, 2)} }})', bytes(2) + mtu
        return f'DestinationUnreachable({UNREACHABLE4[code]})', unused
    if kind == 5 and code < len(REDIRECT4):
        return (f'Redirect(RedirectHeader {{ code: {REDIRECT4[code]}, gateway_internet_address: {listed(rest[:4])} }})', rest[:4])
    if kind == 11 and code < len(EXCEEDED4):
        return f'TimeExceeded({EXCEEDED4[code]})', unused
    if kind == 12 and code == 0:
        return f'ParameterProblem(PointerIndicatesError({rest[0]}))', rest[:1] + bytes(3)
    if kind == 12 and code in (1, 2): # RFC 1122 section 3.2.2.5, RFC 1108
        return f'ParameterProblem({("", "MissingRequiredOption", "BadLength")[code]})', unused
    if code == 0 and kind in (0, 8):
        return f'{"EchoRequest" if kind else "EchoReply"}({record("IcmpEchoHeader", ECHO, rest)})', rest[:4]
    if code == 0 and kind in (13, 14):
        name = 'TimestampRequest' if kind == 13 else 'TimestampReply'
        return f'{name}({record("TimestampMessage", TIMESTAMP, rest)})', rest[:16]
    return unknown(kind, code, rest)


def unknown(kind, code, rest):
    return f'Unknown {{ type_u8: {kind}, code_u8: {code}, bytes5to8: {listed(rest[:4])} }}', rest[:4]


def icmpv6_kind(kind, code, rest):
    """RFC 4443 and RFC 4861."""
    unused, number = bytes(4), number_at(rest, 0)
    if kind == 1 and code < len(UNREACHABLE6):
        return f'DestinationUnreachable({UNREACHABLE6[code]})', unused
    if kind == 3 and code < len(EXCEEDED6):
        return f'TimeExceeded({EXCEEDED6[code]})', unused
    if kind == 4 and code < len(PROBLEM6):
        return f'ParameterProblem(ParameterProblemHeader {{ code: {PROBLEM6[code]}, pointer: {number} }})', rest[:4]
    if code == 0 and kind == 2:
        return f'PacketTooBig {{ mtu: {number} }}', rest[:4]
    if code == 0 and kind in (128, 129):
        return f'{("EchoRequest", "EchoReply")[kind - 128]}({record("IcmpEchoHeader", ECHO, rest)})', rest[:4]
    if code == 0 and kind == 134:
        fields = record('RouterAdvertisementHeader', ROUTER, rest, ('managed_address_config', 'other_config'))
        return f'RouterAdvertisement({fields})', ROUTER.read(rest)[1]
    if code == 0 and kind == 136:
        fields = record('NeighborAdvertisementHeader', NEIGHBOR, rest, ('router', 'solicited', 'override_flag'))
        return f'NeighborAdvertisement({fields})', NEIGHBOR.read(rest)[1]
    if code == 0 and kind in (133, 135, 137):
        return {133: 'RouterSolicitation', 135: 'NeighborSolicitation', 137: 'Redirect'}[kind], unused
    return unknown(kind, code, rest)


def icmp(held, kind_of):
    """The text of the fields, the header's bytes as they are written, and the payload."""
    kind, rest = kind_of(held[0], held[1], held[4:])
    text = f'type={held[0]} code={held[1]} checksum={number_at(held, 2, 2)} kind={kind}'
    return text, held[:4] + rest, held[4 + len(rest):]


def icmpv4(held):
    if len(held) < 8:
        return too_short(8, held, 'Icmpv4')
    if held[0] in (13, 14) and held[1] == 0 and len(held) < 20:
        return too_short(20, held, 'Icmpv4Timestamp' if held[0] == 13 else 'Icmpv4TimestampReply')
    text, written, payload = icmp(held, icmpv4_kind)
    made = checksum(written[:2] + b'\0\0' + written[4:] + payload)
    return header(text, payload, written) + f' calc={made}'


def icmpv6(source, destination, word):
    held = raw(word)
    if len(held) < 8:
        return too_short(8, held, 'Icmpv6')
    text, written, payload = icmp(held, icmpv6_kind)
    pseudo = pseudo_header(raw(source), raw(destination), 58, 8 + len(payload))
    made = checksum(pseudo + written[:2] + b'\0\0' + written[4:] + payload)
    return header(text, payload, written) + f' calc=ok {made}'


# Packets that are built.

def built_ip(left, protocol, upper_len):
    """The IP header before so many bytes, its addresses and its EtherType; or why there is none."""
    version = left.pop(0)
    if version == '4':
        words = {name: left.pop(0) for name in IPV4_ARGUMENTS}
        source, destination, options = raw(words.pop('source')), raw(words.pop('destination')), raw(left.pop(0))
        most = 65535 - 20 - len(options)
        if upper_len > most:
            return too_big(upper_len, most, 'Ipv4PayloadLength')
        fields = {name: int(word) for name, word in words.items()}
        fields.update(version=4, ihl=5 + len(options) // 4, total_len=20 + len(options) + upper_len, protocol=protocol, header_checksum=0,
                      source=number_at(source, 0), destination=number_at(destination, 0))
        fields['header_checksum'] = checksum(IPV4.written(fields) + options)
        return IPV4.written(fields) + options, source, destination, 0x0800
    words = {name: left.pop(0) for name in IPV6_ARGUMENTS}
    source, destination = raw(words.pop('source')), raw(words.pop('destination'))
    if upper_len > 65535:
        return too_big(upper_len, 65535, 'Ipv6PayloadLength')
    fields = {name: int(word) for name, word in words.items()}
    fields.update(version=6, payload_length=upper_len, next_header=protocol, source=number_at(source, 0, 16),
                  destination=number_at(destination, 0, 16))
    return IPV6.written(fields), source, destination, 0x86dd


def link_front(left):
    """The link header but for its EtherType, which comes last; None if there is none."""
    name = left.pop(0)
    if name == 'ethernet2':
        source, destination = raw(left.pop(0)), raw(left.pop(0))
        return destination + source
    if name == 'sll':
        names = ['packet_type', 'arp_hrd_type', 'sender_address_valid_length']
        fields = {name: int(left.pop(0)) for name in names}
        return SLL.written({**fields, 'sender_address': number_at(raw(left.pop(0)), 0, 8), 'protocol_type': 0})[:14]
    return None


def with_link(front, tags, ether_type):
    """The link header and the tags: each EtherType says what comes next, a service's tag before a customer's (802.1Q section 9.5)."""
    types = [0x88a8, 0x8100][2 - len(tags):] + [ether_type]
    front += types[0].to_bytes(2, 'big')
    for (pcp, drop, vlan_id), after in zip(tags, types[1:]):
        front += VLAN.written({'pcp': pcp, 'drop_eligible_indicator': drop, 'vlan_id': vlan_id, 'ether_type': after})
    return front


def segment_of(upper, words, source, destination, payload):
    """The transport header and the payload, with the checksum."""
    if upper == 'udp':
        fields = {'source_port': int(words[0]), 'destination_port': int(words[1]), 'length': 8 + len(payload)}
        fields['checksum'] = udp_checksum(source, destination, fields, payload)
        return UDP.written(fields) + payload
    if upper == 'tcp':
        front = tcp_parts(raw(words[0]))[1]
        made = tcp_checksum(source, destination, front, payload)
        return front[:16] + made.to_bytes(2, 'big') + front[18:] + payload
    return payload


def build(room, *words):
    left, room = list(words), int(room)
    front = link_front(left)
    tags = [[int(left.pop(0)) for _ in range(3)] for _ in range(('none', 'single', 'double').index(left.pop(0)))]
    ip_words = [left.pop(0) for _ in range(14 if left[0] == '4' else 8)]
    upper, payload = left.pop(0), raw(left.pop())
    protocol = {'udp': 17, 'tcp': 6}.get(upper) or int(left[0])
    upper_len = {'udp': 8, 'tcp': 4 * (raw(left[0])[12] >> 4) if upper == 'tcp' else 0, 'ip': 0}[upper] + len(payload)
    ip_len = 20 + len(raw(ip_words[13])) if ip_words[0] == '4' else 40
    size = (0 if front is None else len(front) + 2) + 4 * len(tags) + ip_len + upper_len
    made = built_ip(ip_words, protocol, upper_len)
    if isinstance(made, str):
        return f'size={size} {made} memory={shown(bytes(room))}'
    if room < size:
        return f'size={size} err space required={size} memory={shown(bytes(room))}'
    ip, source, destination, ether_type = made
    packet = ip + segment_of(upper, left, source, destination, payload)
    if front is not None:
        packet = with_link(front, tags, ether_type) + packet
    return f'size={size} ok {size} memory={shown(packet + bytes(room - size))}'


# Fields.

def bounded(word, width, most, name):
    """A field of a VLAN tag by its number (IEEE 802.1Q section 9.6)."""
    if int(word) >= 1 << width:
        return 'bad line'
    if int(word) > most:
        return too_big(word, most, name)
    return f'ok value={word} into={word} text={word}'


BYTES = {
    'link.ethernet2': ethernet2, 'link.vlan': vlan, 'link.double_vlan': double_vlan, 'link.sll': sll, 'link.sll2': sll2,
    'link.arp': arp, 'ext.auth': auth, 'ext.fragment': fragment, 'ext.raw': raw_header, 'ext.options4': options4,
    'ext.options6': options6, 'udp.head': udp, 'tcp.head': tcp, 'tcp.options': tcp_options, 'tcp.raw_options': raw_options,
    'icmp.v4': icmpv4,
}
WORDS = {
    'link.arp_new': arp_new, 'ext.auth_new': auth_new, 'ext.raw_new': raw_new, 'ext.append': append, 'ext.chain': chain,
    'udp.new': udp_new, 'udp.v4': udp_sum, 'udp.v6': udp_sum, 'tcp.elements': elements, 'tcp.v4': tcp_sum, 'tcp.v6': tcp_sum,
    'icmp.v6': icmpv6, 'build': build,
    'vlan_id.new': lambda word: bounded(word, 16, 4095, 'VlanId'), 'vlan_id.try': lambda word: bounded(word, 16, 4095, 'VlanId'),
    'vlan_pcp.new': lambda word: bounded(word, 8, 7, 'VlanPcp'), 'vlan_pcp.try': lambda word: bounded(word, 8, 7, 'VlanPcp'),
}


def answer(case):
    """The answer to a case; `bad line` if its words are none of an operation's."""
    operation, *words = case.split(' ')
    if operation in BYTES:
        return BYTES[operation](raw(*words))
    return WORDS[operation](*words)


def main():
    for line in sys.stdin:
        print(answer(line.rstrip('\n')))


if __name__ == '__main__':
    main()
