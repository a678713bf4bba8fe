"""sample.py: writes the cases of stdin (SAMPLE.md). It reads worked_examples.txt beside it."""
import os

U8, U16, U32, U64 = 2**8 - 1, 2**16 - 1, 2**32 - 1, 2**64 - 1
H4 = [1, 2, 100, 3, 1, 0, 4, 5, 6, 7, '01020304', '05060708', '0a0b0c0d']
H4_MOST = [63, 3, U16, U16, 1, 1, 8191, U8, U8, U16, None, None, None]
H6 = [171, 5, 6, 7, 8, '00' * 15 + '01', 'ff' * 16]
H6_MOST = [U8, 2**20 - 1, U16, U8, U8, None, None]
LEN = [20, 19, 'Slice', 'Ipv4Header', 4]
LEN_MOST = [U64, U64, None, None, U64]
BARE4, BARE6 = '45000014' + '00' * 16, '60' + '00' * 39
LAYERS = '''LinuxSllHeader Ethernet2Header EtherPayload VlanHeader MacsecHeader MacsecPacket
    IpHeader Ipv4Header Ipv4Packet IpAuthHeader Ipv6Header Ipv6Packet Ipv6ExtHeader
    Ipv6HopByHopHeader Ipv6DestOptionsHeader Ipv6RouteHeader Ipv6FragHeader UdpHeader UdpPayload
    TcpHeader Icmpv4 Icmpv4Timestamp Icmpv4TimestampReply Icmpv6 Arp'''.split()
VALUE_TYPES = '''VlanId VlanPcp MacsecAn MacsecShortLen IpFragmentOffset IpDscp IpEcn Ipv6FlowLabel
    Ipv4PayloadLength Ipv6PayloadLength UdpPayloadLengthIpv4 UdpPayloadLengthIpv6
    TcpPayloadLengthIpv4 TcpPayloadLengthIpv6 Icmpv6PayloadLength LinuxSllType'''.split()
KNOWN = 0, 1, 8, 10, 12, 14, 16, 18, 20, 22, 24, 26, 28, 30, 32, 34, 36, 38, 40, 44, 46, 48, 56
SPACE = [2, 1, 'Ipv4Header', 4]
SPACE_MOST = [U64, U64, None, U64]
LEN_SOURCES = '''Slice MacsecShortLength Ipv4HeaderTotalLen Ipv6HeaderPayloadLen UdpHeaderLen
    TcpHeaderLen ArpAddrLengths'''.split()
SKIPPABLE = [0, 43, 44, 51, 60, 135, 139, 140]
TOO_MANY, TOO_MANY_MOST = [32, 60, 256], [U64, U8, U64]
WIDTHS = ('u8', U8), ('u16', U16), ('u32', U32), ('usize', U64)
lines = {}


def say(*words):
    """one case, unless it is there"""
    lines[' '.join(str(word) for word in words if word != '')] = None


def each_bound(front, arguments, greatest, back=''):
    """the case with each bounded argument at 0, the greatest and one above"""
    for i, most in enumerate(greatest):
        for n in (0, most, most + 1) if most is not None else ():
            say(front, *arguments[:i], n, *arguments[i + 1:], back)


def numbers(most):
    """0 to 64, each power of ten with its neighbours, and the greatest"""
    powers = [10**i for i in range(20) if 10**i <= most]
    return [*range(65), *(n for power in powers for n in (power - 1, power, power + 1)), most]


def each_number(front, arguments, greatest):
    """the case with each argument that is a number at all of these, the others as they are"""
    for i, most in enumerate(greatest):
        for n in numbers(most) if most is not None else ():
            say(front, *arguments[:i], n, *arguments[i + 1:])


def written(hexed, at, byte):
    """bytes with one of them written"""
    return hexed[:2 * at] + '%02x' % byte + hexed[2 * at + 2:]


def fields():
    bounded = ('dscp', 63, U8), ('frag', 8191, U16), ('flow', 2**20 - 1, U32), ('ecn', 3, U8)
    for field, most, width in bounded:
        for way in 'new', 'try':
            for n in 0, 1, 2, 3, most - 1, most, most + 1, width, width + 1:
                say(f'{field}.{way}', n)
        for a, b in (0, 0), (0, most), (most, 0), (most, most), (most + 1, 0), (0, most + 1):
            say('field.cmp', field, a, b)
    for a, b in (0, 0), (0, U8), (U8, 0), (U8, U8):
        say('field.cmp ipnum', a, b)


def known_code_points():
    for n in range(65):
        say('known', n)
    for a in KNOWN:
        for b in KNOWN:
            say('known.cmp', a, b)
    say('known.cmp', 9, 8)
    say('known.cmp', 8, 9)


def options():
    for n in range(46):
        say('opt', '5a' * n or '-')
    for n in range(0, 41, 4):
        say('opt.arr', 'a5' * n or '-')
    for i in 0, 39, 40:
        say('opt.set', '11' * 40, i, 7)
    for value in 0, U8, U8 + 1:
        say('opt.set', '01020304', 3, value)
    lists = '-', '00000000', '00000001', 'ff' * 40
    for a in lists:
        for b in lists:
            say('opt.cmp', a, b)


def reads():
    for way in 'view', 'view_header', 'head', 'read':
        for first in '44', '45', '46', '4f', '35', '55':
            for n in 0, 1, 18, 19, 20, 21, 23, 24, 25, 58, 59, 60, 61:
                say(f'v4.{way}', (first + '00' * 60)[:2 * n] or '-')
        for first in '50', '60', '6f', '70':
            for n in 0, 1, 38, 39, 40, 41:
                say(f'v6.{way}', (first + 'a5' * 60)[:2 * n] or '-')
        for at, bits in (1, '01 02 04 80'), (6, '10 20 40 80'), (7, '01 80'):
            for bit in bytes.fromhex(bits):
                say(f'v4.{way}', written(BARE4, at, bit))
        for at in range(1, 20):
            say(f'v4.{way}', written(BARE4, at, 0xff))
        for at in range(1, 40):
            say(f'v6.{way}', written(BARE6, at, 0xff))
    for total_len in 0, 19, 20, 21, U16:
        say('v4.view', '4500%04x' % total_len + '00' * 16)


def setters():
    for n in 0, 1, 65514, 65515, 65516, U16, U16 + 1:
        say('v4.new', n, 1, 2, '01020304', '05060708')
    each_bound('v4.new', [100, 64, 17, '01020304', '05060708'], [None, U8, U8, None, None])
    for room, held in (65515, '-'), (65511, '0a0b0c0d'), (65475, 'ff' * 40):
        for n in 0, room, room + 1, U64, U64 + 1:
            say('v4.set_payload_len', n, *H4[:12], held)
    for n in 0, 1, 3, 4, 5, 39, 40, 41, 44:
        say('v4.set_options', '77' * n or '-', *H4)
    for n in 0, U16, U16 + 1, U64, U64 + 1:
        say('v6.set_payload_length', n, *H6)
    for n in 0, 1, 2, 3, 4:
        say('v6.set_ecn', n, *H6)
    for n in 0, 63, 64:
        say('v6.set_dscp', n, *H6)
    for front in 'v4.set_payload_len 80', 'v4.set_options 01020304':
        each_bound(front, H4, H4_MOST)
    for front in 'v6.set_payload_length 80', 'v6.set_ecn 1', 'v6.set_dscp 1', 'v6.info':
        each_bound(front, H6, H6_MOST)


def equal_headers():
    for version, header, most in ('v4', H4, H4_MOST), ('v6', H6, H6_MOST):
        say(f'{version}.eq', *header, *header)
        each_bound(f'{version}.eq', header, most, ' '.join(map(str, header)))
        for i, word in enumerate(header):
            if most[i] is None:
                say(f'{version}.eq', *header[:i], '00' * (len(word) // 2), *header[i + 1:], *header)
    say('v4.eq', *H4, *H4[:12], '-')
    for other in BARE4, BARE4 + 'ff', written(BARE4, 6, 0x80), '46' + '00' * 23, '44' + '00' * 19:
        say('v4.view_eq', BARE4, other)
    for other in BARE6, BARE6 + 'ff', written(BARE6, 39, 1), '50' + '00' * 39:
        say('v6.view_eq', BARE6, other)


def walks():
    for n in range(U8 + 2):
        say('ipnum', n)
    for operation in 'skip', 'walk', 'walk.counted':
        for number in SKIPPABLE:
            for second in 0, 1, 2:
                header = '3b%02x' % second + '5a' * 24
                for n in 0, 1, 2, 7, 8, 9, 11, 12, 13, 15, 16, 17, 23, 24, 25:
                    say(operation, header[:2 * n] or '-', number)
            longest = '06ff' + '00' * 2046
            for n in 1027, 1028, 2047, 2048:
                say(operation, longest[:2 * n], number)
        for number in 1, 42, 45, 50, 52, 59, 61, 134, 136, 138, 141, 253, 254, U8, U8 + 1:
            for held in '-', '00', '0000', '2c00' + '00' * 14:
                say(operation, held, number)
        for first in SKIPPABLE:
            for second in SKIPPABLE:
                chain = '%02x' % second + '00' * 7 + '11' + '00' * 7 + 'ff'
                for n in 8, 9, 10, 15, 16, 17:
                    say(operation, chain[:2 * n], first)
        chain = ''.join('%02x' % number + '00' * 7 for number in [*SKIPPABLE[1:], 6])
        for n in range(65):
            say(operation, chain[:2 * n] or '-', 0)


def limited_walks():
    each = ''.join('%02x' % number + '00' * 7 for number in [*SKIPPABLE[1:], 6])
    for limit in [*range(10), U64, U64 + 1]:
        for n in 0, 1, 8, 23, 24, 25, 56, 57, 63, 64:
            say('walk.limit', each[:2 * n] or '-', 0, limit)
        for n in 0, 1, 2, 7, 8, 9, 15, 16, 17, 24, 72, 80:
            say('walk.limit', '00' * n or '-', 0, limit)
        for number in 59, 50, 253, U8 + 1:
            for held in '-', '00':
                say('walk.limit', held, number, limit)
    for number in SKIPPABLE:
        for second in 0, 1, 2:
            header = '3b%02x' % second + '5a' * 24
            for n in 0, 1, 2, 7, 8, 12, 16, 24, 25:
                for limit in 0, 1:
                    say('walk.limit', header[:2 * n] or '-', number, limit)
        for limit in 0, 1, 2:
            say('walk.limit', '%02x' % number + '00' * 7 + '11' + '00' * 7 + 'ff', 0, limit)


def names():
    for layer in LAYERS:
        say('layer', layer)
        say('text.len 2 1 Slice', layer, 0)
        say('text.len 1 2 Slice', layer, 7)
        say('text.swse 2 1', layer, 0)
        say('text.swse 2 1', layer, 7)
        for other in LAYERS:
            say('layer.cmp', layer, other)
    for value_type in VALUE_TYPES:
        say('value_type', value_type)
        say('text.too_big u8 3 2', value_type)
        for other in VALUE_TYPES:
            say('value_type.cmp', value_type, other)
    for source in LEN_SOURCES:
        for required, found in (2, 1), (1, 1), (1, 2):
            for offset in 0, 4:
                say('text.len', required, found, source, 'Ipv4Packet', offset)


def errors():
    for front in 'text.len', 'text.v4 len', 'text.v6 len', 'text.chain len':
        each_bound(front, LEN, LEN_MOST)
    each_bound('text.chain too_many', TOO_MANY, TOO_MANY_MOST)
    for name in 'v4.version', 'v4.ihl', 'v6.version':
        for front in f'text.{name}', 'text.' + name.replace('.', ' '):
            each_bound(front, [4], [U8])
    each_bound('text.bad_options', [3], [U64])
    each_bound('text.unknown', [9], [U8])
    each_bound('text.swse', SPACE, SPACE_MOST)
    back = ' '.join(map(str, ['/', *SPACE]))
    each_bound('eq.swse', SPACE, SPACE_MOST, back)
    for layer in 'Ipv4Header', 'Ipv6Header':
        say('eq.swse 2 1', layer, 4, back)
    for operation, kind in ('eq.len', ''), ('eq.v4', 'len'), ('eq.v6', 'len'), ('eq.chain', 'len'):
        back = ' '.join(map(str, ['/', kind, *LEN] if kind else ['/', *LEN]))
        say(operation, kind, *LEN, back)
        say(operation, kind, 20, 19, 'TcpHeaderLen', 'Ipv4Header', 4, back)
        say(operation, kind, 20, 19, 'Slice', 'Ipv6Header', 4, back)
        each_bound(f'{operation} {kind}'.strip(), LEN, LEN_MOST, back)
    for width, most in WIDTHS:
        each_bound(f'text.too_big {width}', [4, 3, 'IpEcn'], [most, most, None])
        each_bound(f'eq.too_big {width}', [4, 3, 'IpEcn'], [most, most, None], '/ 4 3 IpEcn')
        for value_type in 'IpEcn', 'IpDscp':
            say('eq.too_big', width, '4 3 IpEcn / 4 3', value_type)
    length = 'len 20 19 Slice Ipv4Header 4'
    for other in 'version 4', 'version 5', 'ihl 4', length:
        say('eq.v4 version 4 /', other)
    for other in 'ihl 4', 'ihl 3', length:
        say('eq.v4 ihl 4 /', other)
    for other in 'version 6', 'version 5', length:
        say('eq.v6 version 6 /', other)
    for other in 'too_many 32 60 256', length:
        say('eq.chain too_many 32 60 256 /', other)
    each_bound('eq.chain too_many', TOO_MANY, TOO_MANY_MOST, '/ too_many 32 60 256')


def texts():
    # a length that is too small, and one that is too great
    for lengths in (U64, 0), (0, U64):
        each_number('text.len', [*lengths, *LEN[2:]], LEN_MOST)
    for front in 'text.v4 len', 'text.v6 len', 'text.chain len':
        each_number(front, LEN, LEN_MOST)
    each_number('text.chain too_many', TOO_MANY, TOO_MANY_MOST)
    for name in 'v4.version', 'v4.ihl', 'v6.version':
        for front in f'text.{name}', 'text.' + name.replace('.', ' '):
            each_number(front, [4], [U8])
    each_number('text.bad_options', [3], [U64])
    each_number('text.unknown', [9], [U8])
    each_number('text.swse', SPACE, SPACE_MOST)
    for width, most in WIDTHS:
        each_number(f'text.too_big {width}', [4, 3, 'IpEcn'], [most, most, None])


def counted(n):
    """n bytes that differ from their neighbours"""
    return bytes((7 * i + 1) % 256 for i in range(n)).hex() or '-'


def sums():
    for width, most in (32, U32), (64, U64):
        words = (2, 4) if width == 32 else (2, 4, 8)
        for start in 0, 1, U16, most - U16, most - 1, most, most + 1:
            say(f'c{width}.fold', start)
            for n in words:
                but_one = n - 1
                for word in ('00' * n, '01' + '00' * but_one, '00' * but_one + '01',
                             'fe' + 'ff' * but_one, 'ff' * n, '12' * but_one):
                    say(f'c{width}.add{n}', start, word)
            for n in [*range(10), 15, 16, 17]:
                for piece in '00' * n, 'ff' * n, 'fffe' * (n // 2) + 'ff' * (n % 2), counted(n):
                    say(f'c{width}.slice', start, piece or '-')
        for n in [*range(10, 131), *range(318, 322), *range(382, 386), *range(415, 418),
                  511, 512, 768, 1500, 1501]:
            say(f'c{width}.slice', 0, counted(n))
            say(f'c{width}.slice', most, 'ff' * n)
        for pieces in ('', '-', '- -', '01 0203', '010203', '- 01 - 0203', '0203 01', '0102 03',
                       '01 02 03', 'ff ff', 'ffff 00'):
            say(f'c{width}.slices', pieces)
    steps = ('2:ffff', '2:0100', '4:ffffffff', '8:' + 'ff' * 8, '8:fcffffff03000000',
             '16:' + 'ff' * 16, '16:' + counted(16))
    say('sum')
    say('sum.eq /')
    for a in steps:
        say('sum', a)
        say('sum', a, 's:' + counted(21), a)
        say('sum.eq', a, '/')
        for b in steps:
            say('sum', a, b)
            say('sum.eq', a, '/', b)
            say('sum.eq', a, b, '/', b, a)
    for n in 0, 1, 2, 3, 8, 15, 330:
        say('sum', 's:' + counted(n))
    say('sum.eq', *['4:ffffffff'] * 4, '/', '8:fcffffff03000000')
    say('sum.eq 2:ffff / 2:ffff 2:ffff')
    each_bound('v4.info', H4, H4_MOST)
    for options in '-', '00000000', 'ff' * 40:
        for checksum in 0, 1, U16:
            say('v4.info 0 0 115 0 1 0 0 64 17', checksum, 'c0a80001 c0a800c7', options)
            say('v4.info 0 0 0 31232 1 0 0 0 255', checksum, '00000000 00000000', options)


def updates():
    words = 0, 1, U8, U8 + 1, 2**15 - 1, 2**15, U16 - 1, U16
    for checksum in *words, U16 + 1:
        for old in words:
            for new in words:
                say('upd', checksum, '%04x' % old, '%04x' % new)
    for old, new in ('-', '0000'), ('0000', '000000'), ('00', '0000'):
        say('upd 0', old, new)
    for time in 0, 1, 63, 64, U8, U8 + 1:
        for checksum in 0, 1, 0x3f, 0x40, 0xb861, U16 - 1, U16:
            for protocol in 0, 17, U8:
                for held in 0, 64, U8:
                    say('v4.set_ttl', time, '0 0 115 0 1 0 0', held, protocol, checksum,
                        'c0a80001 c0a800c7 -')
    each_bound('v4.set_ttl 9', H4, H4_MOST)


def offsets():
    for offset in 0, 1, 40, U64 - 256, U64 - 255, U64, U64 + 1:
        say('off.chain', offset, 'too_many', *TOO_MANY)
    for place in 0, U64 - 1, U64, U64 + 1:
        say('off.chain 1 too_many 32 0', place)
    each_bound('off.chain 5 too_many', TOO_MANY, [U64, U8, None])
    for front in 'off.len', 'off.v4', 'off.v6', 'off.chain':
        kind = [] if front == 'off.len' else ['len']
        for offset in 0, 1, 200, U64 - 4, U64 - 3, U64, U64 + 1:
            say(front, offset, *kind, *LEN)
        for place in 0, U64 - 1, U64:
            say(front, 1, *kind, *LEN[:4], place)
    for content in 'v4 5 version 6', 'v4 5 ihl 4', 'v6 5 version 4':
        say('off.' + content)
    for version in 'v4', 'v6':
        say(f'off.{version}', U64, 'version 1')


for name in 'fields', 'headers', 'dscp', 'known', 'ipnum', 'ip_number', 'layers', 'value_types':
    say('const.' + name)
for name in 'fields', 'v4', 'v6':
    say('default.' + name)
for part in (fields, known_code_points, options, reads, setters, equal_headers, walks,
             limited_walks, names, errors, texts, offsets, sums, updates):
    part()
for no_case in ('', ' ', 'nothing', 'dscp.new', 'dscp.new 1 2', 'dscp.new x', 'dscp.old 1', 'opt',
                'opt 4', 'opt 0g', 'opt.arr 01', 'layer Nothing', 'layer',
                'value_type IpDscp IpDscp', 'text.len 1 2 Slice', 'text.too_big u64 1 2 IpDscp',
                'text.swse 2 1 Slice Ipv4Header 4', 'off.len 1', 'off.v5 1 version 4', 'known',
                'known.cmp 8', 'known.new 8', 'v4.eq 1', 'v4.view_eq 45 45', 'v6.view_eq 60 60',
                'const.fields 1', 'const.nothing', 'default.nothing', 'skip 00', 'skip.all 00 0',
                'walk 00 0 0', 'walk.all 00 0', 'walk.limit 00 0', 'walk.limit 00 0 1 1',
                'text.chain version 6', 'upd 0 0000', 'upd.x 0 0000 0000', 'v4.set_ttl 1', 'ipnum',
                'ipnum.x 0', 'c32.add8 0 00', 'c16.fold 0', 'sum x', 'sum 3:000000', 'sum.eq',
                'sum.eq / /'):
    lines[no_case] = None


def each_first_byte():
    """reads at each length up to 60, behind each first byte"""
    for first in range(U8 + 1):
        for n in range(61):
            held = ('%02x' % first + 'a5' * 60)[:2 * n] or '-'
            for read in 'v4.head', 'v4.view', 'v6.head', 'v6.view':
                say(read, held)


with open(os.path.join(os.path.dirname(__file__), 'worked_examples.txt')) as examples:
    for example in examples.read().splitlines():
        if example == 'each first byte':
            each_first_byte()
        else:
            say(example)
print('\n'.join(lines))
