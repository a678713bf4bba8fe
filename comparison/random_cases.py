"""random_cases.py [--seed S] [--count N] [--only PREFIX,..] [--except PREFIX,..] [--max-len N]
random_cases.py --iphead [--seed S] [--count N] [--max-len N]

Random cases of PROTOCOL.md, one a line; the same arguments give the same cases. `--only` keeps,
`--except` leaves out the operations whose names begin with one of the prefixes, as `v4.,walk`.
`--max-len` is the greatest length of a slice, 600 without it. `--iphead` writes inputs of the
program `iphead` in the place of calls of the library."""
import argparse
import random

parser = argparse.ArgumentParser(usage=__doc__)
parser.add_argument('--seed', type=int, default=1)
parser.add_argument('--count', type=int, default=10000)
parser.add_argument('--only', default='')
parser.add_argument('--except', dest='left_out', default='')
parser.add_argument('--max-len', type=int, default=600)
parser.add_argument('--iphead', action='store_true')
asked = parser.parse_args()
dice = random.Random(asked.seed)
pick, up_to, between = dice.choice, lambda most: dice.randint(0, most), dice.randint

U8, U16, U32, U64 = 2**8 - 1, 2**16 - 1, 2**32 - 1, 2**64 - 1
FLOW_LABEL, OFFSET = 2**20 - 1, 2**13 - 1
SKIPPABLE = [0, 43, 44, 51, 60, 135, 139, 140]
OTHER_NUMBERS = [1, 4, 6, 17, 41, 42, 45, 50, 52, 58, 59, 61, 134, 136, 138, 141, 142, 253, 254,
                 255]
LENGTHS = [*range(6), *range(7, 10), *range(15, 26), 27, 28, 36, *range(39, 45), 47, 48, 56,
           *range(59, 62), 64]
KNOWN = [0, 1, 8, 10, 12, 14, 16, 18, 20, 22, 24, 26, 28, 30, 32, 34, 36, 38, 40, 44, 46, 48, 56]
LAYERS = '''LinuxSllHeader Ethernet2Header EtherPayload VlanHeader MacsecHeader MacsecPacket
    IpHeader Ipv4Header Ipv4Packet IpAuthHeader Ipv6Header Ipv6Packet Ipv6ExtHeader
    Ipv6HopByHopHeader Ipv6DestOptionsHeader Ipv6RouteHeader Ipv6FragHeader UdpHeader UdpPayload
    TcpHeader Icmpv4 Icmpv4Timestamp Icmpv4TimestampReply Icmpv6 Arp'''.split()
VALUE_TYPES = '''VlanId VlanPcp MacsecAn MacsecShortLen IpFragmentOffset IpDscp IpEcn Ipv6FlowLabel
    Ipv4PayloadLength Ipv6PayloadLength UdpPayloadLengthIpv4 UdpPayloadLengthIpv6
    TcpPayloadLengthIpv4 TcpPayloadLengthIpv6 Icmpv6PayloadLength LinuxSllType'''.split()
LEN_SOURCES = '''Slice MacsecShortLength Ipv4HeaderTotalLen Ipv6HeaderPayloadLen UdpHeaderLen
    TcpHeaderLen ArpAddrLengths'''.split()


def chance(part):
    return dice.random() < part


def near(most, *bounds):
    """a number from 0 to `most`, often at a bound or beside one"""
    kind = dice.random()
    if kind < 0.5:
        return min(max(pick([*bounds, 0, most]) + pick((-1, 0, 0, 1)), 0), most)
    if kind < 0.7:
        return up_to(min(most, 70))
    if kind < 0.8:
        return dice.getrandbits(between(1, most.bit_length())) & most
    return up_to(most)


def some_bytes(length):
    """bytes that are all 00, all ff, a mixture of both, nearly all 0, or any"""
    kinds = ([0], [U8], [0, U8], [0, 0, 0, 1, 128, 254, U8, up_to(U8)], range(256), range(256))
    return bytes(dice.choices(pick(kinds), k=length))


def hexed(given):
    return bytes(given).hex() or '-'


def some_length():
    if chance(0.6):
        return pick(LENGTHS)
    return up_to(70 if chance(0.85) else asked.max_len)


def folded(number):
    return 0 if number == 0 else 1 + (number - 1) % U16


def checksum_of(given):
    """RFC 1071 section 1, with the high byte of each word first"""
    return U16 - folded(sum(byte << 8 * (at % 2 == 0) for at, byte in enumerate(given)))


def ipv4_bytes():
    """a header with bytes after it, or something near to one"""
    length = some_length()
    given = bytearray(some_bytes(max(length, 60)))
    ihl = pick((0, 1, 4, 5, 5, 5, 6, 15, up_to(15)))
    if chance(0.6):
        ihl = min(15, max(0, max(5, length // 4) + pick((-1, 0, 0, 0, 1))))
    given[0] = (4 if chance(0.85) else up_to(15)) * 16 + ihl
    if chance(0.5):
        given[6] = pick((0, 0x1f, 0x20, 0x3f, 0x40, 0x60, 0x80, 0x9f, 0xa0, 0xc0, 0xe0, 0xff))
    if chance(0.5):
        given[2:4] = near(U16, 19, 20, 4 * ihl).to_bytes(2, 'big')
    if chance(0.3):
        header_len = max(20, min(length, 4 * ihl))
        given[10:12] = bytes(2)
        given[10:12] = checksum_of(given[:header_len]).to_bytes(2, 'big')
        if chance(0.2):
            given[up_to(header_len - 1)] ^= 1 << up_to(7)
    return bytes(given[:length])


def ipv6_bytes():
    length = some_length()
    given = bytearray(some_bytes(max(length, 40)))
    given[0] = (6 if chance(0.85) else up_to(15)) * 16 + up_to(15)
    return bytes(given[:length])


def extension_header(number, next_number, is_short):
    second = pick((0, 0, 0, 0, 0, 1, 1, 2, 3, U8 if chance(0.1) else 4))
    if is_short:
        second = 0 if chance(0.9) else second % 4
    if number == 44:
        second, length = pick((0, second, 1, U8)), 8
    else:
        length = (second + 2) * 4 if number == 51 else (second + 1) * 8
    return bytes([next_number, second]) + some_bytes(length - 2)


def chain(most=10):
    """the number of the first extension header, and extension headers with bytes after them"""
    first = number = pick(SKIPPABLE if chance(0.93) else OTHER_NUMBERS)
    is_long = most >= 40 and chance(0.4)
    headers = between(30, 36) if is_long else pick((0, 1, 1, 2, 2, 3, 4, up_to(most)))
    given = b''
    for left in range(headers - 1, -1, -1):
        following = pick(SKIPPABLE)
        if left == 0 and chance(0.5 if is_long else 0.8):
            following = pick(OTHER_NUMBERS + [up_to(U8)])
        if left > 0 and chance(0.003 if is_long else 0.03):
            following = pick(OTHER_NUMBERS)
        given += extension_header(number, following, is_long)
        number = following
    given += some_bytes(pick((0, 0, 1, 2, 7, 8, up_to(20))))
    if chance(0.35):
        given = given[:max(0, len(given) - pick((1, 1, 2, 6, 7, 8, 9, up_to(len(given)))))]
    return first, given


def ipv6_packet(most):
    number, headers = chain(most)
    given = bytearray(some_bytes(40))
    given[0], given[6] = 0x60 + up_to(15), number
    payload_length = len(headers) if chance(0.5) else near(U16)
    given[4:6] = payload_length.to_bytes(2, 'big')
    return bytes(given) + headers


def some_options():
    return some_bytes(pick((0, 0, 4, 8, 36, 40, 4 * up_to(10))))


def ipv4_fields():
    lengths = 19, 20, 23, 24, 59, 60, 115
    return [near(63), near(3), near(U16, *lengths), near(U16), up_to(1), up_to(1), near(OFFSET, 1),
            near(U8), near(U8), near(U16), hexed(some_bytes(4)), hexed(some_bytes(4)),
            hexed(some_options())]


def ipv4_header():
    return words(*ipv4_fields())


def ipv4_header_with_checksum():
    """with the right checksum, which is often 0, in either of its forms"""
    fields = ipv4_fields()
    dscp, ecn, total_len, _, dont_fragment, more, offset, time, protocol, _, *rest = fields
    source, destination, held = (bytes.fromhex(word.strip('-')) for word in rest)
    flags = dont_fragment << 14 | more << 13 | offset

    def written(identification):
        numbers = total_len, identification, flags, time << 8 | protocol, 0
        return bytes([69 + len(held) // 4, dscp << 2 | ecn]) + b''.join(
            number.to_bytes(2, 'big') for number in numbers) + source + destination + held

    if chance(0.2):
        fields[3] = checksum_of(written(0))
    checksum = checksum_of(written(fields[3]))
    fields[9] = U16 if checksum == 0 and chance(0.5) else checksum
    return words(*fields)


def ipv6_header():
    return words(near(U8), near(FLOW_LABEL), near(U16), near(U8), near(U8), hexed(some_bytes(16)),
                 hexed(some_bytes(16)))


def words(*given):
    return ' '.join(map(str, given))


def twice(make, between_them=' / '):
    """the same twice, or with one number changed, or two different ones"""
    first = make()
    second = first if chance(0.5) else make()
    if chance(0.3):
        changed = first.split(' ')
        numbers = [at for at, word in enumerate(changed) if word.isdigit() and len(word) < 8]
        if numbers:
            at = pick(numbers)
            changed[at] = str(abs(int(changed[at]) - 1))
        second = ' '.join(changed)
    return first + between_them + second


def len_error():
    required = near(U64, 20, 40, 60)
    found = pick((required, max(required - 1, 0), min(required + 1, U64), near(U64, 20, 40)))
    offset = pick((0, 0, 1, 4, 40, near(U64)))
    return words(required, found, pick(LEN_SOURCES), pick(LAYERS), offset)


def space_error():
    return words(near(U64), near(U64), pick(LAYERS), pick((0, 1, near(U64))))


def ipv4_error():
    return pick((lambda: 'len ' + len_error(), lambda: f'version {near(U8, 4)}',
                 lambda: f'ihl {near(U8, 4, 5)}'))()


def ipv6_error():
    return pick((lambda: 'len ' + len_error(), lambda: f'version {near(U8, 6)}'))()


def chain_error():
    return pick((lambda: 'len ' + len_error(),
                 lambda: f'too_many {near(U64, 32)} {near(U8)} {pick((0, 1, 40, near(U64)))}'))()


def moved(make):
    """an error, and before it what is added to its offset; the sum fits"""
    error = make()
    has_offset = error.startswith('too_many') or len(error.split(' ')) >= 5
    room = U64 - (int(error.split(' ')[-1]) if has_offset else 0)
    added = pick((0, min(1, room), min(40, room), max(room - 1, 0), room, up_to(room)))
    return f'{added} {error}'


def too_big(in_pairs):
    width, most = pick((('u8', U8), ('u16', U16), ('u32', U32), ('usize', U64)))

    def error():
        return words(near(most), near(most), pick(VALUE_TYPES))

    return f'{width} ' + (twice(error) if in_pairs else error())


def start(width):
    most = 2**width - 1
    return pick((0, 0, most, most - 1, U16 - 1, U16, U16 + 1, U16 * up_to(most // U16),
                 near(most, U16, U16 + 1), up_to(most)))


def piece():
    if asked.max_len > 600 and chance(0.03):
        return some_bytes(up_to(asked.max_len))
    return some_bytes(pick((*range(10), 15, 16, 17, 31, up_to(40), up_to(100))))


def pieces():
    return words(*(hexed(piece()) for _ in range(pick((0, 1, 1, 2, 2, 3, 4, up_to(9))))))


def steps(most, kinds):
    made = []
    for _ in range(up_to(most)):
        kind = pick(kinds)
        made.append(f'{kind}:{hexed(piece() if kind == "s" else some_bytes(int(kind)))}')
    return made


def equal_sums():
    """steps whose sums are often the same number, or the same but for a fold"""
    first = steps(5, ('2', '4', '8', '16'))
    second = pick((first, first[::-1], steps(5, ('2', '4', '8', '16')), first + ['2:ffff'],
                   first + ['2:0000']))
    if chance(0.2):
        first, second = ['4:ffffffff'] * 4, ['8:fcffffff03000000']
    if chance(0.2):
        first, second = first + ['8:' + 'ff' * 8], second + ['8:' + 'ff' * 8]
    return words(*first, '/', *second)


def update():
    old, new = some_bytes(2), some_bytes(2)
    checksum = near(U16)
    if chance(0.3):
        checksum = min(max(U16 - int.from_bytes(old, 'big') + pick((-1, 0, 1)), 0), U16)
    return words(checksum, hexed(old), hexed(old if chance(0.3) else new))


def two_views(make, least, first_byte):
    """two slices that begin with headers, often equal but for a bit or what follows"""
    first = make()
    first = bytearray(first + bytes(max(0, least - len(first))))
    first[0] = first_byte(first[0])
    second = bytearray(first)
    kind = dice.random()
    if kind < 0.4:
        second[between(1, len(second) - 1)] ^= 1 << up_to(7)
    elif kind < 0.6:
        second[6] ^= 0x80
    elif kind < 0.8:
        second += some_bytes(between(1, 9))
    return words(hexed(first), hexed(second))


def to_set_payload_len():
    fields = ipv4_fields()
    room = 65515 - len(fields[12].strip('-')) // 2
    return words(pick((near(U64, 65515), room + pick((-1, 0, 1)))), *fields)


def to_set_time_to_live():
    header = pick((ipv4_header, ipv4_header_with_checksum))()
    return words(near(U8), header)


def to_compare():
    field, most = pick((('dscp', 63), ('frag', OFFSET), ('flow', FLOW_LABEL), ('ecn', 3),
                        ('ipnum', U8)))
    return words(field, near(most), near(most))


def to_compare_options():
    first = some_options()
    second = pick((first, first[:4], some_options(), bytes(len(first)), first[::-1]))
    return words(hexed(first), hexed(second))


def to_write_an_option():
    held = some_bytes(4 * between(1, 10))
    return words(hexed(held), up_to(len(held) - 1), near(U8))


def to_walk(most, with_limit=False):
    number, headers = chain(most)
    limits = 0, 1, 2, 3, 4, 32, len(headers) // 8, len(headers) // 8 + 1, near(U64)
    return words(hexed(headers), number, *([pick(limits)] if with_limit else []))


def program_input():
    """digits of a packet, with blanks, in either case, or spoilt"""
    kind = dice.random()
    if kind < 0.8:
        packet = ipv4_bytes() if kind < 0.4 else ipv6_packet(45 if chance(0.3) else 8)
    else:
        packet = ipv6_bytes() if kind < 0.9 else some_bytes(some_length())
    if chance(0.05):
        packet = (packet * 2100)[:pick((2046, 2047, 2048, 2049))]
    text = packet.hex()
    if chance(0.25):
        text = ''.join(digit.upper() if chance(0.5) else digit for digit in text)
    if chance(0.35):
        blanks = ' ', '\n', '\t', '\r\n', '  '
        text = ''.join(digit + (pick(blanks) if chance(0.2) else '') for digit in text)
    kind = dice.random()
    if kind < 0.04:
        text = text[:-1]
    elif kind < 0.08 and text:
        at = up_to(len(text) - 1)
        text = text[:at] + pick('gG-_xz/:@`\x0b\x0c\x00~\x7f') + text[at + 1:]
    elif kind < 0.10:
        text += pick(('0', '\xa0', '\xff', 'g'))
    elif kind < 0.11:
        text = 'g' * pick((4095, 4096, 4097))
    elif kind < 0.12:
        text = ('00' * 2048)[:pick((4095, 4096))] + pick(('', '0', ' 0', '\n'))
    elif kind < 0.125:
        text = ' ' * (pick((65534, 65535, 65536, 65537)) - len(text)) + text
    return hexed(text.encode('latin-1'))


def ipv4_first_byte(byte):
    return 64 + max(5, byte % 16)


def ipv6_first_byte(byte):
    return 96 + byte % 16


# how often an operation comes, its name, and what makes its arguments
OPERATIONS = [
    *((1, f'{field}.{way}', lambda bounds=bounds: near(*bounds)) for way in ('new', 'try')
      for field, *bounds in (('dscp', U8, 63, 64), ('frag', U16, OFFSET, OFFSET + 1),
                             ('flow', U32, FLOW_LABEL, FLOW_LABEL + 1), ('ecn', U8, 3, 4))),
    (1, 'field.cmp', to_compare),
    (1, 'known', lambda: up_to(63)),
    (1, 'known.cmp', lambda: words(pick(KNOWN), pick(KNOWN))),
    (2, 'ipnum', lambda: pick((pick(SKIPPABLE + OTHER_NUMBERS), near(U8)))),
    (2, 'opt', lambda: hexed(some_bytes(pick((some_length(), 4 * up_to(12)))))),
    (1, 'opt.arr', lambda: hexed(some_bytes(4 * up_to(10)))),
    (1, 'opt.set', to_write_an_option),
    (2, 'opt.cmp', to_compare_options),
    (8, 'v4.view', lambda: hexed(ipv4_bytes())),
    (3, 'v4.view_header', lambda: hexed(ipv4_bytes())),
    (6, 'v4.head', lambda: hexed(ipv4_bytes())),
    (1, 'v4.read', lambda: hexed(ipv4_bytes())),
    (6, 'v4.info', lambda: pick((ipv4_header, ipv4_header_with_checksum))()),
    (2, 'v4.new', lambda: words(near(U16, 65515, 65516), near(U8), near(U8), hexed(some_bytes(4)),
                                hexed(some_bytes(4)))),
    (4, 'v4.set_payload_len', to_set_payload_len),
    (3, 'v4.set_options', lambda: words(hexed(some_bytes(pick((some_length(), 4 * up_to(12))))),
                                        ipv4_header())),
    (5, 'v4.set_ttl', to_set_time_to_live),
    (2, 'v4.eq', lambda: twice(ipv4_header, ' ')),
    (2, 'v4.view_eq', lambda: two_views(ipv4_bytes, 60, ipv4_first_byte)),
    (6, 'v6.view', lambda: hexed(ipv6_bytes())),
    (2, 'v6.view_header', lambda: hexed(ipv6_bytes())),
    (4, 'v6.head', lambda: hexed(ipv6_bytes())),
    (1, 'v6.read', lambda: hexed(ipv6_bytes())),
    (4, 'v6.info', ipv6_header),
    (2, 'v6.set_payload_length', lambda: words(near(U64, U16, U16 + 1), ipv6_header())),
    (2, 'v6.set_ecn', lambda: words(near(3), ipv6_header())),
    (2, 'v6.set_dscp', lambda: words(near(63), ipv6_header())),
    (2, 'v6.eq', lambda: twice(ipv6_header, ' ')),
    (2, 'v6.view_eq', lambda: two_views(ipv6_bytes, 40, ipv6_first_byte)),
    (6, 'skip', lambda: to_walk(2)),
    (4, 'walk', lambda: to_walk(10)),
    (8, 'walk.counted', lambda: to_walk(pick((4, 10, 40)))),
    (8, 'walk.limit', lambda: to_walk(pick((4, 10, 40)), with_limit=True)),
    (3, 'text.len', len_error),
    (2, 'text.swse', space_error),
    (2, 'text.too_big', lambda: too_big(False)),
    (1, 'text.unknown', lambda: near(U8)),
    (1, 'text.bad_options', lambda: near(U64)),
    *((1, f'text.{name}', lambda: near(U8)) for name in ('v4.version', 'v4.ihl', 'v6.version')),
    (1, 'text.v4', ipv4_error),
    (1, 'text.v6', ipv6_error),
    (1, 'text.chain', chain_error),
    (1, 'layer', lambda: pick(LAYERS)),
    (1, 'layer.cmp', lambda: words(pick(LAYERS), pick(LAYERS))),
    (1, 'value_type', lambda: pick(VALUE_TYPES)),
    (1, 'value_type.cmp', lambda: words(pick(VALUE_TYPES), pick(VALUE_TYPES))),
    (2, 'off.len', lambda: moved(len_error)),
    (2, 'off.v4', lambda: moved(ipv4_error)),
    (2, 'off.v6', lambda: moved(ipv6_error)),
    (2, 'off.chain', lambda: moved(chain_error)),
    (1, 'eq.len', lambda: twice(len_error)),
    (1, 'eq.swse', lambda: twice(space_error)),
    (1, 'eq.v4', lambda: twice(ipv4_error)),
    (1, 'eq.v6', lambda: twice(ipv6_error)),
    (1, 'eq.chain', lambda: twice(chain_error)),
    (1, 'eq.too_big', lambda: too_big(True)),
    *((3, f'c{width}.add{length}',
       lambda width=width, length=length: words(start(width), hexed(some_bytes(length))))
      for width, length in ((32, 2), (32, 4), (64, 2), (64, 4), (64, 8))),
    *((3, f'c{width}.fold', lambda width=width: start(width)) for width in (32, 64)),
    *((5, f'c{width}.slice', lambda width=width: words(start(width), hexed(piece())))
      for width in (32, 64)),
    *((5, f'c{width}.slices', pieces) for width in (32, 64)),
    (4, 'sum', lambda: words(*steps(6, ('s', '2', '4', '8', '16')))),
    (4, 'sum.eq', equal_sums),
    (5, 'upd', update),
]

if asked.iphead:
    OPERATIONS = [(1, 'iphead', program_input)]
only = tuple(prefix for prefix in asked.only.split(',') if prefix)
left_out = tuple(prefix for prefix in asked.left_out.split(',') if prefix)
chosen = [row for row in OPERATIONS
          if (not only or row[1].startswith(only)) and not row[1].startswith(left_out)]
for _, name, make in dice.choices(chosen, [row[0] for row in chosen], k=asked.count):
    print(f'{name} {make()}'.strip())
