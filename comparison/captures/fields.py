#!/usr/bin/env python3
"""Compares each line that `ipcap` prints of a capture with what tshark says of the packet.

    ./fields.py FILE..             captures in either format
    ./fields.py --program P FILE..

Compared are of each line the time and the lengths of a frame that was cut; of one that shows a packet both addresses, the hops, the
protocol, the length, the fragment, the ports or the type and code, and both verdicts. A difference with a reason that `reason` or
`without_packet` has is counted under it, any other one has failed; up to ten of each are printed. The last line is 'N passed, M
failed': packets that are the same but for such differences, and the others. A file that `ipcap` refuses with status 2 is named.
"""
import argparse
import collections
import fractions
import ipaddress
import pathlib
import subprocess
import sys

PROGRAM = pathlib.Path(__file__).resolve().parents[2] / 'crates/ipcap/out/ipcap'
FIELDS = ('frame.time_epoch', 'frame.encap_type', 'frame.cap_len', 'frame.len', 'frame.protocols', 'ip.version', 'ip.src', 'ip.dst',
          'ip.ttl', 'ip.proto', 'ip.hdr_len', 'ip.len', 'ip.id', 'ip.frag_offset', 'ip.flags.mf', 'ip.checksum.status',
          'ipv6.src', 'ipv6.dst', 'ipv6.hlim', 'ipv6.nxt', 'ipv6.plen', 'ipv6.hopopts.nxt', 'ipv6.routing.nxt', 'ipv6.dstopts.nxt',
          'ah.next_header', 'mip6.proto', 'hip.proto', 'shim6.nxt', 'wlan.qos.mesh_ctl_present', 'ipv6.fraghdr.nxt',
          'ipv6.fraghdr.offset', 'ipv6.fraghdr.more', 'ipv6.fraghdr.ident', 'udp.srcport',
          'udp.dstport', 'udp.checksum.status', 'tcp.srcport', 'tcp.dstport', 'tcp.checksum', 'tcp.checksum.status', 'icmp.type',
          'icmp.code', 'icmp.checksum.status', 'icmpv6.type', 'icmpv6.code', 'icmpv6.checksum.status')
# tshark is not to put anything together, and is to verify every checksum, also where the total length is 0.
OPTIONS = ('ip.defragment:FALSE', 'ipv6.defragment:FALSE', 'tcp.desegment_tcp_streams:FALSE', 'tcp.analyze_sequence_numbers:FALSE',
           'wlan.enable_decryption:FALSE', 'ip.check_checksum:TRUE', 'tcp.check_checksum:TRUE', 'udp.check_checksum:TRUE')
# The extension headers of IPv6 by their numbers, with the field that has the number of the next one.
NEXT = {0: 'ipv6.hopopts.nxt', 43: 'ipv6.routing.nxt', 44: 'ipv6.fraghdr.nxt', 51: 'ah.next_header', 60: 'ipv6.dstopts.nxt',
        135: 'mip6.proto', 139: 'hip.proto', 140: 'shim6.nxt'}
# IANA's keywords of the protocols of which `ipcap` prints the keyword.
KEYWORDS = {'ICMP': 1, 'IGMP': 2, 'IPv4': 4, 'TCP': 6, 'UDP': 17, 'IPv6': 41, 'RSVP': 46, 'GRE': 47, 'ESP': 50, 'AH': 51,
            'IPv6-ICMP': 58, 'IPv6-NoNxt': 59, 'EIGRP': 88, 'OSPFIGP': 89, 'IPIP': 94, 'PIM': 103, 'IPComp': 108, 'VRRP': 112,
            'L2TP': 115, 'SCTP': 132, 'UDPLite': 136, 'MPLS-in-IP': 137}
UPPER = {17: ('udp', 'udp.srcport', 'udp.dstport', '>'), 6: ('tcp', 'tcp.srcport', 'tcp.dstport', '>'),
         1: ('icmp', 'icmp.type', 'icmp.code', '/'), 58: ('icmpv6', 'icmpv6.type', 'icmpv6.code', '/')}
# What `ipcap` passes on the way to the packet, by tshark's names.
PASSED = {'eth', 'ethertype', 'vlan', 'ieee8021ad', 'sll', 'null', 'raw', 'radiotap', 'wlan_radio', 'wlan', 'llc', 'ppp', 'chdlc', 'fr'}
# The lengths of link headers, by tshark's names, and the least lengths of other headers, by the keywords.
LINKS = {'eth': 14, 'sll': 16, 'null': 4}
LEAST = {'UDP': 8, 'TCP': 20, 'ICMP': 4, 'IPv6-ICMP': 4}
VERDICTS = {'0': 'wrong', '1': 'right', '2': 'none', '3': 'none'}


def of_tshark(name):
    """what tshark says of each packet, by the names of its fields"""
    words = [word for option in OPTIONS for word in ('-o', option)] + [word for field in FIELDS for word in ('-e', field)]
    command = ['tshark', '-n', '-r', name, *words, '-T', 'fields', '-E', 'separator=|', '-E', 'occurrence=f']
    text = subprocess.run(command, capture_output=True, check=False).stdout.decode('latin1')
    # What tshark shows of other blocks of pcapng, such as custom and journal blocks, has no link type.
    told = [dict(zip(FIELDS, line.split('|'))) for line in text.splitlines()]
    return [of_one for of_one in told if of_one['frame.encap_type']]


def digits_of(name):
    """how many digits a fraction of a second has in a capture, at most"""
    with open(name, 'rb') as file:
        return 6 if file.read(4) in (b'\xd4\xc3\xb2\xa1', b'\xa1\xb2\xc3\xd4') else 9


def upper_of(told):
    """the number of the protocol after all extension headers of an IPv6 packet; None if one is twice, or does not say"""
    number, passed = int(told['ipv6.nxt']), set()
    while number in NEXT:
        if number in passed or not told[NEXT[number]]:
            return None
        passed.add(number)
        number = int(told[NEXT[number]], 0)
    return number


def fragment_of(identification, offset, more):
    """how a line marks a fragment; the offset is in units of 8 bytes"""
    has_more = more in ('1', 'True')
    return f'{int(identification, 16)}@{8 * int(offset)}{"+" * has_more}' if has_more or int(offset) else '-'


def wanted(told):
    """what a line has to say of a packet, as far as tshark tells it; None if it finds no IP header"""
    protocols = told['frame.protocols'].split(':')
    version = next((it for it in protocols if it in ('ip', 'ipv6')), None)
    if version is None:
        return None
    inner, found = protocols[protocols.index(version) + 1:], {}
    if version == 'ip' and told['ip.src'] and told['ip.len']:
        found |= {'source': told['ip.src'], 'destination': told['ip.dst'], 'hops': told['ip.ttl'], 'upper': int(told['ip.proto']),
                  'length': int(told['ip.len']) - int(told['ip.hdr_len']), 'header': VERDICTS.get(told['ip.checksum.status']),
                  'fragment': fragment_of(told['ip.id'], told['ip.frag_offset'], told['ip.flags.mf'])}
    elif version == 'ipv6' and told['ipv6.src'] and told['ipv6.nxt']:
        found |= {'source': told['ipv6.src'], 'destination': told['ipv6.dst'], 'hops': told['ipv6.hlim'], 'upper': upper_of(told),
                  'header': 'none', 'length': int(told['ipv6.plen']) if int(told['ipv6.nxt']) not in NEXT else None}
        if told['ipv6.fraghdr.ident'] and inner[:1] != ['icmpv6']:
            found['fragment'] = fragment_of(told['ipv6.fraghdr.ident'], told['ipv6.fraghdr.offset'], told['ipv6.fraghdr.more'])
    protocol, first, second, mark = UPPER.get(found.get('upper'), (None, None, None, None))
    if protocol in inner and told[first]:
        found |= {'detail': told[first] + mark + told[second], 'payload': VERDICTS.get(told[f'{protocol}.checksum.status'])}
    return {key: value for key, value in found.items() if value is not None}


def said(words):
    """what a line says of a frame, and of its packet if it shows one"""
    cut = words[words.index('cut') + 1].split('/') if 'cut' in words else None
    if words[3] != '>':
        return {'time': words[1], 'cut': cut}
    return {'time': words[1], 'cut': cut, 'source': words[2], 'destination': words[4], 'upper': KEYWORDS.get(words[5], words[5]),
            'detail': words[6], 'length': int(words[8]), 'hops': words[10], 'fragment': words[12], 'header': words[14],
            'payload': words[15]}


def is_same(key, ours, theirs):
    if key in ('source', 'destination'):
        return bool(theirs) and ipaddress.ip_address(ours) == ipaddress.ip_address(theirs)
    if key == 'time':
        return theirs in (ours, ours + '000')
    if key == 'cut':
        return ours == list(theirs) if ours else theirs[0] == theirs[1]
    return str(ours) == str(theirs)


def reason(key, ours, theirs, words, told, digits):
    """why a line may differ from what tshark says; nothing if it may not"""
    is_later = words[3] == '>' and '@' in words[12] and not words[12].rstrip('+').endswith('@0')
    if key == 'time' and (len(ours.partition('.')[2]) > digits or theirs.startswith('-') or not theirs):
        return 'a fraction of a second that is one or more, a time before 1970, or none'
    if key == 'time' and theirs.startswith(ours) and bin(fractions.Fraction(theirs).denominator).count('1') == 1:
        return 'a unit of a power of two above a microsecond, whose time is cut at six digits'
    if key in ('upper', 'length') and words[5].isdigit() and int(words[5]) in NEXT and 'cut' in words:
        return 'a packet that was truncated within its extension headers'
    if key == 'cut' and (max(map(int, ours or theirs)) > 2 ** 31 or int(theirs[0]) > int(theirs[1])):
        return 'lengths of 2^31 and more, or a captured length above the length'
    if key in ('length', 'upper', 'detail', 'payload') and words[17:19] == ['length', '0']:
        return 'a length field of 0'
    if key in ('detail', 'payload') and is_later:
        return 'tshark shows the port of a later fragment'
    if key == 'detail' and ours == '-' and ('cut' in words or '@' in words[12] or int(words[8]) < LEAST.get(words[5], 0)):
        return 'an incomplete header'
    if key == 'payload' and ours == 'none' and 'ipv6.routing' in told['frame.protocols']:
        return 'a routing header of unknown type or with wrong numbers'
    if key == 'payload' and told['tcp.checksum'] == '0xffff':
        return 'a TCP checksum of all ones'
    return None


def before_packet(told):
    """what tshark finds before the first IP header"""
    protocols = told['frame.protocols'].split(':')
    return protocols[:min(protocols.index(it) for it in ('ip', 'ipv6') if it in protocols)]


def is_damaged(told):
    """whether what tshark says of an IP header is a fault: the version, a length, or that there is no whole header"""
    tags = sum(it in ('vlan', 'ieee8021ad') for it in before_packet(told))
    link = LINKS.get(told['frame.protocols'].partition(':')[0], 0) + 4 * tags
    room, captured = int(told['frame.len']) - link, int(told['frame.cap_len']) - link
    if 'ipv6' in told['frame.protocols'].split(':') and told['ipv6.plen']:
        return 40 + int(told['ipv6.plen']) > room or upper_of(told) is None or told['ip.version'] not in ('', '4')
    if not (told['ip.len'] and told['ip.hdr_len']):
        return True
    header, whole = int(told['ip.hdr_len']), int(told['ip.len'])
    return told['ip.version'] != '4' or header < 20 or whole < header or whole > room or header > captured


def without_packet(words, told):
    """why a line has no packet where tshark finds an IP header"""
    if words[2] != 'other:':
        return f'refused: {" ".join(words[3:6])}' if is_damaged(told) else 'FAILED: refused'
    before = before_packet(told)
    if 'ppp' in before and 'chdlc' in before:
        return 'frames of Cisco in a capture of PPP'
    if sum(it in ('vlan', 'ieee8021ad') for it in before) > 2:
        return 'a third tag'
    if told['wlan.qos.mesh_ctl_present'] in ('1', 'True'):
        return 'a mesh header'
    unread = next((it for it in before if it not in PASSED), None)
    return f'IP after another protocol: {unread}' if unread else 'FAILED: no packet'


def compare(name, program, shown, counts):
    with open(name, 'rb') as file:
        ran = subprocess.run([program], stdin=file, capture_output=True, check=False)
    errors = ran.stderr.decode().strip()
    if ran.returncode == 2:
        print(f'refused: {name}: {errors}')
        return
    if ran.returncode == 1 and errors.startswith(('error: the last record is cut off', 'error: the block at byte')):
        shown['ended early'].append(f'{name}: {errors}')
    elif ran.returncode:
        shown['FAILED: status'].append(f'{name}: {ran.returncode}: {errors}')
        counts['failed'] += 1
    lines, packets, digits = ran.stdout.decode().splitlines(), of_tshark(name), digits_of(name)
    if len(lines) != len(packets) and ran.returncode == 0:
        shown['FAILED: number of packets'].append(f'{name}: {len(lines)}, not {len(packets)}')
        counts['failed'] += 1
    for line, told in zip(lines, packets):
        words, theirs, kinds = line.split(' '), wanted(told), []
        ours = said(words)
        if words[3] != '>':
            kinds = [without_packet(words, told)] if theirs is not None else []
        elif theirs is None:
            kinds = ['tshark finds no IP header']
        theirs = theirs if words[3] == '>' and theirs else {}
        theirs |= {'time': told['frame.time_epoch'], 'cut': (told['frame.cap_len'], told['frame.len'])}
        for key in theirs:
            if not is_same(key, ours[key], theirs[key]):
                why = reason(key, ours[key], theirs[key], words, told, digits)
                kinds.append(why or f'FAILED: {key}: {theirs[key]}')
        counts['failed' if any(kind.startswith('FAILED') for kind in kinds) else 'passed'] += 1
        counts['packets'] += words[3] == '>'
        for kind in kinds:
            shown[':'.join(kind.split(':')[:2])].append(f'{name}: {line}: {told["frame.protocols"]}: {kind}')


def main():
    parser = argparse.ArgumentParser(description=__doc__.splitlines()[0])
    parser.add_argument('--program', default=PROGRAM)
    parser.add_argument('files', nargs='+')
    arguments = parser.parse_args()
    shown, counts = collections.defaultdict(list), collections.Counter()
    for name in arguments.files:
        compare(name, arguments.program, shown, counts)
    for kind, found in sorted(shown.items()):
        print(f'{kind}: {len(found)}', *found[:10], sep='\n    ')
    print(f'{counts["packets"]} packets of IP in {len(arguments.files)} files')
    print(f'{counts["passed"]} passed, {counts["failed"]} failed')
    sys.exit(bool(counts['failed'] or not counts['passed']))


main()
