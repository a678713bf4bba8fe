#!/usr/bin/env python3
"""A second reading of the filter language, from its description in words.

    grammar.py [--hex] < TEXTS     one text a line (in hex with --hex); one answer a line:
                                   `ok TREE`, `incomplete`, `too long`, or `unexpected`, `mixed` or
                                   `unsupported` with the place of a word
    grammar.py --table             the words of the language and the kinds of values

The tables below say which words make a primitive. From them a network is built: states, and the
words that lead from one to the next. What stands in parentheses is a network by itself.
A text is read by following all ways at once, so a word is unexpected exactly if no way goes on with
it: each state leads to the end by some words, since every kind of value has one.

A tree is a tuple: ('not', E), ('and', E, E), ('or', E, E), or a primitive with its arguments, as
('ports', 'tcp', 'dst', 80, 80). Value lists are written out: `port 80 or 443` is two primitives."""
import ipaddress
import re
import sys

MAX_WORDS = 64

# ---- words

WORD = re.compile(rb'[ \t\r\n]+|(?P<word>[()\[\]]|&&|\|\||==|!=|<=|>=|[&|=<>!]'
                  rb'|[^ \t\r\n()\[\]&|=<>!]+)')


def words_of(text):
    """each word with its place in bytes"""
    return [(found.start(), found.group('word').decode('latin-1'))
            for found in WORD.finditer(text) if found.group('word')]


# ---- values: the kinds of words that are no fixed word. Each function gives the value, or None.

# The names of places, flags and types are numbers (pcap-filter(7); RFC 9293 section 3.1, RFC 3168
# section 6.1; IANA, ICMP Type Numbers and ICMPv6 "type" Numbers).
PLACE_NAMES = {'tcpflags': 13, 'icmptype': 0, 'icmpcode': 1, 'icmp6type': 0, 'icmp6code': 1}
NUMBER_NAMES = {
    **PLACE_NAMES,
    'tcp-fin': 1, 'tcp-syn': 2, 'tcp-rst': 4, 'tcp-push': 8, 'tcp-ack': 16, 'tcp-urg': 32,
    'tcp-ece': 64, 'tcp-cwr': 128,
    'icmp-echoreply': 0, 'icmp-unreach': 3, 'icmp-sourcequench': 4, 'icmp-redirect': 5,
    'icmp-echo': 8, 'icmp-routeradvert': 9, 'icmp-routersolicit': 10, 'icmp-timxceed': 11,
    'icmp-paramprob': 12, 'icmp-tstamp': 13, 'icmp-tstampreply': 14, 'icmp-ireq': 15,
    'icmp-ireqreply': 16, 'icmp-maskreq': 17, 'icmp-maskreply': 18,
    'icmp6-destinationunreach': 1, 'icmp6-packettoobig': 2, 'icmp6-timeexceeded': 3,
    'icmp6-parameterproblem': 4, 'icmp6-echo': 128, 'icmp6-echoreply': 129,
    'icmp6-multicastlistenerquery': 130, 'icmp6-multicastlistenerreportv1': 131,
    'icmp6-multicastlistenerdone': 132, 'icmp6-routersolicit': 133, 'icmp6-routeradvert': 134,
    'icmp6-neighborsolicit': 135, 'icmp6-neighboradvert': 136, 'icmp6-redirect': 137,
    'icmp6-routerrenum': 138, 'icmp6-nodeinformationquery': 139,
    'icmp6-nodeinformationresponse': 140, 'icmp6-ineighbordiscoverysolicit': 141,
    'icmp6-ineighbordiscoveryadvert': 142, 'icmp6-multicastlistenerreportv2': 143,
    'icmp6-homeagentdiscoveryrequest': 144, 'icmp6-homeagentdiscoveryreply': 145,
    'icmp6-mobileprefixsolicit': 146, 'icmp6-mobileprefixadvert': 147,
    'icmp6-certpathsolicit': 148, 'icmp6-certpathadvert': 149, 'icmp6-multicastrouteradvert': 151,
    'icmp6-multicastroutersolicit': 152, 'icmp6-multicastrouterterm': 153}


def digits(word, most=2**32 - 1):
    """decimal without leading zeros, or hexadecimal"""
    if re.fullmatch('0[xX][0-9a-fA-F]+', word):
        value = int(word[2:], 16)
    elif re.fullmatch('0|[1-9][0-9]*', word):
        value = int(word)
    else:
        return None
    return value if value <= most else None


def number(word, most=2**32 - 1):
    """a number by its name or its digits"""
    value = NUMBER_NAMES.get(word, digits(word))
    return value if value is not None and value <= most else None


def ipv4(word):
    if not re.fullmatch(r'(0|[1-9][0-9]{0,2})(\.(0|[1-9][0-9]{0,2})){3}', word):
        return None
    parts = [int(part) for part in word.split('.')]
    return (4, int.from_bytes(bytes(parts), 'big')) if max(parts) <= 255 else None


def ipv6(word):
    if not re.fullmatch('[0-9a-fA-F:.]+', word) or ':' not in word:
        return None
    try:
        return 6, int(ipaddress.IPv6Address(word))
    except ValueError:
        return None


def address(word):
    return ipv4(word) or ipv6(word)


def host_of(kind):
    """an address as a net of all its bits"""
    def read(word):
        found = kind(word)
        return found and (*found, 32 if found[0] == 4 else 128)
    return read


def net4(word):
    """`10.0.0.0/8`; a dotted quad alone is one address; fewer parts are the front of one. A part
    alone is any number, also in hexadecimal or by its name."""
    if number(word, 255) is not None:
        return 4, number(word) << 24, 8
    front, slash, length = word.partition('/')
    parts = front.split('.')
    if not 1 <= len(parts) <= 4 or not all(re.fullmatch('0|[1-9][0-9]{0,2}', p) for p in parts):
        return None
    if max(map(int, parts)) > 255:
        return None
    bits = digits(length, 32) if slash else 8 * len(parts)
    octets = bytes([*map(int, parts), 0, 0, 0][:4])
    return None if bits is None else (4, int.from_bytes(octets, 'big'), bits)


def octets(word):
    """two to four decimal octets of an IPv4 address, the others 0, as the number they make"""
    parts = word.split('.')
    if not 2 <= len(parts) <= 4 or not all(re.fullmatch('0|[1-9][0-9]{0,2}', p) for p in parts):
        return None
    if max(map(int, parts)) > 255:
        return None
    return int.from_bytes(bytes([*map(int, parts), 0, 0][:4]), 'big')


def net6(word):
    front, slash, length = word.partition('/')
    found, bits = ipv6(front), digits(length, 128) if slash else 128
    return None if found is None or bits is None else (*found, bits)


# IANA, Service Name and Transport Protocol Port Number Registry; `imap2`, `snmp-trap` and `sip-tls`
# are of /etc/services.
PORT_NAMES = {
    'echo': 7, 'discard': 9, 'daytime': 13, 'chargen': 19, 'ftp-data': 20, 'ftp': 21, 'ssh': 22,
    'telnet': 23, 'smtp': 25, 'time': 37, 'tacacs': 49, 'domain': 53, 'bootps': 67, 'bootpc': 68,
    'tftp': 69, 'gopher': 70, 'finger': 79, 'http': 80, 'kerberos': 88, 'pop3': 110, 'sunrpc': 111,
    'nntp': 119, 'ntp': 123, 'epmap': 135, 'netbios-ns': 137, 'netbios-dgm': 138,
    'netbios-ssn': 139, 'imap': 143, 'imap2': 143, 'snmp': 161, 'snmptrap': 162, 'snmp-trap': 162,
    'xdmcp': 177, 'bgp': 179, 'irc': 194, 'ldap': 389, 'https': 443, 'microsoft-ds': 445,
    'isakmp': 500, 'syslog': 514, 'printer': 515, 'rtsp': 554, 'nntps': 563, 'submission': 587,
    'ipp': 631, 'ldaps': 636, 'domain-s': 853, 'rsync': 873, 'ftps-data': 989, 'ftps': 990,
    'telnets': 992, 'imaps': 993, 'pop3s': 995, 'socks': 1080, 'openvpn': 1194, 'ms-sql-s': 1433,
    'radius': 1812, 'radius-acct': 1813, 'nfs': 2049, 'mysql': 3306, 'ms-wbt-server': 3389,
    'sip': 5060, 'sip-tls': 5061, 'xmpp-client': 5222, 'mdns': 5353, 'postgresql': 5432,
    'amqp': 5672, 'x11': 6000, 'redis': 6379, 'http-alt': 8080}


def port(word):
    return PORT_NAMES.get(word, number(word, 65535))


def port_range(word):
    low, hyphen, high = word.partition('-')
    low, high = digits(low, 65535), digits(high, 65535)
    return (low, high) if hyphen and None not in (low, high) and low <= high else None


# IANA, Assigned Internet Protocol Numbers
IP_NUMBERS = {'\\icmp': 1, '\\igmp': 2, '\\tcp': 6, '\\igrp': 9, '\\udp': 17, 'gre': 47,
              '\\esp': 50, '\\ah': 51, '\\icmp6': 58, 'ipv6-icmp': 58, 'eigrp': 88, 'ospf': 89,
              '\\pim': 103, '\\vrrp': 112, '\\sctp': 132}
# IANA, IEEE 802 Numbers
ETHER_TYPES = {'\\ip': 0x800, '\\arp': 0x806, '\\rarp': 0x8035, '\\ip6': 0x86dd, '\\mopdl': 0x6001,
               '\\moprc': 0x6002, '\\decnet': 0x6003, '\\lat': 0x6004, '\\sca': 0x6007,
               'loopback': 0x9000}


def ip_number(word):
    return IP_NUMBERS.get(word, number(word, 255))


def ether_type(word):
    """up to 1500 it is a length (IEEE 802.3 section 3.2.6)"""
    value = ETHER_TYPES.get(word, number(word, 65535))
    return value if value is not None and value > 1500 else None


def hardware_address(word):
    if not re.fullmatch('[0-9a-fA-F]{2}(:[0-9a-fA-F]{2}){5}', word):
        return None
    return int.from_bytes(bytes(int(part, 16) for part in word.split(':')), 'big')


def place(word):
    """where a load begins, and how many bytes it has: `0`, `12:2`, `tcpflags:1`. With a size only
    the names of places are numbers."""
    front, colon, size = word.partition(':')
    if not colon:
        size, at = '1', number(front)
    else:
        at = PLACE_NAMES.get(front, digits(front))
    return (at, int(size)) if at is not None and size in ('1', '2', '4') else None


VALUES = {
    'number': number, 'vlan': lambda word: number(word, 4095), 'port': port,
    'range': port_range, 'ip-number': ip_number, 'ether-type': ether_type,
    'hardware-address': hardware_address, 'place': place,
    'host': host_of(address), 'host4': host_of(ipv4), 'host6': host_of(ipv6),
    'net': lambda word: net4(word) or net6(word), 'net4': net4, 'net6': net6,
    'octets': octets, 'mask': octets}

# ---- phrases: the words of a primitive. A string is a fixed word, `<kind>` a value of that kind,
# '' nothing. A list is a choice, a tuple one after the other. ('note', EVENT, PHRASE) notes an
# event before a phrase, ('inside', NAME) is what has that name, in parentheses.


def put(name, phrase):
    return 'note', ('put', name), phrase


AND, OR = ['and', '&&'], ['or', '||']
DIRECTION = [put('src', 'src'), put('dst', 'dst'), put('either', ('src', OR, 'dst')),
             put('both', ('src', AND, 'dst'))]
OPTIONAL_DIRECTION = [put('either', ''), *DIRECTION]
TRANSPORT = [put(None, ''), *(put(word, word) for word in ('tcp', 'udp', 'sctp'))]
RELATION = [*(put(word, word) for word in ('!=', '<', '>', '<=', '>=')), put('=', ['=', '=='])]
NOTS = 'repeat', ('note', ('not',), ['not', '!'])
OPERATORS = {'and': ('note', ('operator', 'and'), AND), 'or': ('note', ('operator', 'or'), OR)}
OTHER_OPERATOR = {'and': 'or', '&&': 'or', 'or': 'and', '||': 'and'}

# Protocols that IP carries: the version that they are of, or either, and the number (IANA)
CARRIED = {'tcp': (None, 6), 'udp': (None, 17), 'sctp': (None, 132), 'icmp': (4, 1),
           'igmp': (4, 2), 'icmp6': (6, 58), 'esp': (None, 50), 'ah': (None, 51), 'igrp': (4, 9),
           'pim': (None, 103), 'vrrp': (4, 112), 'carp': (4, 112)}
# Words that are a primitive by themselves
ALONE = {
    'ip': ('version', 4), 'ip6': ('version', 6), 'arp': ('ether-type', 0x806),
    'rarp': ('ether-type', 0x8035),
    **{word: ('proto', *carried) for word, carried in CARRIED.items()},
    'decnet': ('ether-type', 0x6003), 'lat': ('ether-type', 0x6004),
    'moprc': ('ether-type', 0x6002), 'mopdl': ('ether-type', 0x6001),
    'sca': ('ether-type', 0x6007),
    'broadcast': ('broadcast',), 'ether broadcast': ('broadcast',), 'multicast': ('multicast',),
    'ether multicast': ('multicast',), 'ip multicast': ('ip-multicast',),
    'ip6 multicast': ('ip6-multicast',), 'fragment': ('fragment',),
    'first fragment': ('first-fragment',), 'checksum wrong': ('checksum-wrong',),
    'vlan': ('vlan', None)}
# the protocols of loads
LOADS = 'ether', 'ip', 'ip6', 'arp', 'rarp', *CARRIED
# which addresses a qualifier has
OF_PROTOCOL = {None: '', 'ip': '4', 'ip6': '6', 'arp': '4', 'rarp': '4'}
# words of pcap-filter(7) that the language does not have
UNSUPPORTED = set(r"""fddi tr wlan link ppp radio slip atalk aarp ipx iso netbeui stp clnp esis isis
    l1 l2 iih lsp snp csnp psnp \atalk \aarp \ipx \iso \netbeui \stp llc inbound outbound ifname on
    rnr rulenum reason rset ruleset srnr subrulenum action ra ta addr1 addr2 addr3 addr4 type
    subtype dir mpls pppoed pppoes geneve vpi vci lane oam oamf4 oamf4e oamf4s metac bcc sc ilmic
    connectmsg metaconnect gateway protochain""".split())

# a number, or a list of numbers in parentheses, that stands for their bitwise or
CONSTANT = 'span', 'sum', ['<number>', ('(', '<number>', ('repeat', ('|', '<number>')), ')')]
# the length or a load, without a mask and with one; in parentheses too
TERM = [put('len', 'len'), ([put(word, word) for word in LOADS], '[', '<place>', ']'),
        ('inside', 'term')]
MASKED_TERM = [(TERM, '&', CONSTANT), ('inside', 'masked term')]
COMPARISON = [TERM, MASKED_TERM], RELATION, CONSTANT

# an IPv4 network by its address and a mask, which has all bits of the address (`step`)
WITH_MASK = '<octets>', 'mask', '<mask>'
# What the value of a head is, by the kind of the head; none is `host` without a word for it.
VALUE_AFTER = {
    'none': '<host>', 'host': '<host>', 'host4': '<host4>', 'host6': '<host6>',
    'net': ['<net>', WITH_MASK], 'net4': ['<net4>', WITH_MASK], 'net6': '<net6>',
    'port': '<port>', 'portrange': '<range>', 'proto': '<ip-number>',
    'ether-proto': '<ether-type>', 'ether-host': '<hardware-address>'}
NO_HEAD = 'host', None, 'either'


def heads():
    """(kind, name, phrase) of what stands before a value"""
    for protocol, version in OF_PROTOCOL.items():
        front = put(protocol, protocol or '')
        yield 'host' + version, 'host', (front, [(OPTIONAL_DIRECTION, 'host'), (DIRECTION,)])
        yield 'net' + version, 'net', (front, OPTIONAL_DIRECTION, 'net')
    yield 'port', 'port', (TRANSPORT, OPTIONAL_DIRECTION, 'port')
    yield 'portrange', 'portrange', (TRANSPORT, OPTIONAL_DIRECTION, 'portrange')
    yield 'proto', 'proto', ([put(None, ''), put(4, 'ip'), put(6, 'ip6')], 'proto')
    yield 'ether-proto', 'ether-proto', ('ether', 'proto')
    yield 'ether-host', 'ether-host', ('ether', [(OPTIONAL_DIRECTION, 'host'), (DIRECTION,)])


def values(kind):
    """a value, or a group of values in parentheses; negated any number of times"""
    return NOTS, [('span', 'value', VALUE_AFTER[kind]), ('inside', ('values', kind))]


def value_group(kind):
    """values joined by one operator"""
    return values(kind), ['', *((joined, values(kind), ('repeat', (joined, values(kind))))
                                for joined in OPERATORS.values())]


def primitives():
    """(kind, phrase): the kind is that of its head, if it has one"""
    for words, tree in ALONE.items():
        yield 'none', ('span', 'alone', put(tree, tuple(words.split())))
    for word in 'less', 'greater':
        yield 'none', ('span', word, (word, '<number>'))
    yield 'none', ('span', 'vlan', ('vlan', '<vlan>'))
    yield 'none', ('span', 'comparison', COMPARISON)
    for kind, name, phrase in heads():
        yield kind, (('span', name, phrase), values(kind))

# ---- the network


class Network:
    """States and ways between them: a word to read, an event to note without one, or parentheses
    around what has a name. What is inside parentheses is read from the state where it starts."""

    def __init__(self, host_left_out=True):
        self.host_left_out = host_left_out
        self.by_word, self.silent, self.calls = [], [], []
        self.starts, self.ends = {}, set()

    def state(self):
        for table in self.by_word, self.silent, self.calls:
            table.append([])
        return len(self.calls) - 1

    def lead(self, before, after, event=None):
        self.silent[before].append((event, after))

    def add(self, phrase, before):
        """the state after a phrase that begins in a state"""
        if isinstance(phrase, list):
            after = self.state()
            for choice in phrase:
                self.lead(self.add(choice, before), after)
            return after
        if isinstance(phrase, str):
            if phrase == '':
                return before
            after = self.state()
            self.by_word[before].append((phrase, after))
            return after
        if phrase[0] == 'note':
            begun = self.state()
            self.lead(before, begun, phrase[1])
            return self.add(phrase[2], begun)
        if phrase[0] == 'span':
            begun, done = self.state(), self.state()
            self.lead(before, begun, ('begin', phrase[1]))
            self.lead(self.add(phrase[2], begun), done, ('end', phrase[1]))
            return done
        if phrase[0] == 'repeat':
            again = self.state()
            self.lead(before, again)
            self.lead(self.add(phrase[1], again), again)
            return again
        if phrase[0] == 'inside':
            after = self.state()
            self.calls[before].append((phrase[1], after))
            return after
        for part in phrase:
            before = self.add(part, before)
        return before

    def add_named(self, name, phrase):
        """what parentheses hold"""
        self.starts[name] = self.state()
        self.ends.add(self.add(phrase, self.starts[name]))

    def operand(self, kind, before, after):
        """a primitive, a value alone, or an expression in parentheses, where a head is that of the
        primitive before; after each of them the state of the head that is then the last one"""
        begun = self.add(NOTS, before)
        for new_kind, phrase in primitives():
            self.lead(self.add(phrase, begun), after[new_kind])
        if kind != 'none' or self.host_left_out:
            self.lead(self.add(('span', 'value', VALUE_AFTER[kind]), begun), after[kind])
        self.lead(self.add(('inside', ('expression', kind)), begun), after[kind])

    def build(self):
        first = {kind: self.state() for kind in VALUE_AFTER}
        for kind in VALUE_AFTER:
            self.starts['expression', kind] = self.state()
            self.operand(kind, self.starts['expression', kind], first)
        self.ends.update(first.values())
        for operator in OPERATORS.values():
            chain = {kind: self.state() for kind in VALUE_AFTER}
            for kind in VALUE_AFTER:
                before = self.state()
                for earlier in first, chain:
                    self.lead(self.add(operator, earlier[kind]), before)
                self.operand(kind, before, chain)
            self.ends.update(chain.values())
        for kind in VALUE_AFTER:
            self.add_named(('values', kind), value_group(kind))
        self.add_named('term', TERM)
        self.add_named('masked term', MASKED_TERM)
        self.start = self.starts['expression', 'none']
        self.close()
        return self

    def close(self):
        """for each state: the words, the calls and the end that silent ways lead to, with events"""
        self.next_words, self.next_calls, self.at_end = [], [], []
        for state in range(len(self.calls)):
            words, calls, ends = {}, [], []
            ways = [(state, ())]
            while ways:
                at, events = ways.pop()
                for word, after in self.by_word[at]:
                    words.setdefault(word, []).append((after, events))
                for name, after in self.calls[at]:
                    calls.append((self.starts[name], after, events))
                if at in self.ends:
                    ends.append(events)
                for event, after in self.silent[at]:
                    ways.append((after, events + (event,) if event else events))
            self.next_words.append(words)
            self.next_calls.append(calls)
            self.at_end.append(ends)


NETWORK = Network().build()
FIXED = {word for words in NETWORK.next_words for word in words
         if not re.fullmatch('<.+>', word)}
KNOWN = {}


def terminals(word):
    """what a word can be: itself, and each kind of value that it is"""
    if word not in KNOWN:
        if len(KNOWN) > 200000:
            KNOWN.clear()
        found = [word] if word in FIXED else []
        found += [f'<{kind}>' for kind, read in VALUES.items() if read(word) is not None]
        KNOWN[word] = found
    return KNOWN[word]


# ---- reading

def is_mask_of(noted, word):
    """whether the mask has all bits of the address two words before it"""
    address = noted[0][2]
    return octets(address) & ~octets(word) == 0


def step(network, ways, word):
    """all ways on with a word. A way is a state, the states to return to, and what was noted."""
    found = []
    for state, returns, noted in ways:
        table = network.next_words[state]
        for terminal in terminals(word):
            if terminal == '<mask>' and terminal in table and not is_mask_of(noted, word):
                continue
            for after, events in table.get(terminal, ()):
                found.append((after, returns, (noted, events, word)))
        if word == '(':
            for start, after, events in network.next_calls[state]:
                found.append((start, (returns, after), (noted, events, '(')))
        elif word == ')' and returns:
            outer, after = returns
            for events in network.at_end[state]:
                found.append((after, outer, (noted, events, ')')))
    return found


def why_not(network, ways, word):
    """the kind of a refusal at a word that cannot stand there"""
    if word in UNSUPPORTED:
        return 'unsupported'
    if word in OTHER_OPERATOR and step(network, ways, OTHER_OPERATOR[word]):
        return 'mixed'
    return 'unexpected'


def read(text, network=NETWORK):
    """('ok', tree), ('incomplete',), ('too long',), or the kind of a refusal at a word and its
    place: ('mixed', place) for `and` or `or` where only the other one can stand, ('unsupported',
    place) for a word of pcap-filter(7) that the language lacks, else ('unexpected', place)"""
    words = words_of(text)
    ways = [(network.start, None, None)]
    for at, word in words[:MAX_WORDS]:
        before, ways = ways, step(network, ways, word)
        if not ways:
            return why_not(network, before, word), at
    if len(words) > MAX_WORDS:
        return 'too long',
    whole = [(noted, events, None) for state, returns, noted in ways if returns is None
             for events in network.at_end[state]]
    if not whole:
        return 'incomplete',
    trees = {tree_of(one) for one in whole}
    assert len(trees) == 1, f'{text!r} has two readings: {trees}'
    return 'ok', trees.pop()


# ---- trees

def flat(noted):
    """events and words in their order"""
    pieces = []
    while noted is not None:
        noted, events, word = noted
        pieces.append((events, word))
    out = []
    for events, word in reversed(pieces):
        out += events
        if word is not None:
            out.append(('word', word))
    return out


def tree_of(noted):
    given = flat(noted)
    tree, at = expression(given, 0, NO_HEAD)
    assert at == len(given)
    return tree


def expression(given, at, head):
    """the tree of a level, and the place after it; also that of a group of values"""
    left, at, head = operand(given, at, head)
    while at < len(given) and given[at][0] == 'operator':
        name = given[at][1]
        right, at, head = operand(given, at + 1, head)
        left = (name, left, right)
    return left, at


def operand(given, at, head):
    """the tree of what stands between operators, the place after it, and the head that is then the
    last one"""
    nots = 0
    while given[at] != ('word', '(') and given[at][0] != 'begin':
        nots += given[at] == ('not',)
        at += 1
    if given[at] == ('word', '('):
        tree, at = expression(given, at + 1, head)
        assert given[at] == ('word', ')')
        at += 1
    else:
        name, end = given[at][1], at + 1
        while given[end] != ('end', name):
            end += 1
        span, at = given[at + 1:end], end + 1
        if name == 'value':
            words = words_in(span)
            tree = valued(head, *words) if len(words) == 1 else (
                'masked', *head[1:], octets(words[0]), octets(words[2]))
        elif name in HEADS:
            head = (name, *puts(span))
            tree, at, _ = operand(given, at, head)
        else:
            tree, head = primitive(name, span), NO_HEAD
    for _ in range(nots):
        tree = ('not', tree)
    return tree, at, head


HEADS = {name for _, name, _ in heads()}


def puts(given):
    return [one[1] for one in given if one[0] == 'put']


def words_in(given):
    return [one[1] for one in given if one[0] == 'word']


def valued(head, word):
    """what a value says after its head"""
    name, *rest = head
    if name == 'host':
        return ('net', *rest, *host_of(address)(word))
    if name == 'net':
        return ('net', *rest, *VALUES['net'](word))
    if name == 'port':
        return ('ports', *rest, port(word), port(word))
    if name == 'portrange':
        return ('ports', *rest, *port_range(word))
    if name == 'proto':
        return ('proto', *rest, ip_number(word))
    if name == 'ether-proto':
        return ('ether-type', ether_type(word))
    return ('ether-host', *rest, hardware_address(word))


def sums(given):
    """the bitwise or of each list of numbers"""
    found = []
    for at, one in enumerate(given):
        if one == ('begin', 'sum'):
            total = 0
            for word in words_in(given[at:given.index(('end', 'sum'), at)]):
                total |= number(word) or 0
            found.append(total)
    return found


def primitive(name, given):
    """the tree of a primitive without a head"""
    if name == 'alone':
        return puts(given)[0]
    words = words_in(given)
    if name in ('less', 'greater', 'vlan'):
        return name, number(words[-1])
    of, relation = puts(given)
    *mask, constant = sums(given)
    mask = mask[0] if mask else None
    if of == 'len':
        return 'len', mask, relation, constant
    return 'load', of, *place(words[words.index('[') + 1]), mask, relation, constant


def shown(tree):
    if isinstance(tree, tuple):
        return '(' + ' '.join(map(shown, tree)) + ')'
    return '-' if tree is None else str(tree)


def answer(text):
    kind, *rest = read(text)
    if kind == 'ok':
        return 'ok ' + shown(rest[0])
    return ' '.join([kind, *map(str, rest)])


def main(arguments):
    if arguments == ['--table']:
        print('words:', *sorted(FIXED))
        print('values:', *VALUES)
        return
    for line in sys.stdin.buffer.read().split(b'\n')[:-1]:
        text = bytes.fromhex(line.decode()) if arguments == ['--hex'] else line
        print(answer(text))


if __name__ == '__main__':
    main(sys.argv[1:])
