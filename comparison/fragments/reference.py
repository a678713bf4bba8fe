#!/usr/bin/env python3
"""What the fragments of IP packets say: a reference for `packet_reassembly`.

It is written from RFC 791 section 3.2, RFC 8200 section 4.5, RFC 3168 section 5.3, RFC 5722, RFC
6946 and RFC 7112, and decides by the set of the fragments that have come, not one after another:

- a fragment is refused if it has no bytes, if more follow it and its length is no multiple of 8, or
  if it ends past byte 65535;
- a datagram is discarded if two different fragments of it overlap, or if one goes past the end that
  another one tells;
- it is complete if its end has come and all bytes before that;
- the packet has the header of the fragment at offset 0, but the ECN codepoint CE if any fragment
  has it; if one has CE and another Not-ECT, the datagram is discarded.

    reference.py --seed 1 --count 1000      prints cases, one JSON object a line
    reference.py --check --count 10000      checks the reference against itself: every order of a
                                            set says the same, and what was cut comes back

A case of kind `datagram` has fragments [offset in units of 8 bytes, more, payload in hex] and an
answer for each: `refused-empty`, `refused-unaligned`, `refused-too-long`, `incomplete`, `complete`
or `discarded`; and `datagram`, the bytes at the end, or null. A case of kind `packets` has packets
in hex, an answer for each, which can be `whole` (no fragment) or `refused-chain` (RFC 7112) too,
and `packets_out`, for each id the packet that was put together, or null.
"""
import argparse
import json
import random
import struct
import sys

MAX = 65535
EXTENSIONS = {0, 43, 44, 51, 60, 135, 139, 140}


# One datagram.


def refusal(fragment):
    """Why no datagram has the fragment; None if one can."""
    offset, more, payload = fragment
    if not payload:
        return "refused-empty"
    if more and len(payload) % 8:
        return "refused-unaligned"
    if 8 * offset + len(payload) > MAX:
        return "refused-too-long"
    return None


def contradict(one, other):
    """Whether no datagram has both."""
    if one == other:
        return False
    (a, b) = (8 * one[0], 8 * one[0] + len(one[2]))
    (c, d) = (8 * other[0], 8 * other[0] + len(other[2]))
    if a < d and c < b:
        return True
    return (not one[1] and d > b) or (not other[1] and b > d)


def said(fragments):
    """What a set of fragments says: the state, and the datagram if it is complete."""
    right = sorted({f for f in fragments if refusal(f) is None})
    for i, one in enumerate(right):
        if any(contradict(one, other) for other in right[i + 1:]):
            return "discarded", None
    ends = [8 * f[0] + len(f[2]) for f in right if not f[1]]
    if not ends:
        return "incomplete", None
    datagram = [None] * ends[0]
    for offset, _, payload in right:
        datagram[8 * offset:8 * offset + len(payload)] = payload
    if None in datagram:
        return "incomplete", None
    return "complete", bytes(datagram)


def answers(fragments):
    """The answer after each fragment that comes."""
    return [refusal(f) or said(fragments[:i + 1])[0] for i, f in enumerate(fragments)]


# Packets.


def checksum(header):
    total = sum(struct.unpack("!%dH" % (len(header) // 2), header))
    while total > 0xFFFF:
        total = (total & 0xFFFF) + (total >> 16)
    return 0xFFFF - total


def ipv4(source, destination, protocol, identification, offset, more, payload, ttl=64, options=b"",
         ecn=0):
    header = struct.pack(
        "!BBHHHBBH4s4s", 0x45 + len(options) // 4, ecn, 20 + len(options) + len(payload),
        identification, more << 13 | offset, ttl, protocol, 0, source, destination) + options
    return header[:10] + struct.pack("!H", checksum(header)) + header[12:] + payload


def ipv6(source, destination, next_header, body, hop_limit=64, ecn=0):
    return struct.pack("!IHBB16s16s", 6 << 28 | ecn << 20, len(body), next_header, hop_limit, source,
                       destination) + body


def fragment_header(next_header, offset, more, identification):
    return struct.pack("!BBHI", next_header, 0, offset << 3 | more, identification)


def walk(number, body):
    """The places of the extension headers of a body, each with its number, and the number and place
    of what follows. None if one is incomplete."""
    places, at = [], 0
    while number in EXTENSIONS:
        if len(body) < at + 2:
            return None
        second = body[at + 1]
        size = {44: 8, 51: 4 * (second + 2)}.get(number, 8 * (second + 1))
        if len(body) < at + size:
            return None
        places.append((number, at, size))
        later = number == 44 and struct.unpack_from("!H", body, at + 2)[0] >> 3
        number, at = body[at], at + size
        if later:
            break
    return places, number, at


def has_whole_chain(number, payload):
    """RFC 7112: the rest of the header chain is in the first fragment, with one of the headers that RFC 8200 section 4.5 names."""
    walked = walk(number, payload)
    if walked is None:
        return False
    _, upper, at = walked
    rest = payload[at:]
    if upper == 6:
        return len(rest) >= 20 and len(rest) >= 4 * (rest[12] >> 4)
    if upper == 4:
        return len(rest) >= 20 and len(rest) >= 4 * (rest[0] & 15)
    return len(rest) >= {17: 8, 41: 40, 50: 8, 58: 4}.get(upper, 0)


NOT_ECT, CE = 0, 3 # RFC 3168 section 5


def codepoint(packet):
    """the ECN codepoint of an IP packet"""
    return packet[1] & 3 if packet[0] >> 4 == 4 else packet[1] >> 4 & 3


def parsed(packet):
    """(id, fragment, what makes the packet of a payload and the ECN codepoints of all fragments) of a
    fragment; None if it is whole."""
    if packet[0] >> 4 == 4:
        size = 4 * (packet[0] & 15)
        word = struct.unpack_from("!H", packet, 6)[0]
        total = struct.unpack_from("!H", packet, 2)[0]
        offset, more = word & 0x1FFF, word >> 13 & 1
        if not offset and not more:
            return None
        ident = (4, packet[12:16], packet[16:20], packet[9], packet[4:6])

        def made(payload, codepoints):
            if size + len(payload) > MAX:
                return None
            header = bytearray(packet[:size])
            struct.pack_into("!H", header, 2, size + len(payload))
            struct.pack_into("!H", header, 6, word & 0x4000)
            header[1] |= CE if CE in codepoints else 0
            header[10:12] = b"\0\0"
            struct.pack_into("!H", header, 10, checksum(bytes(header)))
            return bytes(header) + payload

        return ident, (offset, bool(more), packet[size:total]), made, True
    body = packet[40:40 + struct.unpack_from("!H", packet, 4)[0]]
    before = 6
    for number, at, size in walk(packet[6], body)[0]:
        if number == 44:
            word, identification = struct.unpack_from("!HI", body, at + 2)
            if word >> 3 or word & 1:
                break
        before = 40 + at
    else:
        return None
    named = body[at]
    payload = body[at + 8:]
    ident = (6, packet[8:24], packet[24:40], identification)

    def made(datagram, codepoints):
        if at + len(datagram) > MAX:
            return None
        front = bytearray(packet[:40 + at])
        front[before] = named
        front[1] |= CE << 4 if CE in codepoints else 0
        struct.pack_into("!H", front, 4, at + len(datagram))
        return bytes(front) + datagram

    whole = word >> 3 != 0 or has_whole_chain(named, payload)
    return ident, (word >> 3, bool(word & 1), payload), made, whole


def said_of(entry):
    """What the fragments of a datagram say that came in packets with these ECN codepoints."""
    if {CE, NOT_ECT} <= entry["codepoints"]:
        return "discarded", None
    return said(entry["fragments"])


def run(packets):
    """The answer for each packet, and what was put together for each id."""
    found, out = {}, []
    for packet in packets:
        parts = parsed(packet)
        if parts is None:
            out.append("whole")
            continue
        ident, fragment, made, whole = parts
        why = refusal(fragment)
        if why or not whole:
            out.append(why or "refused-chain")
            continue
        entry = found.setdefault(ident, {"fragments": [], "codepoints": set(), "made": None})
        if fragment[0] == 0 and entry["made"] is None:
            entry["made"] = made
        entry["fragments"].append(fragment)
        entry["codepoints"].add(codepoint(packet))
        out.append(said_of(entry)[0])
    made = {}
    for ident, entry in found.items():
        state, datagram = said_of(entry)
        name = "/".join(x.hex() if isinstance(x, bytes) else str(x) for x in ident)
        packet = entry["made"](datagram, entry["codepoints"]) if state == "complete" else None
        made[name] = packet.hex() if packet else None
    return out, made


# Cases.


def cut(rng, datagram):
    """The datagram in pieces."""
    at, pieces = 0, []
    while at < len(datagram):
        size = min(len(datagram) - at, 8 * rng.choice([1, 1, 2, 3, rng.randint(1, 190)]))
        pieces.append((at // 8, at + size < len(datagram), datagram[at:at + size]))
        at += size
    return pieces


def spoiled(rng, pieces):
    """The pieces with something that another set says."""
    kind = rng.choice(["", "", "duplicate", "overlap", "inside", "two ends", "past end", "bytes",
                       "gap", "empty", "unaligned", "too long", "more at end"])
    offset, more, payload = rng.choice(pieces)
    if kind == "duplicate":
        pieces += rng.choices(pieces, k=rng.randint(1, 4))
    elif kind == "overlap":
        pieces.append((max(offset - 1, 0), more, payload))
    elif kind == "inside":
        pieces.append((offset, True, payload[:len(payload) // 16 * 8] or bytes(8)))
    elif kind == "two ends":
        pieces.append((offset, False, payload))
    elif kind == "past end":
        end = 8 * pieces[-1][0] + len(pieces[-1][2])
        pieces.append(((end + 7) // 8, rng.random() < 0.5, bytes(8 * rng.randint(1, 3))))
    elif kind == "bytes" and payload:
        pieces.append((offset, more, bytes([payload[0] ^ 1]) + payload[1:]))
    elif kind == "gap":
        pieces.remove((offset, more, payload))
    elif kind == "empty":
        pieces.append((offset, rng.random() < 0.5, b""))
    elif kind == "unaligned":
        pieces.append((offset, True, rng.randbytes(8 * rng.randint(0, 3) + rng.randint(1, 7))))
    elif kind == "too long":
        place = rng.randint(8000, 8191)
        pieces.append((place, False, rng.randbytes(MAX - 8 * place + rng.randint(0, 9))))
    elif kind == "more at end":
        pieces.append((offset, not more, payload))
    return pieces


def datagram_case(rng):
    datagram = rng.randbytes(rng.choice([1, 8, 17, rng.randint(1, 200), rng.randint(1, 4000)]))
    pieces = cut(rng, datagram)
    for _ in range(rng.randint(0, 2)):
        pieces = spoiled(rng, pieces) or [(0, False, b"x")]
    rng.shuffle(pieces)
    state, whole = said(pieces)
    return {"kind": "datagram", "fragments": [[o, m, p.hex()] for o, m, p in pieces],
            "answers": answers(pieces), "datagram": whole.hex() if state == "complete" else None}


def packets_case(rng):
    packets = []
    for _ in range(rng.randint(1, 3)):
        version, number = rng.choice([4, 6]), rng.choice([17, 6, 58, 132])
        most = rng.randint(0, 3)

        def ecn():
            """of most fragments the same; a router sets CE"""
            return rng.choice([CE, rng.randint(0, 3)]) if rng.random() < 0.1 else most

        upper = rng.randbytes(rng.randint(1, 600))
        if number == 6 and len(upper) > 12:
            upper = upper[:12] + bytes([rng.choice([0x50, 0x60, 0xF0])]) + upper[13:]
        identification = rng.randint(1, 3)
        extensions, first = rng.choice([(b"", None), (bytes([0, 0, 1, 4, 0, 0, 0, 0]), 0),
                                        (bytes([43]) + bytes([0, 1, 4, 0, 0, 0, 0]) + bytes(8), 0)])
        if version == 4:
            options = rng.choice([b"", bytes([1, 1, 1, 0])])
            for offset, more, payload in spoiled(rng, cut(rng, upper)):
                packets.append(ipv4(b"\x0a\0\0\1", b"\x0a\0\0\2", number, identification, offset,
                                    more, payload, rng.randint(1, 64), options, ecn()))
            continue
        for offset, more, payload in spoiled(rng, cut(rng, upper)):
            chain = bytearray(extensions)
            if chain:
                chain[8 * (len(chain) // 8 - 1) if len(chain) > 8 else 0] = 44
            if rng.random() < 0.05:
                offset, more, payload = 0, False, payload
            body = bytes(chain) + fragment_header(number, offset, more, identification) + payload
            packets.append(ipv6(bytes(15) + b"\1", bytes(15) + b"\2",
                                44 if first is None else first, body, rng.randint(1, 64), ecn()))
    packets = [p for p in packets if p[0] >> 4 == 6 or struct.unpack_from("!H", p, 2)[0] == len(p)]
    rng.shuffle(packets)
    out, made = run(packets)
    return {"kind": "packets", "packets": [p.hex() for p in packets], "answers": out,
            "packets_out": made}


def check(rng, count):
    """Every order of a set says the same, and a datagram that was cut is put together again."""
    for _ in range(count):
        datagram = rng.randbytes(rng.randint(1, 300))
        pieces = cut(rng, datagram)
        rng.shuffle(pieces)
        assert said(pieces + rng.choices(pieces, k=2)) == ("complete", datagram)
        pieces = spoiled(rng, spoiled(rng, pieces) or [(0, False, b"x")])
        before = said(pieces)
        again = pieces + rng.choices(pieces, k=3) if pieces else pieces
        rng.shuffle(again)
        assert said(again) == before
        case = packets_case(rng)
        assert len(case["answers"]) == len(case["packets"])
    print(f"{count} sets: each says the same in another order and with repetitions")


def main():
    parser = argparse.ArgumentParser(description=__doc__.splitlines()[0])
    parser.add_argument("--seed", type=int, default=1)
    parser.add_argument("--count", type=int, default=100)
    parser.add_argument("--check", action="store_true")
    args = parser.parse_args()
    rng = random.Random(args.seed)
    if args.check:
        return check(rng, args.count)
    for _ in range(args.count):
        json.dump(rng.choice([datagram_case, packets_case])(rng), sys.stdout)
        print()


if __name__ == "__main__":
    main()
