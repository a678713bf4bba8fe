"""The addresses that a checksum covers: the original source and the final destination of a packet,
past the stops that are left, after the RFCs."""


def extension_len(number, body):
    """RFC 8200 section 4, RFC 4302 section 2.2; RFC 6275, 7401, 5533 for 135, 139, 140"""
    if len(body) < 2:
        return 2
    if number == 44:
        return 8
    return (body[1] + 2) * 4 if number == 51 else (body[1] + 1) * 8


def stops_of(header):
    """the stops of a routing header in the order in which they are visited, without the bytes that
    they share with the destination; nothing if it is of another type, or malformed"""
    kind, units = header[2], header[1]
    if kind == 0 and units % 2 == 0:
        # RFC 2460 section 4.4
        return [header[8 + 16 * i:24 + 16 * i] for i in range(units // 2)]
    if kind == 2 and units == 2:
        # RFC 6275 section 6.4
        return [header[8:]]
    if kind == 3:
        # RFC 6554 section 3: n and the sizes of addresses by CmprI, CmprE and Pad
        each, last, padding = 16 - header[4] // 16, 16 - header[4] % 16, header[5] // 16
        before, odd = divmod(8 * units - padding - last, each)
        if before < 0 or odd:
            return []
        ends = [8 + each * i for i in range(before + 1)] + [8 + each * before + last]
        return [header[a:b] for a, b in zip(ends, ends[1:])]
    if kind == 4 and 2 * (header[4] + 1) <= units:
        # RFC 8754 section 2: the list is encoded from the last segment on
        return [header[8 + 16 * i:24 + 16 * i] for i in range(header[4], -1, -1)]
    return []


def past_source_route(destination, options):
    """Where a packet goes past the stops that are left: RFC 791 section 3.1. Each stop takes the
    address that the pointer tells, and moves that on, as long as the option says one it can take.
    """
    place = 0
    while place < len(options) and options[place] != 0:
        if options[place] == 1:
            place += 1
            continue
        option = options[place:place + (options[place + 1] if place + 1 < len(options) else 0)]
        if len(option) < 2 or len(option) < option[1]:
            break
        if option[0] in (131, 137):
            stop, pointer = destination, option[2] if len(option) > 2 else 0
            while pointer <= len(option):
                if pointer < 4 or pointer % 4 or pointer + 3 > len(option):
                    return destination
                stop = option[pointer - 1:pointer + 3]
                pointer += 4
            return stop
        place += len(option)
    return destination


def final_destination(destination, chain, body):
    """where a packet goes past the stops that are left, or None: RFC 8200 sections 4.4 and 8.1; a
    payload header of Shim6 leaves that to its receiver (RFC 5533 section 5.1)"""
    for number, place in chain:
        header = body[place:place + extension_len(number, body[place:])]
        if number == 140 and header[2] >> 7:
            return None
        if number == 43 and header[3] > 0:
            stops = stops_of(header)
            if header[3] > len(stops) or header[2] == 2 and header[3] > 1:
                return None
            destination = destination[:16 - len(stops[-1])] + stops[-1]
    return destination


def original_source(source, chain, body):
    """the original source of a packet, by its Home Address options, or None: RFC 6275 sections 6.3
    and 11.3.1; a payload header of Shim6 leaves that to its receiver"""
    for number, place in chain:
        header = body[place:place + extension_len(number, body[place:])]
        if number == 140 and header[2] >> 7:
            return None
        if number == 60:
            for option in options_of(header):
                if option[0] == 201 and len(option) == 18:
                    source = option[2:]
    return source


def options_of(header):
    """the options of a header that are whole: RFC 8200 section 4.2"""
    place = 2
    while place < len(header):
        length = 1 if header[place] == 0 else 2 + (header[place + 1:place + 2] or b'\xff')[0]
        if place + length <= len(header):
            yield header[place:place + length]
        place += length
