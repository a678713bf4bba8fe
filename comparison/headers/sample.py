#!/usr/bin/env python3
"""Cases for `crates/conformance/stdin`: of each kind of `random_cases.py` the first with each way to answer.

    sample.py cases      the cases, a line each
    sample.py answers    what the reference answers

The last lines are no cases.
"""
import random
import re
import sys

import random_cases
import reference

NO_CASES = ['link.ethernet2', 'link.vlan 0', 'link.sll3 00', 'link.arp_new 1 2048 1 - - -', 'ext.auth 0G', 'ext.append 1 5', 'ext.chain 256 -',
            'udp.new 65536 0 0', 'tcp.elements 1 ttl', 'tcp.elements 1 scale 256', 'icmp.v5 -', 'icmp.v6 00 00 -',
            'build 0 none single 8 0 0 6 0 0 0 0 0 ' + '00' * 16 + ' ' + '00' * 16 + ' ip 59 -', 'build 65536', 'vlan_id.new 65536',
            'vlan_pcp.old 1']

# Messages of ICMP whose checksums scapy makes, one with an unused byte that is not 0, kinds without a name, and short ones.
WORKED = [*(f'icmp.v4 {message}' for message in (
              '030432bd0000057861626364', '030138380000000061626364', '0b0030390000000061626364', '0c001b391400000061626364',
              '0b00f4ee00110000', '0801000001020304', '08000000000000', '0d0000000000000000', '0e00000000000000',
              '0d01000000000000')),
          *(f'icmp.v6 20010db8{1:024x} 20010db8{2:024x} {message}' for message in (
              '8700ef7c000000002001', '8f001020000000010400', '80000000000000'))]


def way(answer):
    """How a case is answered: its names without its values."""
    refused = re.search(r'err [A-Za-z_]+(\([A-Za-z]+)?( [A-Z][A-Za-z]+\()?', answer)
    kind = re.search(r'kind=[A-Za-z0-9]+', answer)
    source = re.search(r'source=[A-Z][A-Za-z]+ layer=[A-Za-z0-9]+', answer)
    return refused and refused.group(), kind and kind.group(), source and source.group()


def sampled():
    found = []
    for kind in random_cases.KINDS:
        seen, rng = set(), random.Random(f'sample {kind}')
        for case in random_cases.cases(kind, rng, 4000):
            answer = reference.answer(case)
            if len(case) <= 4200 and way(answer) not in seen:
                seen.add(way(answer))
                found.append((case, answer))
    fields = ['vlan_id.new 4095', 'vlan_id.try 4096', 'vlan_pcp.new 8', 'vlan_pcp.try 7']
    return found + [(case, reference.answer(case)) for case in WORKED + fields] + [(case, 'bad line') for case in NO_CASES]


if __name__ == '__main__':
    for pair in sampled():
        print(pair[sys.argv[1:] == ['answers']])
