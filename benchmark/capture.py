#!/usr/bin/env python3
"""Writes a capture of about so many megabytes to standard output: capture.py MEGABYTES [VERSION]

As many boards as that version of the form can have (2 if none is given) are asked and answer in turn, as a polling script's packets
are; one packet in sixteen is damaged. The same numbers give the same bytes.
"""
import struct
import sys
from random import Random

MOST = 1 << 20
# Of each version the most boards, and a board count or index as `struct` writes it.
VERSIONS = {1: (16, "B"), 2: (1000, "H")}


def packet(identity, function, block):
    body = b"\x02\x10" + identity + b"\x041111" + bytes([function]) + block
    return b"\xfd\xfd" + body + struct.pack("<H", sum(body))


def block(random, valued):
    items = bytearray()
    for low in random.sample(range(0x01, 0xC0), random.randrange(1, 30)):
        items += bytes([low, random.randrange(256)]) if valued else bytes([low])
    return bytes(items)


def record(random, form, index, identity, direction, counter):
    function, valued = (6, True) if direction else (1, False)
    sent = bytearray(packet(identity, function, block(random, valued)))
    if random.randrange(16) == 0:
        sent[random.randrange(len(sent))] ^= 1 << random.randrange(8)
    return struct.pack(f"<{form}BIH", index, direction, counter, len(sent)) + sent


def main():
    random = Random(1)
    version = int(sys.argv[2]) if len(sys.argv) > 2 else 2
    boards, form = VERSIONS[version]
    identities = [board.to_bytes(16, "big") for board in range(boards)]
    output = sys.stdout.buffer
    output.write(b"VLG" + struct.pack(f"<H{form}", version, boards) + b"".join(identities))
    left, counter = int(sys.argv[1]) * 1_000_000, 0
    # A megabyte that is written again and again: making each record anew would take longer than all that is measured.
    records = bytearray()
    while len(records) < MOST:
        for index, identity in enumerate(identities):
            records += record(random, form, index, identity, 0, counter)
            records += record(random, form, index, identity, 1, counter + 40)
            counter += 2000
    while 0 < left:
        output.write(records)
        left -= len(records)


main()
