"""Captures as a plain script reads and judges them, for the benchmark's scripts alone."""
from struct import Struct

# Of each version, by its bytes, the most boards and the fields of head and record.
VERSIONS = {
    b"\x01\x00": (16, Struct("<B"), Struct("<BBIH")),
    b"\x02\x00": (1000, Struct("<H"), Struct("<HBIH")),
}


def request_is_well_formed(block, function):
    at, end = 0, len(block)
    default = 1 if function in (2, 3) else 0
    while at < end:
        byte = block[at]
        at += 1
        if byte <= 0xFB:
            at += default
        elif byte == 0xFC:
            if at == end or not 1 <= block[at] <= 5:
                return False
            default = 1 if block[at] in (2, 3) else 0
            at += 1
        elif byte == 0xFE:
            if at + 1 >= end or block[at] == 0 or block[at + 1] > 0xFB:
                return False
            at += 2 + block[at]
        elif byte == 0xFF:
            if at == end:
                return False
            at += 1
        else:
            return False
    return at == end


def response_is_well_formed(block):
    at, end = 0, len(block)
    while at < end:
        byte = block[at]
        if byte <= 0xFB:
            at += 2
        elif byte == 0xFD:
            if at + 1 >= end or block[at + 1] > 0xFB:
                return False
            at += 2
        elif byte == 0xFE:
            if at + 2 >= end or block[at + 1] == 0 or block[at + 2] > 0xFB:
                return False
            at += 3 + block[at + 1]
        elif byte == 0xFF:
            at += 2
        else:
            return False
    return at == end


def judge(direction, packet):
    """The number of the packet's refusal, 0 for none."""
    size = len(packet)
    if not 24 <= size <= 256:
        return 2
    if packet[0] != 0xFD or packet[1] != 0xFD:
        return 3
    if sum(packet[2:-2]) != packet[-2] + 256 * packet[-1]:
        return 4
    if packet[2] != 0x02 or packet[3] != 0x10:
        return 5
    password = packet[20]
    if password > 8 or size < 24 + password:
        return 6
    function = packet[21 + password]
    block = packet[22 + password : -2]
    if direction == 1:
        if function != 6:
            return 9
        return 0 if response_is_well_formed(block) else 10
    if not 1 <= function <= 5:
        return 9
    return 0 if request_is_well_formed(block, function) else 10


class Capture:
    """The IDs of a capture, and the number of its refusal, 0 for none: 53 is known when all records have been taken."""

    def __init__(self, capture):
        self.capture, self.ids, self.refused = capture, [], 0
        if capture[:3] != b"VLG":
            self.refused = 50
            return
        version = VERSIONS.get(capture[3:5])
        if version is None:
            self.refused = 51
            return
        most, count, self.fields = version
        end = len(capture)
        boards = count.unpack_from(capture, 5)[0] if 5 + count.size <= end else 0
        start = 5 + count.size
        self.at = start + 16 * boards
        if not 1 <= boards <= most or end < self.at:
            self.refused = 52
            return
        self.ids = [capture[at : at + 16] for at in range(start, self.at, 16)]

    def records(self):
        """Index, direction, counter and packet of each record, up to the refusal."""
        if self.refused:
            return
        capture, at, fields, boards = self.capture, self.at, self.fields, len(self.ids)
        end = len(capture)
        while at < end:
            if end - at < fields.size:
                self.refused = 53
                return
            index, direction, counter, size = fields.unpack_from(capture, at)
            at += fields.size
            if index >= boards or direction > 1 or size > 256 or end - at < size:
                self.refused = 53
                return
            yield index, direction, counter, capture[at : at + size]
            at += size
