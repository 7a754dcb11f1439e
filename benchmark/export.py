#!/usr/bin/env python3
"""The table of a capture, as a plain script does it: export.py FILE

The same job as the proved program `export`, for the benchmark alone; nothing else uses it.
"""
import sys

from captured import Capture, judge

# The digits of each byte: faster than formatting it.
DIGITS = [f"{byte:02X}" for byte in range(256)]


def rows(front, block):
    """The lines of a well-formed block, each with what stands before its number."""
    at, end, page = 0, len(block), "00"
    while at < end:
        byte = block[at]
        if byte <= 0xFB:
            yield f'{front}{page}{DIGITS[byte]}","x{DIGITS[block[at + 1]]}"\r\n'
            at += 2
        elif byte == 0xFD:
            yield f'{front}{page}{DIGITS[block[at + 1]]}","x"\r\n'
            at += 2
        elif byte == 0xFE:
            size, low = block[at + 1], block[at + 2]
            at += 3
            yield f'{front}{page}{DIGITS[low]}","x{block[at : at + size].hex().upper()}"\r\n'
            at += size
        else:
            page = DIGITS[block[at + 1]]
            at += 2


def main():
    with open(sys.argv[1], "rb") as file:
        capture = Capture(file.read())
    boards = [f'"x{identity.hex().upper()}","1","' for identity in capture.ids]
    out, refused = sys.stdout, 0
    out.reconfigure(newline="")
    out.write('"board","direction","counter","number","value"\r\n')
    for index, direction, counter, packet in capture.records():
        if direction != 1:
            continue
        if judge(1, packet):
            refused += 1
            continue
        block = packet[22 + packet[20] : -2]
        out.write("".join(rows(f'{boards[index]}{counter}","0x', block)))
    out.write(f"refused,{refused}\n")
    if capture.refused:
        out.write(f"capture,{capture.refused}\n")


main()
