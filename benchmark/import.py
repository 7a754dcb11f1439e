#!/usr/bin/env python3
"""Reads a table, as a plain script does it, and says how many reports it has: import.py FILE

The same job as `udgornwy import` on a table that is in form, for the benchmark alone; nothing else uses it.
"""
import csv
import re
import sys

HEADER = ["board", "direction", "counter", "number", "value"]
BOARD = re.compile(r"x[0-9A-F]{32}").fullmatch
COUNTER = re.compile(r"0|[1-9][0-9]{0,9}").fullmatch
NUMBER = re.compile(r"0x[0-9A-F]{4}").fullmatch
VALUE = re.compile(r"x(?:[0-9A-F]{2}){0,255}").fullmatch


def main():
    reports = 0
    with open(sys.argv[1], newline="") as file:
        table = csv.reader(file, strict=True)
        if next(table, None) != HEADER:
            sys.exit("line 1: refused with 60")
        for line, row in enumerate(table, 2):
            if len(row) != 5:
                sys.exit(f"line {line}: refused with 62")
            board, direction, counter, number, value = row
            in_form = BOARD(board) and direction == "1" and COUNTER(counter) and NUMBER(number) and VALUE(value)
            if not in_form or int(counter) >= 1 << 32:
                sys.exit(f"line {line}: refused with 63")
            bytes.fromhex(board[1:]), bytes.fromhex(number[2:]), bytes.fromhex(value[1:])
            reports += 1
    print(reports)


main()
