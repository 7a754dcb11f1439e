#!/usr/bin/env python3
"""The summary of a capture, as a plain script does it: summary.py FILE

The same job as the proved program `summary`, for the benchmark alone; nothing else uses it.
"""
import sys
from collections import Counter

from captured import Capture, judge


def main():
    with open(sys.argv[1], "rb") as file:
        capture = Capture(file.read())
    counts = Counter()
    for index, direction, _, packet in capture.records():
        counts[index, judge(direction, packet)] += 1
    for (index, number), count in sorted(counts.items()):
        print(f"{index},{number},{count}")
    if capture.refused:
        print(f"refused,{capture.refused}")


main()
