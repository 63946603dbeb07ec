#!/usr/bin/env python3
"""Counts the answers on standard input by number, and by number and place."""
import collections
import sys

numbers, places = collections.Counter(), collections.Counter()
for line in sys.stdin:
    words = line.split(" ")
    numbers[words[0].strip()] += 1
    if len(words) > 1 and words[0] not in ("0", "12"):
        places[words[0], words[1].strip()] += 1
total = sum(numbers.values())
for number, count in sorted(numbers.items(), key=lambda item: item[0].zfill(3)):
    where = [f"{place}:{c}" for (n, place), c in places.most_common() if n == number][:9]
    print(f"{number:>3} {count:7} {100 * count / total:5.1f}%  {' '.join(where)}")
