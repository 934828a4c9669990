#!/usr/bin/env python3
"""Holds an output of flatcsv to its linear input: each number the same decimal, six decimals, no sign on zero.
usage: again.py IN OUT AGAIN     AGAIN gets the output's rows, as an input
"""
import sys
from decimal import Decimal

given, made = (open(name, "rb").read().decode().split("\r\n") for name in sys.argv[1:3])
count = 0
for before, after in zip(given[1:-1], made[1:-1], strict=True):
    before, after = before.split(","), after.split(",")
    assert int(before[0]) == int(after[0]) and before[1:3] == after[1:3] and after[14] == "", (before, after)
    for text, again in zip(before[3:], after[3:14], strict=True):
        assert (text == "") == (again == "")
        if text:
            assert Decimal(text) == Decimal(again) and len(again.split(".")[1]) == 6, (text, again)
            assert again[0] != "-" or Decimal(again) != 0, again
            count += 1
with open(sys.argv[3], "w", newline="") as file:
    file.write("\r\n".join([given[0]] + [row.rsplit(",", 1)[0] for row in made[1:-1]] + [""]))
print(f"{count} numbers written as they were read")
