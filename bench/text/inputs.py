#!/usr/bin/env python3
"""Two inputs of linear rows for bench/text/run: every cell filled, and a usual part program. usage: inputs.py FOLDER"""
import random
import sys

HEADER = "line_no,gg01_motion,gg06_plane_select,X,Y,Z,I,J,K,CR,TURN,PW,SD,F\r\n"
random.seed(7)


def number():
    places, width = random.randint(0, 6), random.randint(1, 9)
    sign = "-" if random.random() < 0.4 else ""
    whole = str(random.randint(0, 10 ** width - 1)).zfill(random.choice([1, width]))
    return sign + whole + ("." + str(random.randint(0, 10 ** places - 1)).zfill(places) if places else "")


def full(n):
    cells = [number() for _ in range(11)]
    cells[7] = f"{random.uniform(0, 999):.6f}"      # TURN, at most 1,000
    words = random.choice(["", "G0", "G1"]), random.choice(["", "G17", "G18", "G19"])
    return ",".join([str(random.randint(0, 4294967295)), *words, *cells]) + "\r\n"


def usual(n):
    x, y, z = random.uniform(-500, 500), random.uniform(-500, 500), random.uniform(-50, 50)
    return f"{n},{'G1' if n % 50 == 1 else ''},,{x:.3f},{y:.3f},{z:.3f},,,,,,,,{'1200' if n % 100 == 1 else ''}\r\n"


for name, line, count in (("full", full, 100000), ("usual", usual, 600000)):
    with open(f"{sys.argv[1]}/{name}.csv", "w", newline="") as file:
        file.write(HEADER)
        file.writelines(line(n) for n in range(1, count + 1))
