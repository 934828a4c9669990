#!/usr/bin/env python3
"""The row text of docs/RULES.md, section 7, written a second time, and the cases that a flatcsv is held against.

usage: tests/text/model.py ORACLE < in > out 2> err      what flatcsv must answer
       tests/text/model.py ORACLE --make                 write NAME.in, NAME.out and NAME.err of every case

The text is read and written here, from the rules alone. What a block is flattened to is asked of ORACLE, a
program that answers calls as the program `replay` does.
"""
import os
import struct
import subprocess
import sys

HEADER = b"line_no,gg01_motion,gg06_plane_select,X,Y,Z,I,J,K,CR,TURN,PW,SD,F"
HEADER_OUT = HEADER + b",flattened"
# The cells of a row, each at its code, and those that row text has a column for.
CELLS = "X Y Z A B C U V W E A2 B2 C2 U2 V2 W2 N F S D T I J K CR TURN PW SD PL".split()
COLUMNS = HEADER.decode().split(",")[3:]
CODES = [CELLS.index(name) for name in COLUMNS]
WORDS = [b"", b"G0", b"G1", b"G2", b"G3", b"ASPLINE", b"BSPLINE", b"CSPLINE", b"CIP", b"CT", b"POLY", b"G33", b"G34",
         b"G35", b"INVCW", b"INVCCW"]
PLANES = {b"": 0, b"G17": 17, b"G18": 18, b"G19": 19}
BAD_TEXT = 10


class Bad(Exception):
    """Text that is not the layout, or a number that has no text."""


def digits(text, least, most):
    if not least <= len(text) <= most or any(c not in b"0123456789" for c in text):
        raise Bad
    return int(text)


def number_in(text):
    minus = text.startswith(b"-")
    whole, point, part = (text[1:] if minus else text).partition(b".")
    n, k = digits(whole, 1, 9), 0
    if point:
        k = len(part)
        n = n * 10 ** k + digits(part, 1, 6)
    return -(n / 10 ** k) if minus and n else n / 10 ** k


def number_out(x):
    whole, parts = abs(x).as_integer_ratio()
    n, rest = divmod(whole * 10 ** 6, parts)
    n += 2 * rest > parts or 2 * rest == parts and n % 2       # a tie goes to the even one
    if n >= 10 ** 15:
        raise Bad
    sign = b"-" if x < 0 and n else b""
    return sign + b"%d.%06d" % (n // 10 ** 6, n % 10 ** 6)


def row_in(text):
    fields = text.split(b",")
    if len(fields) != 3 + len(CODES):
        raise Bad
    line = digits(fields[0], 1, 10)
    if line > 4294967295 or fields[1] not in WORDS or fields[2] not in PLANES:
        raise Bad
    cells = {code: number_in(f) for code, f in zip(CODES, fields[3:]) if f}
    return line, WORDS.index(fields[1]), PLANES[fields[2]], cells


def row_out(row):
    line, motion, plane, mark, cells = row
    fields = [b"%d" % line, WORDS[motion], b"G%d" % plane if plane else b""]
    fields += [number_out(cells[code]) if code in cells else b"" for code in CODES]
    return b",".join(fields + [b"1" if mark else b""]) + b"\r\n"


def bits(x):
    return struct.pack(">d", x).hex()


def call_of(row, carry=0):
    line, motion, plane, cells = row
    presence = sum(1 << code for code in cells)
    return " ".join([f"push {line} {motion} {plane} {carry:x} {presence:x}"] + [bits(cells[c]) for c in sorted(cells)])


def answered(text):
    """The rows, the warning and the refusal of each call, from the lines of the oracle."""
    rows, warning, refusal = [], 0, 0
    for words in (line.split() for line in text.splitlines()):
        if words[0] == "row":
            presence = int(words[6], 16)
            numbers = iter(struct.unpack(">d", bytes.fromhex(w))[0] for w in words[7:])
            cells = {k: next(numbers) for k in range(len(CELLS)) if presence >> k & 1}
            rows.append((int(words[1]), int(words[2]), int(words[3]), int(words[4]), cells))
        elif words[0] == "warn":
            warning = int(words[1])
        elif words[0] == "refused":
            refusal = int(words[1])
        elif words[0] == "done":
            yield rows, warning, refusal
            rows, warning, refusal = [], 0, 0


def flatcsv(oracle, data):
    """What is written to standard output and to standard error."""
    # Physical lines end at LF: a line that lacks its CR, or the last one without an end, is bad.
    physical = data.split(b"\n")
    whole = physical[:-1]
    if not whole or whole[0] != HEADER + b"\r":
        return b"", b"1,%d,refused\r\n" % BAD_TEXT
    rows, bad_at = [], None
    for at, text in enumerate(physical[1:], 2):
        last = at == len(physical)
        if last and text == b"":
            break
        try:
            if last or not text.endswith(b"\r"):
                raise Bad
            rows.append(row_in(text[:-1]))
        except Bad:
            bad_at = at
            break
    calls = ["start 3fb999999999999a 0,1,2", "room 256"] + [call_of(r) for r in rows]
    if bad_at is None:
        calls.append("close")
    ran = subprocess.run([oracle], input="\n".join(calls) + "\n", capture_output=True, text=True, check=True)
    out, err = HEADER_OUT + b"\r\n", b""
    assert "bad" not in ran.stdout
    answers = list(answered(ran.stdout))[1:]
    sources = [r[0] for r in rows]
    if bad_at is None:
        sources.append(rows[-1][0] if rows else 0)
    for source, (made, warning, refusal) in zip(sources, answers):
        try:
            text = b"".join(row_out(r) for r in made)
        except Bad:
            refusal = BAD_TEXT
        if refusal:
            return out, err + b"%d,%d,refused\r\n" % (source, refusal)
        if warning:
            err += b"%d,%d\r\n" % (source, warning)
        out += text
    if bad_at is not None:
        err += b"%d,%d,refused\r\n" % (bad_at, BAD_TEXT)
    return out, err


# ---- the cases
def line(n, motion="", plane="", **cells):
    return ",".join([str(n), motion, plane] + [str(cells.get(k, "")) for k in COLUMNS]).encode()


def program(*lines):
    return b"".join(t + b"\r\n" for t in (HEADER,) + lines)


def cases():
    good = line(1, "G1", "G17", X=1, Y=2, F=100)
    yield "empty", b""
    yield "header_only", HEADER + b"\r\n"
    yield "header_without_end", HEADER
    yield "header_lf", HEADER + b"\n" + good + b"\r\n"
    yield "header_wrong", HEADER.replace(b"TURN", b"TURNS") + b"\r\n" + good + b"\r\n"
    yield "header_lower_case", HEADER.lower() + b"\r\n" + good + b"\r\n"
    yield "header_second", HEADER_OUT + b"\r\n" + good + b"\r\n"
    yield "header_twice", program(HEADER, good)
    yield "bom", b"\xef\xbb\xbf" + program(good)
    yield "lf_alone", program(good) + line(2, X=3) + b"\n" + line(3, X=4) + b"\r\n"
    yield "cr_alone", program(good) + line(2, X=3) + b"\r" + line(3, X=4) + b"\r\n"
    yield "no_last_end", program(good) + line(2, X=3)
    yield "cr_at_the_end", program(good) + line(2, X=3) + b"\r"
    yield "blank_line", program(good, b"", line(2, X=3))
    yield "blank_at_the_end", program(good, b"")
    yield "quotes", program(good, b'2,"G1",,1,,,,,,,,,,')
    yield "blank_in_field", program(good, b"2,G1,, 1,,,,,,,,,,")
    yield "tab", program(good, b"2,G1,,\t1,,,,,,,,,,")
    yield "nul", program(good, b"2,G1,,1\x00,,,,,,,,,,")
    yield "fields_13", program(good, b"2,G1,,1,,,,,,,,,")
    yield "fields_15", program(good, b"2,G1,,1,,,,,,,,,,,")
    yield "fields_1", program(good, b"2")
    for name, text in [("point_first", ".5"), ("point_last", "5."), ("plus", "+1"), ("exponent", "1e3"), ("two_points", "1.2.3"),
                       ("minus_alone", "-"), ("minus_point", "-.5"), ("two_minus", "--1"), ("ten_digits", "1234567890"),
                       ("seven_decimals", "1.1234567"), ("hex", "0x1"), ("nan", "NaN"), ("inf", "inf"), ("colon", "1:2"), ("slash", "1/2")]:
        yield "number_" + name, program(good, line(2, X=text))
    yield "line_empty", program(good, b",G1,,1,,,,,,,,,,")
    yield "line_minus", program(good, b"-1,G1,,1,,,,,,,,,,")
    yield "line_point", program(good, b"1.0,G1,,1,,,,,,,,,,")
    yield "line_4294967296", program(good, line(4294967296, X=1))
    yield "line_11_digits", program(good, line("00000000001", X=1))
    yield "line_most", program(line(4294967295, "G1", X=1), line(0, X=2))
    yield "line_leading_zeros", program(line("0000000007", "G1", X=1))
    yield "motion_lower_case", program(good, line(2, "g1", X=1))
    yield "motion_G01", program(good, line(2, "G01", X=1))
    yield "motion_spare", program(good, line(2, "SPARE", X=1))
    yield "motion_too_long", program(good, line(2, "ASPLINES", X=1))
    yield "motion_plane_word", program(good, line(2, "G17", X=1))
    yield "plane_motion_word", program(good, line(2, "", "G1", X=1))
    yield "plane_G20", program(good, line(2, "", "G20", X=1))
    yield "numbers_read", program(
        line(1, "G1", "", X="-0", Y="0", Z="-0.000000"), line(2, X="000000001", Y="-000000001.5", Z="999999999.999999"),
        line(3, X="-999999999.999999", Y="0.000001", Z="-0.000001"), line(4, X="0.1", Y="0.2", Z="0.3"), line(5, X="123456789.123456", F="0.5"))
    yield "every_cell", program(line(1, "G1", "G19", X=1, Y=-2, Z=3.5, I=4, J=-5, K=6, CR=7, TURN=8, PW=9, SD=10, F=11))
    yield "planes", program(line(1, "G0", "G17", X=1), line(2, "", "G18", Y=2), line(3, "", "G19", Z=3), line(4, "", "", X=4))
    yield "words_warn_once", program(*[line(n, w, X=n) for n, w in enumerate(
        ["CIP", "CT", "POLY", "G33", "G34", "G35", "INVCW", "INVCCW", "CIP", "", "G33", "G1"], 1)])
    yield "turn_1000", program(good, line(2, "G1", X=1, TURN=1000), line(3, X=2, TURN="1000.000001"), line(4, X=3))
    yield "no_axes", program(line(1, "G1"), line(2, "", "", F=5), line(3))
    yield "whole_case", program(
        line(1, "G1", "G17", X=0.04, Y=0, F=1000), line(2, "G3", "", X=0, Y=0.04, I=-0.04), line(3, "ASPLINE", "", X=10, Y=0.04),
        line(4, X=20), line(5, F=500), line(6, "G1", "", X=0, Y=0))
    yield "arc_quarter", program(line(1, "G1", "G17", X=10, Y=0), line(2, "G3", "", X=0, Y=10, I=-10), line(3, "G2", "", X=10, Y=0, CR=10))
    yield "arc_warnings", program(line(1, "G3", "", X=1, Y=1, I=1), line(2, "G1", "", X=0, Y=0), line(3, "G2", "", X=10, Y=0),
                                  line(4, "G2", "", X=20, Y=0, CR=1), line(5, "G2", "", CR=1, X=20, Y=0), line(6, "G3", "", X=20, Y=1, I=0, J=0))
    yield "arc_too_many_rows", program(line(1, "G1", "G17", X=10000, Y=0), line(2, "G3", "", X=10000, Y=0, I=-10000), line(3, "G1", "", X=1))
    yield "no_sign_on_zero", program(line(1, "G1", "", X=0, Y=0, Z=0), line(2, "ASPLINE", "", X=10, Y=8, Z="-0.000001"), line(3, X=20, Y=0, Z=0), line(4, X=30, Y=8, Z="0.000001"), line(5, "G1", "", X=0))
    yield "ties_to_even", program(line(1, "G1", "", X=0, Y=0, Z=0), line(2, "BSPLINE", "", X=10, Y=8, Z=0.015625, SD=2), line(3, X=20, Y=0, Z=0.03125),
                                  line(4, "G1", "", X=0, Y=0, Z=0), line(5, "BSPLINE", "", X=10, Y=8, Z=-0.015625, SD=2), line(6, X=20, Y=0, Z=-0.03125), line(7, "G1", "", Z=0))
    yield "spline_at_the_end", program(line(1, "G1", "", X=0, Y=0), line(2, "BSPLINE", "", X=10, Y=0), line(3, X=10, Y=10), line(4, X=20, Y=10))
    yield "spline_cubic", program(line(1, "G1", "", X=0, Y=0), line(2, "CSPLINE", "", X=10, Y=5), line(3, X=20, Y=-5), line(4, X=30, Y=0), line(5, "G1", X=40))
    yield "bad_text_while_held", program(line(1, "G1", "", X=0, Y=0), line(2, "ASPLINE", "", X=10, Y=0), line(3, X=20, Y=1)) + b"4,,,x\r\n"
    straight = [line(1, "ASPLINE", "", X=1)] + [line(n, X=n) for n in range(2, 257)]
    yield "blocks_256_at_the_end", program(*straight)
    yield "blocks_256_then_g1", program(*straight, line(257, "G1", X=300))
    yield "blocks_256_then_cubic", program(*straight, line(257, "CSPLINE", X=300))
    yield "blocks_257", program(*straight, line(257, X=300))
    zigzag = [line(1, "G1", "", X=0, Y=0)] + [line(n, "ASPLINE" if n == 2 else "", X=10 * n, Y=50 * (n % 2)) for n in range(2, 60)]
    yield "over_256_rows_at_the_end", program(*zigzag)
    bulge = [line(1, "G1", "", X=999999990, Y=0), line(2, "CSPLINE", "", X="999999999.999999", Y=10), line(3, X="999999999.999999", Y=20), line(4, X=999999990, Y=30)]
    yield "number_out_too_large", program(*bulge, line(5, "G1", "", X=0), line(6, X=1))
    yield "number_out_too_large_at_the_end", program(*bulge)
    yield "many_rows", program(*[line(n, "G1" if n % 3 else "G0", X=n / 8, Y=-n, F=n % 7) for n in range(1, 3000)])


def main():
    oracle = sys.argv[1]
    if "--make" in sys.argv:
        home = os.path.dirname(os.path.abspath(__file__))
        for name, text in cases():
            out, err = flatcsv(oracle, text)
            for kind, data in (("in", text), ("out", out), ("err", err)):
                with open(f"{home}/{name}.{kind}", "wb") as file:
                    file.write(data)
        return
    out, err = flatcsv(oracle, sys.stdin.buffer.read())
    sys.stdout.buffer.write(out)
    sys.stderr.buffer.write(err)


if __name__ == "__main__":
    if len(sys.argv) < 2:
        sys.exit(__doc__)
    main()
