#!/usr/bin/env python3
"""What a tally answers (docs/RULES.md, section 9): it keeps each job's calls as a list and counts over it whenever it is asked.
Words that were poked are what a job's figures and tries stand at before its list. It was written from the order for the tally, with
hosts/c/tally.h beside it, when neither section 9 nor a crate of the tally was in its tree.

model.py CALLS [ANSWERS]: the answers that hosts/c/replay.c owes to the lines of the file CALLS. What the flattener's calls among
them answered is taken from ANSWERS: those of the same lines without the tally's.
"""
import collections
import re
import sys

JOBS, WARNINGS, REFUSALS = 64, 15, 31
FIGURES = 3 + WARNINGS + REFUSALS
SLOT = 1 + FIGURES + 1
WORDS = 1 + JOBS * SLOT
MOST_WORDS = 4096
MOST_ROOM = 131072
PAST = 2**64
START, SEED, PUSH, CLOSE = range(4)
DONE, NO_CALL, NO_ROOM, NO_TALLY, NO_MORE = 0, 4, 7, 9, 11

# Why a call is not taken, by the refusal's number.
WHY = {
    "length": NO_TALLY, "job count": NO_TALLY, "try word": NO_TALLY,
    "kind": NO_CALL, "code": NO_CALL, "warning": NO_CALL, "rows not lent": NO_CALL, "mark": NO_CALL,
    "65th job": NO_MORE, "figure": NO_MORE,
}

Call = collections.namedtuple("Call", "kind code count warning marked")


def figures_of(call):
    """The figures that a call raises, from 0 on: blocks, rows, marked rows, warnings 1 to 15, refusals 1 to 31."""
    if call.code == DONE:
        yield 0, int(call.kind == PUSH)
        yield 1, call.count
        yield 2, call.marked
    else:
        yield 2 + WARNINGS + call.code, 1
    if call.warning:
        yield 2 + call.warning, 1


def closes(call):
    return call.kind == CLOSE and call.code == DONE


def fails(call):
    return call.warning != 0 or call.code not in (DONE, NO_ROOM)


def cut(calls):
    """The closed tries, each up to and with its accepted close, and the open one."""
    tries, now = [], []
    for call in calls:
        now.append(call)
        if closes(call):
            tries.append(now)
            now = []
    return tries, now


class Slot:
    """A job's number, its words as they last were poked, and the calls since."""

    def __init__(self, job=0):
        self.job = job
        self.at_first = [0] * FIGURES
        self.tries = 0
        self.calls = []
        self.near_the_end = False

    def figures(self):
        sums = list(self.at_first)
        for call in self.calls:
            for k, n in figures_of(call):
                sums[k] += n
        return sums

    def try_word(self):
        """Bits: a try is closed, the first passed, the final passed, the open one failed."""
        tries, left = cut(self.calls)
        passed = [not any(map(fails, t)) for t in tries]
        was_closed, first, final, failed = (self.tries >> b & 1 for b in range(4))
        if passed and failed:
            passed[0] = False
        if passed:
            first = first if was_closed else passed[0]
            final = passed[-1]
            failed = False
        return (was_closed or bool(passed)) | first << 1 | final << 2 | (failed or any(map(fails, left))) << 3

    def poke(self, word, value):
        figures, tries = self.figures(), self.try_word()
        self.at_first, self.tries, self.calls = figures, tries if self.tries_ok() else self.tries, []
        if word == 0:
            self.job = value
        elif word == SLOT - 1:
            self.tries = value
        else:
            self.at_first[word - 1] = value
        self.near_the_end = max(self.at_first) >= PAST // 2

    def tries_ok(self):
        return self.tries <= 15 and (self.tries & 1 == 1 or self.tries & 6 == 0)


class Tally:
    def __init__(self):
        self.length = WORDS
        self.empty()

    def empty(self):
        self.count = 0
        self.slots = [Slot() for _ in range(JOBS)]
        self.why_none = self.judged()

    def lend(self, length):
        self.length = length
        self.why_none = self.judged()

    def poke(self, place, value):
        if place == 0:
            self.count = value
        elif place < WORDS:
            self.slots[(place - 1) // SLOT].poke((place - 1) % SLOT, value)
        self.why_none = self.judged()

    def judged(self):
        """Why the words are no tally, or None. Only a poke and the length lent decide it."""
        if self.length != WORDS:
            return "length"
        if self.count > JOBS:
            return "job count"
        return None if all(s.tries_ok() for s in self.slots[:self.count]) else "try word"

    def start(self):
        if self.length != WORDS:
            return "length"
        self.empty()
        return None

    def slot(self, job):
        """The job's: the first where two have its number."""
        for slot in self.slots[:self.count]:
            if slot.job == job:
                return slot
        return None

    def note(self, job, kind, code, count, warning, marks):
        """None where the call is taken, else why not. Marks are those of the rows lent."""
        why = self.why_none or why_no_call(kind, code, count, warning, marks)
        if why:
            return why
        slot = self.slot(job)
        if slot is None and self.count == JOBS:
            return "65th job"
        call = Call(kind, code, count, warning, sum(marks[:count]) if code == DONE else 0)
        if slot and slot.near_the_end:
            figures = slot.figures()
            if any(figures[k] + n >= PAST for k, n in figures_of(call)):
                return "figure"
        if slot is None:
            slot = self.slots[self.count] = Slot(job)
            self.count += 1
        slot.calls.append(call)
        return None

    def rates(self):
        words = [s.try_word() for s in self.slots[:self.count]]
        closed = sum(w & 1 for w in words)
        return sum(w >> 1 & 1 for w in words), closed, sum(w >> 2 & 1 for w in words), closed


def why_no_call(kind, code, count, warning, marks):
    if kind > CLOSE:
        return "kind"
    if code > REFUSALS:
        return "code"
    if warning > WARNINGS:
        return "warning"
    if code == DONE and len(marks) < count:
        return "rows not lent"
    if code == DONE and count and max(marks[:count]) > 1:
        return "mark"
    return None


def told(why):
    return f"untold {WHY[why]}" if why else "told"


def rates_lines(tally):
    if tally.why_none:
        return [f"refused {WHY[tally.why_none]}"]
    return ["rates %d %d %d %d" % tally.rates()]


def figures_lines(tally, job):
    if tally.why_none:
        return [f"refused {WHY[tally.why_none]}"]
    slot = tally.slot(job) or Slot(job)
    figures, tries = slot.figures(), slot.try_word()
    lines = ["figures %x %d %d %d" % (job, *figures[:3])]
    lines += [f"warned {n} {figures[2 + n]}" for n in range(1, WARNINGS + 1) if figures[2 + n]]
    lines += [f"turned {n} {figures[2 + WARNINGS + n]}" for n in range(1, REFUSALS + 1) if figures[2 + WARNINGS + n]]
    return lines + ["tries %d %d %d" % tuple(tries >> b & 1 for b in range(3))]


# ---- The lines.

HEX, NUMBER = "([0-9a-fA-F]{1,16})", "([0-9]{1,16})"
FORMS = {
    "job": rf"job (?:{HEX}|-)",
    "note": rf"note {HEX} {NUMBER} {NUMBER} {HEX} {NUMBER} ([0-9]+|-)",
    "tally": rf"tally {NUMBER}",
    "poketally": rf"poketally {NUMBER} {HEX}",
    "tallystart": "tallystart",
    "rates": "rates",
    "figures": rf"figures {HEX}",
    "room": rf"room {NUMBER}",
}
FORMS = {verb: re.compile(form) for verb, form in FORMS.items()}
MOST = {"tally": MOST_WORDS, "poketally": MOST_WORDS - 1, "room": MOST_ROOM}
# The flattener's own lines are taken to be readable: that they are is held elsewhere (tests/replay).
CALLS = {"start": START, "seed": SEED, "push": PUSH, "words": PUSH, "close": CLOSE}
SETTINGS = ("blocks", "length", "poke", "pokestore")


def answer_from(answers):
    """The lines of the next answer of the flattener, up to its `done`."""
    lines = []
    for line in answers:
        lines.append(line)
        if line.startswith("done "):
            return lines
    raise ValueError("a call without an answer")


def said(lines):
    """Code, count, warning and marks of an answer."""
    code, warning, marks = 0, 0, []
    for line in lines:
        word, _, rest = line.partition(" ")
        if word == "row":
            marks.append(int(rest.split(" ", 4)[3]))
        elif word == "warn":
            warning = int(rest.split(" ")[0])
        elif word == "refused":
            code = int(rest)
    return code, int(lines[-1].split(" ")[1]), warning, marks


class Session:
    """Answers lines one by one; `answers` are those of the flattener's calls."""

    def __init__(self, answers=()):
        self.tally = Tally()
        self.job = None
        self.answers = iter(answers)

    def made(self, kind):
        lines = answer_from(self.answers)
        if self.job is not None:
            code, count, warning, marks = said(lines)
            why = self.tally.note(self.job, kind, code, count, warning, marks)
            lines += [told(why)] if why else []
        return lines

    def asked(self, verb, m):
        tally = self.tally
        if verb == "job":
            self.job = int(m.group(1), 16) if m.group(1) else None
        elif verb == "note":
            job, kind, code, count, warning, marks = m.groups()
            marks = [] if marks == "-" else [int(c) for c in marks]
            return [told(tally.note(int(job, 16), int(kind), int(code), int(count, 16), int(warning), marks))]
        elif verb == "tally":
            tally.lend(int(m.group(1)))
        elif verb == "poketally":
            tally.poke(int(m.group(1)), int(m.group(2), 16))
        elif verb == "tallystart":
            return [told(tally.start())]
        elif verb == "rates":
            return rates_lines(tally)
        elif verb == "figures":
            return figures_lines(tally, int(m.group(1), 16))
        return []

    def answer(self, number, line):
        verb = line.split(" ")[0]
        if line.startswith("#") or verb in SETTINGS:
            return []
        if verb in CALLS:
            return self.made(CALLS[verb])
        m = FORMS[verb].fullmatch(line) if verb in FORMS else None
        if not m or (verb in MOST and int(m.group(1)) > MOST[verb]):
            return [f"bad {number}"]
        return self.asked(verb, m)


def expected(calls, answers=()):
    session = Session(answers)
    return [a for i, line in enumerate(calls, 1) for a in session.answer(i, line)]


def lines_of(path):
    """A line ends at LF alone."""
    with open(path, newline="") as file:
        return file.read().removesuffix("\n").split("\n")


def main():
    print("\n".join(expected(*map(lines_of, sys.argv[1:3]))))


if __name__ == "__main__":
    main()
