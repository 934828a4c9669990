"""Sequences of 50 `note` lines for a tally, with pokes, starts and questions between them."""
import model

NOTES = 50
TOP = model.PAST - 1
LENGTHS = (0, 1, model.WORDS - 1, model.WORDS + 1, model.MOST_WORDS)
COUNTS = (0, 1, 2, 40, model.JOBS - 1, model.JOBS, model.JOBS + 1, model.JOBS + 2, TOP)
MOST_JOBS = 70


def number(rng, most):
    """From 0 to `most`, its bounds often, and now and then past them."""
    draw = rng.random()
    if draw < 0.03:
        return rng.choice((most + 1, most + 2, 255, 256, 10**16 - 1))
    if draw < 0.2:
        return most
    return rng.randint(0, most)


def marks_for(rng, count):
    """The marks of the rows lent with an accepted call of so many rows, mostly as they should be."""
    draw = rng.random()
    lent = count
    if draw < 0.05 and count:
        lent = rng.randrange(count)
    elif draw < 0.25:
        lent = count + rng.randint(1, 4)
    marks = [rng.randint(0, 1) for _ in range(lent)]
    if rng.random() < 0.04 and lent:
        marks[rng.randrange(lent)] = rng.randint(2, 9)
    if lent > count and rng.random() < 0.5:
        marks[rng.randrange(count, lent)] = rng.randint(0, 9)
    return marks


class Sequences:
    """Lines and the model's answers to them. A tally goes on over several sequences, so that it has 64 jobs and meets a 65th."""

    def __init__(self, rng):
        self.rng = rng
        self.session = model.Session()
        self.lines, self.answers = [], []
        self.seen = dict.fromkeys(("taken", *model.WHY), 0)
        self.jobs = [1]

    def ask(self, line, answers=()):
        self.lines.append(line)
        self.answers += answers

    def lend(self, length):
        self.session.tally.lend(length)
        self.ask(f"tally {length}")

    def poke(self, place, word):
        self.session.tally.poke(place, word)
        self.ask(f"poketally {place} {word:x}")

    def start(self):
        self.ask("tallystart", [model.told(self.session.tally.start())])

    def fresh(self):
        if self.session.tally.length != model.WORDS:
            self.lend(model.WORDS)
        self.start()
        self.jobs = [self.a_job() for _ in range(self.rng.randint(1, MOST_JOBS))]

    def a_job(self):
        draw = self.rng.random()
        if draw < 0.05:
            return self.rng.choice((0, TOP))
        return self.rng.randrange(2**64) if draw < 0.3 else self.rng.randrange(200)

    def note(self):
        rng = self.rng
        kind = number(rng, model.CLOSE)
        code = 0 if rng.random() < 0.65 else rng.choice((model.NO_ROOM, number(rng, model.REFUSALS)))
        warning = 0 if rng.random() < 0.8 else number(rng, model.WARNINGS)
        count = rng.randint(0, 6) if rng.random() < 0.97 else rng.choice((TOP, 2**63, rng.randrange(2**64), 40))
        marks = marks_for(rng, count if count <= 6 else rng.randint(0, 8))
        job = rng.choice(self.jobs)
        why = self.session.tally.note(job, kind, code, count, warning, marks)
        self.seen[why or "taken"] += 1
        shown = "".join(map(str, marks)) or "-"
        self.ask(f"note {job:x} {kind} {code} {count:x} {warning} {shown}", [model.told(why)])

    def poke_something(self):
        rng, tally = self.rng, self.session.tally
        slot = 1 + model.SLOT * (rng.randrange(min(tally.count, model.JOBS)) if tally.count else 0)
        draw = rng.random()
        if draw < 0.6:
            self.poke(slot + rng.randint(1, model.FIGURES), rng.choice((TOP, TOP, TOP - 1, TOP - 3, 0, 5)))
        elif draw < 0.75:
            self.poke(slot + model.SLOT - 1, rng.randint(0, 17))
        elif draw < 0.85:
            self.poke(slot, self.a_job())
        elif draw < 0.93:
            self.poke(0, rng.choice(COUNTS))
        elif draw < 0.97:
            self.poke(rng.randrange(model.MOST_WORDS), rng.randrange(2**64))
        else:
            self.lend(rng.choice(LENGTHS))
            if rng.random() < 0.5:
                self.start()

    def mend(self):
        """What makes the words a tally again, so that most notes meet one."""
        tally = self.session.tally
        if tally.why_none == "length":
            self.lend(model.WORDS)
        elif tally.why_none == "job count":
            self.poke(0, self.rng.randint(0, model.JOBS))
        else:
            bad = [i for i, s in enumerate(tally.slots[:tally.count]) if not s.tries_ok()]
            self.poke(1 + bad[0] * model.SLOT + model.SLOT - 1, 0)

    def question(self):
        if self.rng.random() < 0.3:
            self.ask("rates", model.rates_lines(self.session.tally))
        else:
            job = self.rng.choice(self.jobs) if self.rng.random() < 0.9 else self.a_job()
            self.ask(f"figures {job:x}", model.figures_lines(self.session.tally, job))

    def sequence(self):
        rng = self.rng
        if rng.random() < 0.3:
            self.fresh()
        for _ in range(NOTES):
            if self.session.tally.why_none and rng.random() < 0.4:
                self.mend()
            if rng.random() < 0.04:
                self.poke_something()
            self.note()
            if rng.random() < 0.08:
                self.question()
        self.ask("rates", model.rates_lines(self.session.tally))
