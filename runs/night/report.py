"""The report of a night by its tries (docs/NIGHT.md, "What is printed"), counted over what the program wrote or would have to."""
NO_ROOM, TOO_MANY_ROWS = 7, 6
WARNINGS = 15
# where a job stands: it is in one of these, and only in one
FIRST, COARSER, NEVER, LEFT, UNTRIED = range(5)


class Outcome:
    """How a try ended; a subclass fills it, or a line of tries.csv does."""
    tolerance, closed, passed = "", False, False
    refusal = refusal_line = None
    # calls with each warning, by its number
    warnings = [0] * (WARNINGS + 1)

    def reasons(self):
        said, warned = [], [n for n, times in enumerate(self.warnings) if times]
        if self.refusal is not None:
            said.append(f"refused by {self.refusal} at line {self.refusal_line}")
        if warned:
            said.append("warnings " + " ".join(map(str, warned)))
        could = set(warned) <= {TOO_MANY_ROWS} and self.refusal in (None, NO_ROOM)
        return ", ".join(said + [f"a coarser tolerance {'could' if could else 'cannot'} help"])


def outcome_of(fields):
    """That of a line of tries.csv, split at its commas."""
    made = Outcome()
    made.tolerance, made.closed, made.passed = fields[4], fields[5] == "1", fields[-1] == "1"
    if fields[9]:
        made.refusal, made.refusal_line = int(fields[9]), int(fields[10])
    made.warnings = [0] + [int(times) for times in fields[11:11 + WARNINGS]]
    return made


def lot_of(tries, tolerances):
    """Where a job with these tries stands, of as many as there are tolerances."""
    if any(t.passed for t in tries):
        return FIRST if tries[0].passed else COARSER
    if len(tries) < tolerances and not any(not t.closed for t in tries):
        return UNTRIED
    return NEVER if any(t.closed for t in tries) else LEFT


def rate(passed, of):
    if not of:
        return f"{passed} of {of}"
    tenths = passed * 1000 // of
    return f"{passed} of {of}, {tenths // 10}.{tenths % 10} percent"


def rates(tried):
    """First passed, closed, final passed, closed: rules 9.17 and 9.18 over the tries of each job."""
    closed = [some for some in ([t for t in tries if t.closed] for tries in tried) if some]
    return [sum(some[0].passed for some in closed), len(closed), sum(some[-1].passed for some in closed), len(closed)]


def report(names, tolerances, tried):
    """The lines that are printed. `tried` has the tries of each job, by its name, the jobs in the order of their last tries; a name that
    it has not was not tried."""
    first, closed, final, _ = rates(tried.values())
    lots = {lot: [name for name in tried if lot_of(tried[name], len(tolerances)) == lot] for lot in range(UNTRIED)}
    untried = [name for name in names if lot_of(tried.get(name, []), len(tolerances)) == UNTRIED]
    assert first == len(lots[FIRST]) and sum(map(len, lots.values())) + len(untried) == len(names)
    yield f"jobs {len(names)}"
    yield f"closed {closed}"
    yield f"first tries passed {rate(first, closed)}"
    yield f"final tries passed {rate(final, closed)}"
    yield f"passed only when coarser {len(lots[COARSER])}"
    yield from (f"  {name} at {tried[name][-1].tolerance}" for name in lots[COARSER])
    for lot, what in ((NEVER, "never passed"), (LEFT, "not closed")):
        yield f"{what} {len(lots[lot])}"
        yield from (f"  {name} {tried[name][-1].reasons()}" for name in lots[lot])
    if untried:
        yield f"not tried {len(untried)}"
        yield from (f"  {name} tried at {len(tried.get(name, []))} of {len(tolerances)} tolerances" for name in untried)
