"""What the scripts share that time complexes of eight systems with 64 tasks each: how long their runs are, for which
resources the tasks ask, how requests come round a ring; and decks of systems that run beside each other.
"""
SYSTEMS = "ABCDEFGH"
TASKS = 64
# the numbers of events
SIZES = 1000, 10000, 100000
LAP = [system + " TURN" for system in SYSTEMS]
# so many requests of a system are put in at a turn
ADDITIONS = 32


# The rname for which a task asks in its pair of lines of this number.

def few(system, task, pair):
    return "R%d" % ((task + pair) % 16)


def many(system, task, pair):
    return "%s%d.%d" % (system, task, pair)


def one(system, task, pair):
    return "R"


def entry_of(rname):
    """The lock entry of a resource with the qname Q, of 64."""
    number = 0
    for byte in b"Q       " + rname.encode():
        number = (number * 31 + byte) % 65521
    return number % 64


def statements(system, lines, desk=()):
    """A system with these commands at its desk; `lines` gives the lines of a task."""
    text = ["SYSTEM " + system, *desk]
    for task in range(TASKS):
        text += ["JOB J%d" % task, "TASK T", *lines(system, task)]
    return text


def pairs_of(name, pairs, control="S"):
    """The lines of a task that asks and releases in turn, so many times."""
    def lines(system, task):
        for pair in range(pairs):
            rname = name(system, task, pair)
            yield "ENQ (Q,%s,%s,SYSTEMS)" % (rname, control)
            yield "DEQ (Q,%s,SYSTEMS)" % rname
    return lines


def goes_on(system, task):
    return "%s TASK J%d.T" % (system, task)


def of_all(chosen):
    """The tasks that are chosen, system by system."""
    return [(system, task) for system in SYSTEMS for task in range(TASKS) if chosen(system, task)]


def laps(tasks):
    """The events by which one request of each of these tasks is put into the message of a ring and answered."""
    most = max([0, *(sum(it[0] == system for it in tasks) for system in SYSTEMS)])
    return [goes_on(*it) for it in tasks] + LAP * (-(-most // ADDITIONS) + 1)


def ring(name, events, control="S"):
    """A ring's events, so many: in a round each system has a turn and one task goes on, each of which has lines for about as many
    events as it gets."""
    rounds = events // (len(SYSTEMS) + 1)
    lines = pairs_of(name, max(1, rounds // (2 * len(SYSTEMS) * TASKS)), control)
    text = [line for system in SYSTEMS for line in statements(system, lines)] + ["SCHEDULE"]
    for number in range(rounds):
        turn, system = divmod(number, len(SYSTEMS))
        text += [*LAP, goes_on(SYSTEMS[system], turn % TASKS)]
    return text


# Decks of systems that run beside each other, and so without a schedule

def lines_beside(kind, system, task):
    """The lines of a task that asks for a resource and gives it back, four times: in `own` one of its system alone, in `many` one that
    nobody else asks for, and else one of eight that the whole complex shares. In `shown` one task of 16 shows all lists on the way."""
    for pair in range(4):
        name = "R%d" % (task if kind == "own" else (system + task + pair) % 8)
        name = "R%d.%d.%d" % (system, task, pair) if kind == "many" else name
        scope = "SYSTEM" if kind == "own" else "SYSTEMS"
        yield "ENQ (Q,%s,E,%s)" % (name, scope)
        if kind == "shown" and task % 16 == 0 and pair == 1:
            yield from ("GQSCAN SCOPE=GLOBAL", "DISPLAY GRS,C")
        yield "DEQ (Q,%s,%s)" % (name, scope)


def beside(mode, kind, systems, at, tasks=TASKS, entries=64):
    """So many systems: a `ring`, a `star` of so many lock entries, a ring that becomes a star (`move`), or one of which the last system is
    removed (`removal`), by the first one's desk behind so many of its events."""
    rows = ["COMPLEX MODE(STAR) ENTRIES(%d)" % entries] if mode == "star" else []
    desk = {"move": "AT %d SETGRS MODE=STAR" % at, "removal": "AT %d VARY GRS(S%d),PURGE" % (at, systems - 1)}
    for system in range(systems):
        rows += ["SYSTEM S%d" % system]
        rows += [desk[mode]] if mode in desk and system == 0 else []
        rows += ["JOB J"]
        for task in range(tasks):
            rows += ["TASK T%d" % task, *lines_beside(kind, system, task)]
    return "".join(row + "\n" for row in rows)
