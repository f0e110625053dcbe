"""Draws a run:

    ./grs-picture [--deck DECK] [--with TEXT] .. [REPORT] > run.html
    ./grs-picture --help

The report is read from the file, else from standard input. With the deck beside it nothing in the picture is a guess. A TEXT is what
./grs analyze or ./grs notices wrote of the same run: the cycle is shown that the one tells, in place of a deadlock that is found here, and
the notices of the other stand as marks under the list of each resource; both are made anew from the report, and a text that isn't one of
them, line by line, is refused. Or it is what ./grs audit wrote of the report behind the deck: where
that can't stand, the page says so, and marks the request of its first line that can't. Such a report is drawn by itself alone, and so is
one that can stand and that a run of the deck with its events doesn't write. Where a model of legal histories (tools/histories.py) comes to
another verdict, that is refused; past 20,000 entries, or 2,000,000 lists and elements that these go through, only where no report with
these lines has it.

The page stands alone: what it shows is in it, and it asks no network. Its first view has a lane for each task, with the events
from left to right; its second the list of each resource, with the places in the history from left to right. A panel says who owns
and who waits at an event, and a table behind the picture has all that it shows as text.

A report tells in which event a task was told something, and in which order requests took their places. The rest follows:

* a task asks its next line in its first TASK event behind the one in which it was told of the line before;
* it holds a resource from the event in which it is told control up to the one in which it asks to give it back, or
  in which its end begins; from there on others may be told control;
* the message begins at the first system; a TURN there takes along what was asked, and hands the message to the next
  system that has an entry to process or doesn't rest; from the change to star mode on it takes nothing along, goes to the
  next system that has yet to change, and ends with the last;
* a system that is removed does nothing from that event on, and its tasks hold nothing; the message goes on from there, and each
  other system's first event that isn't its own tells it of the removal and does nothing else;
* from the change to star mode on a removal isn't put into the message, and a removed system has no longer to change;
* a request takes its place in the history in its TASK event, in a ring of a name that all share at the TURN that takes it along,
  in a star at the SEND at which its own system decides it or at the SETTLE of another; up to there it is on its way, and so is control
  from the event that gives it to the one in which it is told;
* a system is shown to manage lock entries from the first request on that it decides at once, and up to the end, or the last
  LEAVE, where no lock word names it in the end, or its removal.

A command that is never carried out is in no report. So if one keeps a system from resting, the message's place isn't exact. Nor does
a report say which system manages the names of a request that wasn't answered at once. So in a star with several managers the event in
which a request has its place is in part a guess, and with it up to where the request is on its way, and from where on it waits.
The page says so. Nor does it say for which of several ECB requests a task stands at a WAIT line; such a task is shown in no deadlock.
With --deck all of this is taken from a model of the run (tools/runs.py), where that comes to the same report;
it tells too which lock entries a system manages, whose lists it gathers behind a removal, and what was on its way in the end.

Exit status: 0, the page was written; 8, there is no report, or it isn't one of this deck or of this TEXT; 12, other words; 16, a read failed;
20, a write failed.
"""
import collections
import html
import itertools
import json
import pathlib
import re
import runpy
import sys

sys.dont_write_bytecode = True
HERE = pathlib.Path(__file__).resolve().parent
sys.path.insert(0, str(HERE))
import decks
import runs
import streams
from lists import cycle, keeping_away, owners

# how many requests a TURN takes along at most
TURN_TAKES = 32
SLICES = 64
TEMPLATE = HERE / "picture.html"
HISTORY = re.compile(r"H (?P<n>\d+) (?P<by>\S+) (?:ENQ (?P<enq>.*) (?P<control>[ES]) (?P<ret>\w+) (?P<answer>\w+)"
                     r"|DEQ (?P<deq>.*) (?:NONE|HAVE) (?P<answered>\w+)|RELEASE (?P<release>.*)|LOOK (?P<look>.*)|REMOVE (?P<remove>\S+))")
QUEUE = re.compile(r"Q (?P<name>.*?\)) (?P<elements>[^ ()']+:[ES]\*?(?: [^ ()']+:[ES]\*?)*)")
AUDIT = re.compile(r"AUDIT (?:YES|NO LINE (\d{1,10}))\n?")
HEAD = re.compile(r"HISTORY (?:0|[1-9][0-9]*)")
TOLD = re.compile(r"T (?P<k>\d+|END) (?P<what>.*?) ?@(?P<event>\d+)")


class NoReport(Exception):
    """What is drawn isn't a whole report; why."""


class OtherRun(NoReport):
    """The deck's run comes to another report."""


def read(report):
    """The parts of a report: its events, its history's entries, and of each system and task the told lines."""
    lines = report.splitlines()
    if lines[:1] != ["GRS REPORT 1"]:
        raise NoReport("this is no report; make one by ./grs replay or ./grs run")
    if lines[-1] not in ("END DONE", "END WAITS"):
        raise NoReport("this report isn't whole")
    behind = events_end(lines)
    run = {"events": lines[2:behind], "history": [], "systems": [], "tasks": [], "desk": [], "words": [], "units": [], "queues": []}
    for line in lines[behind:]:
        word = line.split(" ", 1)[0]
        if word == "H":
            # by its place, whatever number stands in a report that somebody changed
            run["history"].append({**HISTORY.fullmatch(line).groupdict(), "n": str(len(run["history"]) + 1)})
        elif word == "SYSTEM":
            run["systems"].append(line[7:])
        elif word == "TASK":
            name = run["systems"][-1] + "." + line[5:]
            run["tasks"].append({"name": name, "system": len(run["systems"]) - 1, "told": [], "rows": [], "end": ""})
        elif word == "T":
            found = TOLD.fullmatch(line)
            run["tasks"][-1]["told"].append((found["k"], found["what"], int(found["event"])))
            run["tasks"][-1]["rows"].append([])
        elif word == "R" and run["tasks"]:
            run["tasks"][-1]["rows"][-1].append(line[2:])
        elif word == "S":
            run["tasks"][-1]["end"] = line[2:]
        elif word == "D":
            _, _, what, said, event = line.split()
            run["desk"].append((len(run["systems"]) - 1, what + " " + said, int(event[1:])))
        elif word in ("W", "U", "Q"):
            run[{"W": "words", "U": "units", "Q": "queues"}[word]].append(line)
        elif word in ("MODE", "END"):
            run[word.lower()] = line
    return run


def events_end(lines):
    """Behind how many of a report's lines its history begins; in front of it stand events alone."""
    return 2 + int(lines[1].split()[1])


def resource(entry):
    return entry["enq"] or entry["deq"] or entry["release"] or ""


# What a task asks, and when

class Step:
    """What a task asked in one event: the entries of the history that belong to it, what it was told and when."""

    def __init__(self, entries, what="", told=None, post=None, rows=(), line=""):
        self.entries, self.what, self.told, self.post, self.rows, self.line = entries, what, told, post, rows, line
        # the event in which it was asked; by the deck also how it is spelled there, and whether it is a WAIT that holds its task
        self.asked, self.spelled, self.is_held = None, "", False

    def is_release(self):
        return bool(self.entries and self.entries[0]["release"])

    def is_shared(self):
        return any(resource(it).startswith("SYSTEMS(") or it["look"] and not it["look"].startswith("LOCAL") for it in self.entries)

    def is_display(self):
        return bool(self.entries and self.entries[0]["look"])


def looks_of(entries, is_scan):
    """The looks in front that belong to one display: a GQSCAN looks at the own lists or at all slices, a DISPLAY at the own
    ones and then at one slice or at all."""
    own = entries[0]["look"].startswith("LOCAL")
    most = (1 if own else SLICES) if is_scan else 1 + (SLICES if entries[0]["look"].split(" ")[1] == "C" else 1)
    return list(itertools.islice(itertools.takewhile(lambda it: it["look"], entries), most))


class Task:
    """A task's steps, in its order: those of which it was told, then those in the history of which it wasn't, as releases."""

    def __init__(self, found, entries):
        self.name, self.system, self.end = found["name"], found["system"], found["end"]
        self.code, self.ended = next(((code, event) for k, code, event in found["told"] if k == "END"), ("", None))
        self.ending = None
        # the event from which on it may go on, or none where the answer is still to come
        self.free = 0
        # the event in which its system was removed
        self.removed = None
        posts = {k: event for k, what, event in found["told"] if what == "POST"}
        entries, steps = list(entries), []
        for (k, what, event), rows in zip(found["told"], found["rows"]):
            verb = what.split()[0]
            if k == "END" or verb == "POST":
                continue
            own = entries[:1] if verb in ("ENQ", "DEQ") else []
            if verb in ("GQSCAN", "DISPLAY") and entries and entries[0]["look"]:
                own = looks_of(entries, verb == "GQSCAN")
            del entries[:len(own)]
            steps.append(Step(own, what, event, posts.get(k), rows, k))
        while entries:
            own = looks_of(entries, not entries[0]["look"].startswith("LOCAL")) if entries[0]["look"] else entries[:1]
            del entries[:len(own)]
            steps.append(Step(own))
        self.steps = collections.deque(steps)
        self.asked_steps = []

    def is_free(self, event):
        """Whether it has something to do in an event."""
        return self.free is not None and self.free < event <= (self.ended or event)

    def released(self, taken):
        """In a star a task goes on behind a RELEASE once that has its place at its own system, or a mail was taken behind it."""
        step = self.asked_steps[-1] if self.asked_steps else None
        at = step.entries[0]["at"] if step and self.free is None and step.is_release() else None
        if at and step.entries[0]["sent"] and (at == step.entries[0]["sent"] or taken > at):
            self.free = at

    def is_guessed(self):
        """Whether it went on behind a RELEASE that was sent, of whose answer a report doesn't tell, but where its system alone decides the name."""
        return any(it.is_release() and it.entries[0]["sent"] and not it.entries[0]["sure"] for it in self.asked_steps)

    def ask(self, event):
        """The next step, asked in an event; without one, what has no place in the history yet, or the task's end."""
        step = self.steps.popleft() if self.steps else Step([], told=self.ended)
        step.asked = event
        if step.is_release() or not step.what and self.ended:
            self.ending = self.ending or event
        if step.is_release() and not step.is_shared():
            step.told = event
        self.free = step.told
        self.asked_steps.append(step)
        return step


def is_shared_entry(entry):
    return resource(entry).startswith("SYSTEMS(") or bool(entry["look"]) and not entry["look"].startswith("LOCAL")


class Places:
    """In which event each entry of the history was fixed, as far as the report shows it."""

    def __init__(self, history):
        self.history, self.next = history, 0
        for entry in history:
            entry["at"], entry["sent"], entry["sure"] = None, 0, False

    def fix(self, step, event, is_shared=True):
        for entry in step.entries:
            if is_shared_entry(entry) == is_shared and entry["at"] is None:
                entry["at"] = event

    def first_open(self):
        while self.next < len(self.history) and self.history[self.next]["at"] is not None:
            self.next += 1
        return self.history[self.next] if self.next < len(self.history) else None

    def removal(self, name, event):
        for entry in self.history:
            if entry["remove"] == name and entry["at"] is None:
                entry["at"] = event

    def send(self, step, event, is_manager, is_sure):
        """A task's request is sent; the one that is next in the history is decided here if its system manages its names, which may be sure."""
        entry = self.first_open()
        # of a display one entry is on its way at a time; what was sent isn't sent again
        for it in [it for it in step.entries if it["at"] is None and is_shared_entry(it)][:1]:
            it["sent"] = it["sent"] or event
        if entry and entry["sent"] == event and any(entry is it for it in step.entries) and (step.told == event or is_manager):
            entry["at"], entry["sure"] = event, is_sure

    def settle(self, system, event, taken, may_decide):
        """A system settles a request that was sent to it, and that it took."""
        entry = self.first_open()
        if entry and 0 < entry["sent"] < taken and not entry["by"].startswith(system + ".") and may_decide(entry):
            entry["at"] = event

    def told(self, step, event):
        """A task was told of a step, so all up to it have their places: those of which it wasn't seen where they were sent, or here."""
        last = max((int(it["n"]) for it in step.entries), default=0)
        for at in range(self.next, last):
            entry = self.history[at]
            if entry["at"] is None:
                entry["at"] = max(entry["sent"] or event, (self.history[at - 1]["at"] or 0) if at else 0)
        self.next = max(self.next, last)

    def close(self, last):
        """Whatever wasn't seen lies between what was."""
        after = last
        for entry in reversed(self.history):
            entry["at"] = after = min(entry["at"] or after, after)


class Message:
    """The message of a ring: at which system it stands, which entries it has, and which systems have still to process each;
    once it is closed, also which have yet to change to star mode."""

    def __init__(self, systems, at, places):
        self.systems, self.at, self.since, self.stays, self.places = systems, at, 0, [], places
        # whose removal came in which event
        self.live, self.removed, self.resting, self.still = set(range(systems)), {}, set(), set() if at is None else None
        self.outboxes, self.entries = [[] for _ in range(systems)], []
        # who is live, as each system knows it
        self.known = [set(self.live) for _ in range(systems)]

    def is_stale(self, system):
        """Whether what a system asks of the medium only tells it who was removed."""
        known, self.known[system] = self.known[system], set(self.live)
        return known != self.live

    def turn(self, system, event):
        if self.at != system:
            return
        given = [entry for entry in self.entries if system in entry[2]]
        for task, step, mask in given:
            mask.discard(system)
            if task and task.system == system and step.is_release():
                task.free = event
        self.entries = [entry for entry in self.entries if entry[2]]
        put = self.outboxes[system][:TURN_TAKES] if self.still is None else []
        del self.outboxes[system][:len(put)]
        self.entries += [(task, step, set(self.live)) for task, step in put]
        for _, step in put:
            self.places.fix(step, event)
        if given or put:
            self.resting.discard(system)
        if self.still is not None:
            self.still.discard(system)
        self.go_on(event)

    def is_changed(self, system):
        """Whether a system has changed to star mode."""
        return self.still is not None and system not in self.still

    def go_on(self, event):
        here, unseen = self.at, set().union(*(mask for _, _, mask in self.entries))
        after = [(here + step) % self.systems for step in range(1, self.systems)]
        self.stop(event)
        if self.still is not None:
            self.at = next((it for it in after if it in self.still), None)
        else:
            self.at = next((it for it in after if it in self.live and (it in unseen or it not in self.resting)), here)
        self.since = event

    def close(self, system, event):
        """A system changes to star mode, as the first."""
        self.still = self.live - {system}
        if self.at not in self.still:
            self.go_on(event)

    def remove(self, by, system, event):
        """A system removes another one: the next live one has the message then, where that one had it; from the change to star mode on
        the next one that has yet to change, if any."""
        self.live.discard(system)
        self.removed[system] = event
        self.known[by].discard(system)
        for _, _, mask in self.entries:
            mask.discard(system)
        self.entries = [entry for entry in self.entries if entry[2]]
        if self.still is None:
            self.entries.append((None, None, set(self.live)))
            self.resting.discard(by)
        else:
            self.still.discard(system)
            self.resting.clear()
        if self.at == system:
            after, waited_for = [(system + step) % self.systems for step in range(1, self.systems)], self.live if self.still is None else self.still
            self.stop(event)
            self.at, self.since = next((it for it in after if it in waited_for), None), event

    def stop(self, event):
        if self.at is not None:
            self.stays.append((self.since, event, self.at))
        self.at = None


def slice_of(entry):
    """Which group of names an entry of the history is for."""
    if entry["look"]:
        return int(entry["look"].split(" ")[0])
    names = re.findall(r"X?'(?:[^']|'')*'|[^,]+", resource(entry)[len("SYSTEMS("):-1])
    texts = [decks.name_of(decks.Token(it, "hex" if it[:2] == "X'" else "quoted" if it[:1] == "'" else "word", 0, 0, 0)) for it in names]
    return decks.slice_of(*texts)


def follow(run):
    """Goes through the events a first time, to see who decides what at once, and then by that; who gathers lists isn't seen."""
    return (*gone_through(run, gone_through(run, {})[3])[:3], [])


def tasks_of(run):
    """The tasks by their names."""
    entries = collections.defaultdict(list)
    for entry in run["history"]:
        entries[entry["by"]].append(entry)
    return {it["name"]: Task(it, entries[it["name"]]) for it in run["tasks"]}


def gone_through(run, deciders):
    """Goes through the events: in which one each step was asked, where the message stood, and who decides at once."""
    tasks = tasks_of(run)
    ends = collections.defaultdict(list)
    for task in tasks.values():
        for step in task.steps:
            ends[step.told].append(step)
    of_system = [[task for task in tasks.values() if task.system == number] for number in range(len(run["systems"]))]
    desk = {event: what for _, what, event in run["desk"]}
    alone = len(run["systems"]) == 1
    places = Places(run["history"])
    message = Message(len(run["systems"]), None if is_star(run) else 0, places)
    decides, leaves, seen, taken = {}, {}, {}, {}
    for number, event in enumerate(run["events"], 1):
        name, verb, *rest = event.split()
        system = run["systems"].index(name)
        if system not in message.live:
            continue
        if verb == "TASK":
            task = tasks[name + "." + rest[0]]
            task.released(taken.get(system, 0))
            if task.is_free(number):
                step = task.ask(number)
                places.fix(step, number, False)
                if step.is_shared() or not (step.entries or step.what or task.ended or task.end == "WAITS"):
                    message.outboxes[system].append((task, step))
        elif verb == "TURN":
            if not message.is_stale(system):
                message.turn(system, number)
        elif verb == "REST":
            ordered = any(at == system and told >= number for at, _, told in run["desk"])
            if not (ordered or message.outboxes[system] or any(task.is_free(number) for task in of_system[system]) or message.is_stale(system)):
                message.resting.add(system)
        elif verb == "SEND":
            steps = tasks[name + "." + rest[0]].asked_steps if message.is_changed(system) else []
            here = next((it for it in steps[-1].entries if it["at"] is None and is_shared_entry(it)), None) if steps else None
            if here and steps[-1].told == number:
                decides.setdefault(system, number)
                seen.setdefault(slice_of(here), set()).add(system)
            if here:
                known = deciders.get(slice_of(here))
                places.send(steps[-1], number, alone or system in (known or decides), alone or known == {system})
        elif verb == "SETTLE":
            places.settle(name, number, taken.get(system, 0), lambda it, system=system: system in deciders.get(slice_of(it), [system]))
        elif verb == "TAKE":
            taken[system] = number
        elif verb == "LEAVE":
            leaves[system] = number
        elif desk.get(number) == "SETGRS DONE":
            message.close(system, number)
        elif desk.get(number) == "VARY DONE":
            gone = run["systems"].index(rest[0])
            message.remove(system, gone, number)
            places.removal(rest[0], number)
            for task in of_system[gone]:
                task.removed = number
        elif number not in desk and next((run["events"][told - 1] for at, _, told in run["desk"] if at == system and told > number), "") == event:
            # the command is due, and is carried out later
            message.is_stale(system)
        for step in ends.get(number, ()):
            if step.asked:
                places.told(step, number)
    message.stop(len(run["events"]))
    places.close(len(run["events"]))
    manage, last = {word.split()[5] for word in run["words"]}, len(run["events"])
    managers = [(first, message.removed[system] - 1 if system in message.removed else
                 last if run["systems"][system] in manage else leaves.get(system, last), system, []) for system, first in decides.items()]
    return list(tasks.values()), message.stays, managers, seen


# The same, by the deck

def scheduled(text, report):
    """A deck with a report's events in place of its own."""
    found = decks.read(text)
    count = int(report.split("\n", 2)[1].split()[1])
    return decks.read("\n".join([text[:found.front], "SCHEDULE", *report.split("\n", count + 2)[2:-1], ""]))


def by_deck(run, text, report):
    """What `follow` finds, and a deadlock, by a model of the deck's run, which has to come to the report."""
    try:
        model, found = modelled(run, scheduled(text, report))
    except Exception:  # whatever a text leads to that is no deck, or another one
        model = None
    if not model or runs.report(model) != report:
        raise OtherRun("this is no report of that deck, or the deck has a mistake, which ./grs replay tells")
    return (*found, [model.task_name(it) for it in runs.deadlock(model)])


class Spells:
    """Which lock entries each system has, with the events from which on and up to which."""

    def __init__(self, systems):
        self.now, self.past = [(1, [])] * systems, []

    def see(self, event, model, has):
        """Behind an event; a removed system has none from its removal on."""
        for system, (begun, entries) in enumerate(self.now):
            found = [] if system in model.medium.removed else sorted(has(model.nodes[system]))
            if found != entries:
                self.past.append((begun, event - 1, system, entries))
                self.now[system] = event, found

    def until(self, last):
        return [it for it in (*self.past, *((begun, last, system, entries) for system, (begun, entries) in enumerate(self.now))) if it[3]]


def modelled(run, deck):
    """A model of the deck's run, and what `follow` finds, by it, with who gathers lists."""
    tasks, model, stays = tasks_of(run), runs.Run(deck), []
    # where the message is, with the event from which on
    at, managed, gathered = (0, model.medium.at), Spells(len(deck.systems)), Spells(len(deck.systems))
    model.says.is_brief = True
    for number, event in enumerate(deck.events, 1):
        node, state = model.nodes[event.system], None
        if model.step(event.system, event.verb, event.of) is None and event.verb == "TASK":
            task, state = (event.system, event.of), node.tasks[event.of]
            step = tasks[model.task_name(task)].ask(number)
            step.is_held = state.phase == runs.HELD_LINE
            if state.asked or step.is_held:
                step.spelled = model.says.request(state, task) if state.asked else model.says.line(task)
        if model.medium.at != at[1]:
            stays.append((at[0], number, at[1]))
            at = number, model.medium.at
        managed.see(number, model, lambda it: it.managed)
        gathered.see(number, model, lambda it: it.gathers)
    stays.append((at[0], len(deck.events), at[1]))
    for entry, (event, *_) in zip(run["history"], model.history):
        entry["at"] = event
    for task in tasks.values():
        task.removed = model.medium.removed.get(task.system)
    return model, (list(tasks.values()), [it for it in stays if it[2] is not None], *(it.until(len(deck.events)) for it in (managed, gathered)))


# What is drawn

def said(entry):
    """An entry of the history, as its bar tells it."""
    if entry["enq"]:
        return "ENQ %s %s %s: %s" % (entry["enq"], entry["control"], entry["ret"], entry["answer"])
    if entry["deq"]:
        return "DEQ %s: %s" % (entry["deq"], entry["answered"])
    return "RELEASE " + entry["release"] if entry["release"] else "LOOK " + entry["look"]


def is_queued(entry):
    """Whether an ENQ was put into the list."""
    return entry["answer"] in {"NONE": ("00", "WAIT"), "HAVE": ("00", "WAIT"), "USE": ("00",), "ECB": ("00", "04")}.get(entry["ret"], ())


def shown(step):
    """A display, as its bar tells it."""
    return "\n".join([step.what or "a display that isn't told yet", *step.rows])


def of_deck(step):
    """How the deck has a step, where that is known."""
    return ": " + step.spelled if step.spelled else ""


def bars(task, last):
    """A bar for each request of a task in the history, one for a display, one for a WAIT line, and one for what is still on its way there:
    its number (of a display that of its first look, and those of all), what it is (an element of a list, what gives one back, a display, a line that waits, what is on its way, or another), the
    edges between events at which it begins, has its place, owns, has control, has it exclusively by a change and ends, who was in front
    of it and kept it away, its text, and its row in the lane.
    The edge e lies behind event e."""
    found, held = [], {}
    last = task.removed - 1 if task.removed else last

    def add(kind, number, begin, end, text, control=None):
        bar = {"n": number, "kind": kind, "from": begin - 1, "fixed": begin - 1, "grants": None, "own": None, "alone": None, "to": max(end, begin),
               "text": text, "ctl": control, "front": []}
        found.append(bar)
        return bar

    for step in [*task.asked_steps, *task.steps]:
        asked = step.asked or task.ending or last
        if step.is_display():
            add("look", int(step.entries[0]["n"]), asked, step.told or last, shown(step))["looks"] = [int(it["n"]) for it in step.entries]
        elif step.what.startswith("WAIT ") or step.is_held or not step.entries and not task.ended and task.end == "WAITS":
            add("line", 0, asked, step.told or last, step.what and step.what + " (line %s)" % step.line or "WAIT, not told" + of_deck(step))
        elif not step.entries and not step.what and step.asked and task.end in ("OPEN", "REMOVED") and (step.spelled or not task.is_guessed()):
            late = "" if task.removed else " yet"
            add("way", 0, asked, last, "on its way: what it asked in event %d has no place in the history" % asked + late + of_deck(step))
        for entry in [] if step.is_display() else step.entries:
            end = max(step.told or (task.ended if step.is_release() else None) or last, asked)
            bar = add("other", int(entry["n"]), asked, end, said(entry), entry["control"])
            if entry["enq"] and is_queued(entry):
                own = step.post if entry["ret"] == "ECB" and entry["answer"] == "04" else step.told
                own, fixed = own and own - 1, max(entry["at"], asked) - 1
                grants = entry.get("grants") and max(entry["grants"] - 1, fixed)
                fixed = fixed if own is None else min(fixed, own)
                bar.update(kind="element", own=own, to=last, fixed=min(fixed, last), front=entry.get("front", []),
                           grants=grants if own is None or grants is None else min(grants, own))
                held[entry["enq"]] = bar
            elif entry["release"] or entry["answered"] == "00":
                bar["kind"] = "back"
                gone = held.pop(resource(entry), None)
                if gone:
                    gone["to"] = max(gone["from"], gone["own"] or 0, (task.ending or asked if entry["release"] else asked) - 1)
                    gone["fixed"] = min(gone["fixed"], gone["to"])
                    gone["grants"] = gone["grants"] if gone["grants"] is None else min(gone["grants"], gone["to"])
            elif entry["ret"] == "CHNG" and entry["answer"] == "00":
                held[entry["enq"]]["text"] += ", then exclusive"
                held[entry["enq"]]["alone"] = step.told and step.told - 1
    rows = []
    for bar in sorted(found, key=lambda bar: (bar["from"], bar["n"])):
        end = max(bar["to"], bar["from"] + 1)
        bar["row"] = next((row for row, free in enumerate(rows) if free <= bar["from"]), len(rows))
        rows[bar["row"]:bar["row"] + 1] = [end]
    return found


def named(name):
    """The order in which resources of the whole complex stand in a report: by their names' bytes."""
    _, _, qname, _, rname, _ = decks.tokens(name)
    return decks.name_of(qname).ljust(8), decks.name_of(rname)


def carried_out(entry, queue):
    """The list of a resource behind an entry that bears on it: tasks and their control, in order."""
    task = entry["by"]
    if entry["enq"] and is_queued(entry):
        return [*queue, (task, entry["control"])]
    if entry["ret"] == "CHNG" and entry["answer"] == "00":
        return [(it, "E" if it == task else control) for it, control in queue]
    if entry["release"] or entry["answered"] == "00":
        return [it for it in queue if it[0] != task]
    if entry["remove"]:
        return [it for it in queue if it[0].split(".")[0] != entry["remove"]]
    return queue


def changes(run):
    """By each entry of the history, of each resource on which it bears, the list before it and behind it."""
    queues = {}
    for entry in run["history"]:
        names = [resource(entry)] if resource(entry) else []
        if entry["remove"]:
            names = sorted((it for it in queues if it.startswith("SYSTEMS(")), key=named)
        for name in names:
            before = queues.get(name, [])
            queues[name] = carried_out(entry, before)
            yield entry, name, before, queues[name]


def lists(run):
    """By resource, how long each element stood at a place of its list: [first place in the history, first past it, place in
    the list, element, owner or not]."""
    open_, spells, asked = collections.defaultdict(list), collections.defaultdict(list), {}
    for entry, name, before, queue in changes(run):
        number = int(entry["n"])
        if entry["enq"] and is_queued(entry):
            entry["front"] = [it + ":" + control for it, control in before if "E" in (control, entry["control"])]
            asked[name, entry["by"]] = entry
        own = owners(queue)
        now = [(task + ":" + control, place < own) for place, (task, control) in enumerate(queue)]
        for task, _ in queue[:own]:
            asked[name, task].setdefault("grants", entry["at"])
        kept = open_[name]
        for place in range(max(len(now), len(kept))):
            was, want = (it[place] if place < len(it) else None for it in (kept, now))
            if was and was[1:] != want:
                spells[name].append([was[0], number, place, *was[1:]])
            if want and (not was or was[1:] != want):
                kept[place:place + 1] = [(number, *want)]
        del kept[len(now):]
    for name, kept in open_.items():
        spells[name] += [[was[0], len(run["history"]) + 1, place, *was[1:]] for place, was in enumerate(kept)]
    return [{"name": name, "spells": spells[name]} for name in sorted(spells) if spells[name]]


def notices(run):
    """What ./grs notices tells of the history: of each entry its number, what came of it, the resource, how many own that, and how many wait."""
    for entry, name, before, queue in changes(run):
        waited, waits = (len(it) - owners(it) for it in (before, queue))
        if queue != before and (waited or waits):
            yield int(entry["n"]), "END" if not waits else "CHANGE" if waited else "BEGIN", name, owners(queue), waits


def left(line):
    """The resource of a line Q, and its list."""
    found = QUEUE.fullmatch(line)
    return found["name"], [tuple(it.rstrip("*").rsplit(":", 1)) for it in found["elements"].split(" ")]


def analysis(run):
    """The lines that ./grs analyze writes of the lists in the end."""
    numbers = {it["name"]: number for number, it in enumerate(run["tasks"])}
    names, rows, behind = list(numbers), [], collections.defaultdict(set)
    for line in run["queues"]:
        _, queue = left(line)
        rows += ["A" + line[1:]] * (len(queue) > owners(queue))
        for place, (task, _) in list(enumerate(queue))[owners(queue):]:
            away = keeping_away(queue, place)
            rows.append("W %s BLOCKED BY %s" % (task, away[0]))
            behind[numbers[task]].update(numbers[it] for it in away)
    circle = [names[it] for it in cycle(behind)]
    return ["ANALYZE %d" % sum(it.startswith("W") for it in rows), *rows, "CYCLE " + (" ".join(circle) or "NONE")]


def deadlock(run, tasks):
    """Tasks each of which is held for a resource from which the next one keeps it away, and the last the first; or none."""
    queues, behind, names = dict(map(left, run["queues"])), {}, [it["name"] for it in run["tasks"]]
    for number, task in enumerate(tasks):
        queue = queues.get(held_for(task, queues), [])
        place = next((place for place, it in enumerate(queue) if it[0] == task.name), None)
        if place is not None:
            behind[number] = [names.index(it) for it in keeping_away(queue, place)]
    return [names[it] for it in cycle(behind)]


def held_for(task, queues):
    """The resource for which a task is held: that of the ENQ that was answered WAIT and of which it wasn't told, or else, where it waits, of
    the one ECB request that wasn't posted. Of several it isn't in a report for which of them the task stands at a WAIT line."""
    if task.end not in ("WAITS", "OPEN"):
        return None
    steps = [step for step in [*task.asked_steps, *task.steps] if step.entries and resource(step.entries[0])]
    asked = {resource(step.entries[0]) for step in steps if step.told is None and step.entries[0]["answer"] == "WAIT"}
    posted = {resource(step.entries[0]) for step in steps if step.entries[0]["answer"] == "04" and step.entries[0]["ret"] == "ECB" and step.post is None}
    found = asked or {it for it in posted if task.end == "WAITS" and any(name == task.name for name, _ in queues.get(it, []))}
    return found.pop() if len(found) == 1 else None


def beside(run, texts):
    """By what ./grs analyze and ./grs notices write of the same run, of which the texts are: the tasks of a cycle, or nothing without an analysis,
    and each notice."""
    if not texts:
        return None, []
    told, analyzed, given = list(notices(run)), analysis(run), [text.removesuffix("\n").split("\n") for text in texts]
    noticed = ["NOTICES %d" % len(told), *("N %d %s %s %d %d" % it for it in told)]
    if any(it not in (analyzed, noticed) for it in given):
        raise NoReport("a text beside the report isn't what ./grs analyze or ./grs notices write of the same run")
    circle = [it for it in analyzed[-1].split(" ")[1:] if it != "NONE"]
    return circle if analyzed in given else None, told if noticed in given else []


OTHER_VERDICT = "a verdict beside the report isn't what ./grs audit writes of this deck and this report"


def judged(verdict, report, deck):
    """What ./grs audit wrote of a report behind its deck: nothing where it can stand; else the line that can't, by its number from the deck's
    first line on and from the report's, and its text. That is one of those behind the first line HISTORY n up to TOLD, or what is missing
    where the report ends before; a verdict that no report with these lines has is refused."""
    line, lines, front = int(AUDIT.fullmatch(verdict)[1] or 0), report.removesuffix("\n").split("\n"), len(deck.removesuffix("\n").split("\n"))
    head = next((place for place, it in enumerate(lines, 1) if HEAD.fullmatch(it)), len(lines))
    last = next((place for place, it in enumerate(lines, 1) if place > head and it == "TOLD"), len(lines) + 1)
    if line == 0 and verdict.startswith("AUDIT YES") and last <= len(lines):
        return {"line": None, "entry": None}
    if not front + head < line <= front + last:
        raise NoReport(OTHER_VERDICT)
    return {"line": line, "ofReport": line - front, "text": "".join(lines[line - front - 1:line - front])}


def is_by_model(verdict, report, deck):
    """Whether a model of legal histories comes to the verdict too, or doesn't follow so far."""
    text = deck.removesuffix("\n") + "\n" + report
    audited = runpy.run_path(str(HERE / "audited"))
    try:
        deck, lines, first = audited["parted"](text, verdict["line"])
        return audited["verdict"](decks.read(deck), lines, first)[0] == verdict["line"]
    except (audited["TooLong"], LookupError, TypeError, ValueError, AttributeError):
        return True


def entry_of(verdict, report):
    """Of which entry of the history the line is that can't stand, where it is of one."""
    lines = report.split("\n")
    if verdict["line"] and verdict["text"].startswith(("H ", "R ")):
        return sum(it.startswith("H ") for it in lines[events_end(lines):verdict["ofReport"]])
    return None


def is_star(run):
    """Whether a run begins in star mode."""
    return run["mode"] == "MODE STAR" and all(what != "SETGRS DONE" for _, what, _ in run["desk"])


def guesses(run):
    """What a report of several systems doesn't tell: in which events requests of a star had their places; and where the message is, behind
    events that a command which is never carried out, or is due, may have kept from what they were for."""
    carried_out = {event for _, _, event in run["desk"]}
    unsure = any(event.split()[1] in ("REST", "SWITCH", "PURGE") and number not in carried_out for number, event in enumerate(run["events"], 1))
    found = ["places"] * (run["mode"] == "MODE STAR") + ["message"] * (unsure and not is_star(run))
    return found if len(run["systems"]) > 1 else []


def commanded(run, what, event):
    """A command of the desk and what was said to it, with the system that it was to remove."""
    verb, said_to_it = what.split()
    return " ".join([verb, *run["events"][event - 1].split()[2:], said_to_it])


def picture(report, deck=None, texts=()):
    """What the page shows of a report; by its deck and by texts beside it, where these are given too."""
    verdicts, texts = [it for it in texts if AUDIT.fullmatch(it)], [it for it in texts if not AUDIT.fullmatch(it)]
    if verdicts and (deck is None or len(set(verdicts)) > 1):
        raise NoReport("one verdict of ./grs audit can stand beside a report, and --deck DECK, from whose first line on it counts")
    verdict = judged(verdicts[0], report, deck) if verdicts else None
    if verdict and not is_by_model(verdict, report, deck):
        raise NoReport(OTHER_VERDICT)
    if not verdict or not verdict["line"]:
        try:
            return {**drawn(report, deck, texts), "verdict": verdict}
        except OtherRun:
            # a report that can stand is drawn whoever wrote it, and then by itself alone
            if not verdict:
                raise
    try:
        return {**drawn(report, None, texts), "verdict": {**verdict, "entry": entry_of(verdict, report)}}
    except Exception:
        raise NoReport("this report can't be drawn, though its history can stand: what it tells behind TOLD doesn't go with that" if not verdict["line"] else
                       "this report can't be drawn; line %d of the deck and it, its line %d, is the first that can't stand: %s" % (
                           verdict["line"], verdict["ofReport"], streams.shown(verdict["text"]) or "it ends there")) from None


def drawn(report, deck, texts):
    """The same without a verdict."""
    run = read(report)
    tasks, stays, managers, gatherers, *known = follow(run) if deck is None else by_deck(run, deck, report)
    queues, last, (told, noticed) = lists(run), len(run["events"]), beside(run, texts)
    if told is None:
        circle, circled = known[0] if known else deadlock(run, tasks), "in a deadlock"
    else:
        circle, circled = told, "in the cycle of the analysis"
    for it in queues:
        it["notices"] = [notice for notice in noticed if notice[2] == it["name"]]
    return {
        "events": run["events"], "mode": run["mode"], "end": run["end"], "words": run["words"], "units": run["units"],
        "history": len(run["history"]), "fixed": [entry["at"] for entry in run["history"]],
        "systems": run["systems"], "message": stays, "managers": managers, "gatherers": gatherers,
        "cycle": circle, "circled": circled, "analyzed": told is not None, "guess": [] if deck is not None else guesses(run),
        "desk": [{"system": system, "what": commanded(run, what, event), "event": event} for system, what, event in run["desk"]],
        "lanes": [{"task": task.name, "system": task.system, "ended": task.ended, "code": task.code, "end": task.end, "removed": task.removed,
                   "bars": bars(task, last)} for task in tasks],
        "lists": queues, "byDeck": deck is not None,
    }


def page(report, title, deck=None, texts=()):
    """The page of a report; a text that is none is refused."""
    try:
        data = json.dumps(picture(report, deck, texts), separators=(",", ":"))
    except NoReport as why:
        raise streams.Failed(8, why) from None
    except Exception as why:  # whatever else a text that isn't grs's own leads to
        raise streams.Failed(8, "this is no report of grs, or it was changed (%s)" % type(why).__name__) from None
    # no text of a report ends the element that holds the data
    head, _, tail = TEMPLATE.read_text("utf-8").partition("{}")
    return head.replace("{title}", html.escape(title), 1) + data.replace("<", "\\u003c") + tail


def files(words):
    """By the words: the report's file and the deck's, or none of either, and those of the texts beside."""
    report, deck, texts, left = None, None, [], list(words)
    while left:
        word = left.pop(0)
        if word == "--deck" and left and deck is None:
            deck = left.pop(0)
        elif word == "--with" and left:
            texts.append(left.pop(0))
        elif report is None and not word.startswith("--"):
            report = word
        else:
            left, deck = [], "-"
    if "-" in (deck, *texts):
        raise streams.Failed(12, "these are no words of it: ./grs-picture [--deck DECK] [--with TEXT] .. [REPORT], or --help")
    return report, deck, texts


def main(words):
    if words and words[0] in ("--help", "-h"):
        streams.give(__doc__.strip() + "\n")
        return 0
    report, deck, texts = files(words)
    title = next((pathlib.Path(it).stem for it in (report, deck) if it not in (None, "-")), "a run")
    deck, *texts = [None if it is None else streams.take(it).decode("latin-1") for it in (deck, *texts)]
    streams.give(page(streams.take(report).decode("latin-1"), title, deck, texts))
    return 0


if __name__ == "__main__":
    streams.run("grs-picture", main)
