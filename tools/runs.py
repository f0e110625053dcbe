"""A run of a deck by its events, followed by a model of it, to say in words what the program keeps to itself.

The model was written from docs/SERVICE.md and docs/TABLES.md. It isn't proved and decides nothing: whoever takes words from it
first compares its report with the program's. Each event answers why it had nothing to do, or None where it did something.
"""
import copy

import decks
from lists import Lists, Wanted, by_kind, by_name, cycle, is_shared, resolve

# how many requests a TURN takes along at most
TURN_TAKES = 32


# Requests and tasks

class Asked:
    """A request: an ENQ, a DEQ, a RELEASE at a task's end, a LOOK at slices; or the REMOVEal of a system."""

    def __init__(self, verb, task, line=0, resource=None, full=False, **of):
        self.verb, self.task, self.line, self.resource, self.full = verb, task, line, resource, full
        self.control, self.ret, self.unit = of.get("control", ""), of.get("ret", "NONE"), of.get("unit")
        # of a look: what it shows, from which slice on, how many slices, how many are left behind these, and what is told
        self.wanted, self.first, self.count = of.get("wanted"), of.get("first", 0), of.get("count", 0)
        self.left, self.shown_as, self.target = of.get("left", 0), of.get("shown_as"), of.get("target")

    def is_shared(self):
        return self.verb == "LOOK" or is_shared(self.resource)

    def entry(self, entries):
        return (self.first if self.verb == "LOOK" else decks.slice_of(*self.resource[1:])) % entries

    def next_look(self, count):
        return Asked("LOOK", self.task, self.line, wanted=self.wanted, first=self.first, count=count,
                     left=self.left + self.count - count, shown_as=self.shown_as)


class Held:
    """What a task has asked for and got into a list: told is whether it was told control."""

    def __init__(self, asked, told):
        self.resource, self.control, self.unit, self.line, self.ret, self.told = (
            asked.resource, asked.control, asked.unit, asked.line, asked.ret, told)
        # its place among all elements of its lock entry, in star mode
        self.rank = 0


# phases of a task
READY, TO_SEND, SENT, HELD_ANSWER, HELD_LINE, ENDING, ENDED = range(7)


class TaskState:
    def __init__(self):
        self.phase, self.line, self.records, self.asked, self.code, self.rows = READY, 0, [], None, "", []
        # the event in which it came into its phase, and what its WAIT line is for
        self.since, self.waits_for = 0, None

    def copy(self):
        again = copy.copy(self)
        again.records = [copy.copy(it) for it in self.records]
        return again

    def record(self, resource):
        return next((it for it in self.records if it.resource == resource), None)

    def is_free(self):
        return self.phase in (READY, ENDING)


class Medium:
    """What the systems share: in ring mode the message, in star mode lock words and inboxes."""

    def __init__(self, systems, entries, is_star):
        self.systems, self.is_star = systems, is_star
        self.at, self.closed, self.still, self.entries = None if is_star else 0, is_star, set(), []
        # of each lock entry the mask of who has interest, the manager, and how often a manager was removed
        self.words, self.inbox = [(0, None, 0)] * entries, [[] for _ in range(systems)]
        self.resting, self.removed = set(), {}

    def copy(self):
        again = copy.copy(self)
        again.still, again.resting, again.removed = set(self.still), set(self.resting), dict(self.removed)
        again.entries = [(asked, set(mask)) for asked, mask in self.entries]
        again.words, again.inbox = list(self.words), [list(it) for it in self.inbox]
        return again

    def live(self):
        return [it for it in range(self.systems) if it not in self.removed]

    def after(self, system):
        return [(system + step) % self.systems for step in range(1, self.systems + 1)]

    def put(self, asked):
        self.entries.append((asked, set(self.live())))

    def turn(self, system, asked):
        """The entries that the system hasn't seen, and whether the message is closed; None where the message isn't there."""
        if self.at != system:
            return None
        given = [it for it, mask in self.entries if system in mask]
        self.leave_masks(system)
        if self.closed:
            self.still.discard(system)
            self.resting.discard(system)
            self.at = next((it for it in self.after(system) if it in self.still), None)
            return given, True
        for it in asked:
            self.put(it)
        if given or asked:
            self.resting.discard(system)
        unseen = set().union(*(mask for _, mask in self.entries))
        self.at = next((it for it in self.after(system) if it not in self.removed and (it not in self.resting or it in unseen)), system)
        return given, False

    def leave_masks(self, system):
        for _, mask in self.entries:
            mask.discard(system)
        self.entries = [it for it in self.entries if it[1]]

    def purge(self, by, target, event):
        if target in self.removed:
            return "NOSUCH"
        self.removed[target] = event
        self.leave_masks(target)
        if self.is_star:
            self.depart(target)
            return "DONE"
        self.put(Asked("REMOVE", None, target=target))
        if self.at == target:
            self.at = next(it for it in self.after(target) if it not in self.removed)
        self.resting.discard(by)
        return "DONE"

    def depart(self, target):
        """A removed system leaves what is shared in star mode. The lock entries that it managed have other managers, and each system
        with interest gets a notice of them."""
        self.inbox[target] = []
        self.still.discard(target)
        if self.at == target:
            self.at = next((it for it in self.after(target) if it in self.still), None)
        notices = {}
        for entry, (mask, manager, epoch) in enumerate(self.words):
            mask &= ~(1 << target)
            if manager == target:
                manager, epoch = (mask & -mask).bit_length() - 1 if mask else None, epoch + 1
                for it in self.live():
                    if mask >> it & 1:
                        notices.setdefault(it, []).append((entry, manager, mask))
            self.words[entry] = mask, manager, epoch
        for it, moved in notices.items():
            self.inbox[it].append(("notice", moved))
        self.resting -= set(self.live())

    def place(self, system, *mail):
        """The place in a system's inbox, from 1, of the first mail that begins so; or None."""
        return next((place for place, it in enumerate(self.inbox[system], 1) if it[:len(mail)] == mail), None)

    def notices(self, system, entry):
        """The places of the notices of an entry in a system's inbox, from 1."""
        return [place for place, (kind, *mail) in enumerate(self.inbox[system], 1)
                if kind == "notice" and any(it[0] == entry for it in mail[0])]

    def moved(self, system, entry):
        """Whether a notice of an entry lies in a system's inbox: Yours where the system is the manager, Old where another one is."""
        if self.notices(system, entry):
            return "YOURS" if self.words[entry][1] == system else "OLD"
        return None

    def switch(self, system, words):
        if self.is_star:
            return "ALREADY"
        if any(system in mask for _, mask in self.entries):
            return "BEHIND"
        self.is_star = self.closed = True
        self.words, self.still = words, set(self.live()) - {system}
        if self.at not in self.still:
            self.at = next((it for it in self.after(self.at) if it in self.still), None)
        self.resting.discard(system)
        return "DONE"

    def submit(self, system, entry, asked):
        """Whether the system manages the entry (SOLE), the request is mailed (SENT), or there is a notice of the entry."""
        moved, (mask, manager, epoch) = self.moved(system, entry), self.words[entry]
        if moved or manager == system:
            return moved or "SOLE"
        self.words[entry] = mask | 1 << system, system if manager is None else manager, epoch
        self.resting.discard(system)
        if manager is None:
            return "SOLE"
        self.inbox[manager].append(("request", entry, system, asked))
        return "SENT"

    def mail(self, system, to, mail):
        self.inbox[to].append(mail)
        self.resting.discard(system)

    def leave(self, system, entry):
        moved, (mask, manager, epoch) = self.moved(system, entry), self.words[entry]
        if moved or manager == system and mask != 1 << system:
            return moved or mask & ~(1 << system)
        self.words[entry] = (0, None, epoch) if manager == system else (mask & ~(1 << system), manager, epoch)
        self.resting.discard(system)
        return 0


class Node:
    """A system: its tasks, its own lists, in ring mode its table of the complex's, in star mode what it manages."""

    def __init__(self, run, number):
        self.run, self.number, self.deck, self.medium = run, number, run.deck, run.medium
        self.name, self.desk = run.deck.systems[number].name, run.deck.systems[number].desk
        self.is_star, self.table, self.own, self.outbox = run.deck.is_star, Lists(), Lists(), []
        # of each entry that it manages: its lists, and who of another system is still to be told of which resource; and beside them
        # the rank that its next element gets
        self.managed, self.next_rank, self.held, self.interest, self.done, self.knows = {}, {}, [], set(), 0, set()
        # of each entry that it gathers: whose parts it awaits, and the parts that came; and to whom it owes its part of an entry
        self.gathers, self.owes = {}, {}
        self.tasks = [TaskState() for _ in run.deck.systems[number].tasks]

    def copy(self, run):
        """The same system in a run that goes on from here without a TASK, which alone changes the own lists."""
        again = copy.copy(self)
        again.run, again.medium, again.table, again.tasks = run, run.medium, self.table.copy(), [it.copy() for it in self.tasks]
        again.managed = {entry: (lists.copy(), set(untold)) for entry, (lists, untold) in self.managed.items()}
        again.gathers = {entry: (set(awaits), list(parts)) for entry, (awaits, parts) in self.gathers.items()}
        again.outbox, again.held, again.interest, again.knows = list(self.outbox), list(self.held), set(self.interest), set(self.knows)
        again.next_rank, again.owes = dict(self.next_rank), dict(self.owes)
        return again

    def entry(self, resource):
        return decks.slice_of(*resource[1:]) % self.deck.entries

    def enter(self, state, phase):
        state.phase, state.since = phase, self.run.event

    # what tasks are told

    def tell(self, *line):
        self.run.told.append((self.run.event, self.number, line))

    def answer(self, asked, answer, rank=0):
        """What an answer does to its task; a record that it makes has the rank."""
        place, state = asked.task[1], self.tasks[asked.task[1]]
        state.asked = None
        if asked.verb == "LOOK":
            state.rows = state.rows + answer
            if not asked.left:
                return self.show(place, asked.shown_as)
            state.asked = Asked("LOOK", asked.task, asked.line, wanted=asked.wanted, first=asked.first + asked.count, count=1,
                                left=asked.left - 1, shown_as=asked.shown_as)
            return self.enter(state, TO_SEND)
        if asked.verb == "RELEASE":
            state.records.remove(state.record(asked.resource))
            return self.enter(state, ENDING)
        if asked.verb == "ENQ" and asked.ret == "CHNG" and answer == "00":
            state.record(asked.resource).control = "E"
        elif asked.verb == "ENQ" and asked.ret != "TEST" and (answer in ("00", "WAIT") or (asked.ret, answer) == ("ECB", "04")):
            state.records.append(Held(asked, answer == "00"))
            state.records[-1].rank = rank
        elif asked.verb == "DEQ" and answer == "00":
            state.records.remove(state.record(asked.resource))
        if answer == "WAIT":
            return self.enter(state, HELD_ANSWER)
        self.tell("CODE", place, asked.line, asked.verb, answer)
        if len(answer) == 3:
            state.code = answer
        self.enter(state, ENDING if len(answer) == 3 else READY)

    def show(self, place, verb):
        state = self.tasks[place]
        self.tell("SHOWN", place, state.line, verb, state.rows)
        state.rows = []
        self.enter(state, READY)

    def control(self, task, resource):
        """One of its tasks has control by another's request."""
        state, place = self.tasks[task[1]], task[1]
        record = state.record(resource)
        if record.told:
            return
        record.told = True
        if state.asked and state.asked.verb in ("DEQ", "RELEASE") and state.asked.resource == resource:
            return
        if record.ret != "ECB":
            self.tell("CODE", place, record.line, "ENQ", "00")
            return self.enter(state, READY)
        self.tell("POST", place, record.line)
        if state.phase == HELD_LINE and state.waits_for == resource:
            self.tell("CODE", place, state.line, "WAIT", "00")
            self.enter(state, READY)

    # events: each answers why it had nothing to do, or None

    def learns(self):
        """What the system is only told in place of its next event, or None."""
        gone = [self.run.name(it) for it in sorted(set(self.medium.removed) - self.knows)]
        were = "were" if len(gone) > 1 else "was"
        return "%s only learns that %s %s removed" % (self.name, " and ".join(gone), were) if gone else None

    def stale(self):
        """In place of what it was to do a system is only told who was removed."""
        learns, new, told = self.learns(), sorted(set(self.medium.removed) - self.knows), len(self.run.told)
        self.knows = set(self.medium.removed)
        self.lose(new)
        more = ", and tells who owns by that" if len(self.run.told) > told else ""
        return learns and "by it %s%s; its next event goes on" % (learns, more)

    def task(self, place):
        state, lines = self.tasks[place], self.deck.systems[self.number].tasks[place].lines
        if state.phase == READY and state.line < len(lines):
            state.line += 1
            self.take_line(place, state, lines[state.line - 1])
            return None
        if state.phase == READY:
            state.code = "000"
            self.enter(state, ENDING)
        if state.phase != ENDING:
            return self.run.says.held((self.number, place))
        if state.records:
            self.ask(state, Asked("RELEASE", (self.number, place), resource=state.records[0].resource))
        else:
            self.enter(state, ENDED)
            self.tell("END", place, state.code)
        return None

    def take_line(self, place, state, line):
        task = self.number, place
        if line.verb in ("GQSCAN", "DISPLAY"):
            return self.take_display(task, state, line)
        resource, has_unit = resolve(self.deck, self.number, self.deck.systems[self.number].tasks[place], line)
        record = state.record(resource)
        if line.verb == "WAIT" and record and not record.told:
            state.waits_for = resource
            self.enter(state, HELD_LINE)
        elif line.verb == "WAIT":
            self.tell("CODE", place, state.line, "WAIT", "00" if record else "08")
        elif line.verb == "DEQ":
            self.ask(state, Asked("DEQ", task, state.line, resource, ret=line.ret))
        else:
            self.ask(state, Asked("ENQ", task, state.line, resource, len(state.records) >= self.deck.limit,
                                  control=line.control, ret=line.ret, unit=line.unit if has_unit else None))

    def take_display(self, task, state, line):
        wanted = Wanted(line)
        if line.is_local:
            rows = self.own.look(("LOCAL", self.number), wanted)
            self.run.fix(Asked("LOOK", task, state.line, wanted=wanted), ("LOCAL", self.number), rows)
            state.rows = state.rows + rows
        if not line.count:
            return self.show(task[1], line.verb)
        count = 1 if self.is_star else line.count
        self.ask(state, Asked("LOOK", task, state.line, wanted=wanted, first=line.first, count=count, left=line.count - count,
                              shown_as=line.verb))

    def ask(self, state, asked):
        if asked.is_shared():
            state.asked = asked
            self.enter(state, TO_SEND)
            if not self.is_star:
                self.outbox.append(asked)
            return
        answer, owners = self.own.decide(asked, asked.full)
        self.run.fix(asked)
        self.answer(asked, answer)
        for task in owners:
            self.control(task, asked.resource)

    def turn(self):
        if self.is_star:
            return self.run.says.no_turn(self)
        stale = self.stale()
        if stale:
            return stale
        put = self.outbox[:TURN_TAKES]
        reply = self.medium.turn(self.number, put)
        if reply is None:
            return self.run.says.message()
        given, closed = reply
        if not closed:
            for asked in put:
                self.run.fix(asked)
        for asked in given:
            self.process(asked)
        if closed:
            return self.change()
        for asked in put:
            self.enter(self.tasks[asked.task[1]], SENT)
        del self.outbox[:len(put)]
        return None

    def process(self, asked):
        if asked.verb == "REMOVE":
            freed = self.table.remove(asked.target)
        elif asked.verb == "LOOK" and asked.task[0] != self.number:
            return
        else:
            answer, owners = self.table.decide(asked, asked.full)
            freed = [(task, asked.resource) for task in owners]
            if asked.task[0] == self.number:
                self.answer(asked, answer)
        for task, resource in freed:
            if task[0] == self.number:
                self.control(task, resource)

    def lock_words(self):
        """The word of each entry, by its table: which systems have elements there, and the first of them."""
        masks = [0] * self.deck.entries
        for resource, queue in self.table.of.items():
            for task, _ in queue:
                masks[self.entry(resource)] |= 1 << task[0]
        return [(mask, (mask & -mask).bit_length() - 1 if mask else None, 0) for mask in masks]

    def change(self):
        """It changes to star mode, by its table."""
        words, self.is_star = self.lock_words(), True
        for entry, (mask, manager, _) in enumerate(words):
            if manager == self.number:
                self.begin(entry)
            if mask >> self.number & 1:
                self.interest.add(entry)
        ranks = [1] * self.deck.entries
        for resource, queue in sorted(self.table.of.items(), key=lambda it: by_name(it[0])):
            entry = self.entry(resource)
            for place, (task, _) in enumerate(queue, ranks[entry]):
                if task[0] == self.number:
                    self.tasks[task[1]].record(resource).rank = place
            ranks[entry] += len(queue)
            if entry in self.managed:
                self.managed[entry][0].of[resource] = queue
                self.next_rank[entry] = ranks[entry]
        for asked in self.outbox:
            if asked.verb == "LOOK":
                self.tasks[asked.task[1]].asked = asked.next_look(1)
        self.outbox, self.table = [], Lists()
        self.lose(sorted(self.knows))

    def begin(self, entry):
        """It manages an entry from here on, with empty lists."""
        self.managed[entry], self.next_rank[entry] = (Lists(), set()), 1

    # the removal of another system in star mode

    def lose(self, systems):
        """In star mode it loses removed systems, and then takes up what isn't awaited any more."""
        for target in systems if self.is_star else ():
            freed = []
            for entry, (lists, untold) in self.managed.items():
                untold -= {it for it in untold if it[1][0] == target}
                for task, resource in lists.remove(target):
                    if task[0] == self.number:
                        freed.append((task, resource))
                    else:
                        untold.add((resource, task))
            self.held = [it for it in self.held if it[1] != target]
            for awaits, parts in self.gathers.values():
                awaits.discard(target)
                parts[:] = [it for it in parts if it[0] != target]
            for task, resource in sorted(freed, key=lambda it: by_name(it[1])):
                self.control(task, resource)
        self.take_up()

    def part_of(self, entry):
        """What its tasks have on record of an entry."""
        return [(it.rank, it.resource, (self.number, place), it.control, it.told) for place, state in enumerate(self.tasks)
                for it in state.records if is_shared(it.resource) and self.entry(it.resource) == entry]

    def take_up(self):
        """It manages each entry that it gathers and of which no part is awaited, by all records in the order of their ranks."""
        for entry in sorted(entry for entry, (awaits, _) in self.gathers.items() if not awaits):
            records = sorted(self.part_of(entry) + [it for _, part in self.gathers.pop(entry)[1] for it in part])
            self.begin(entry)
            lists, untold = self.managed[entry]
            for rank, resource, task, control, _ in records:
                lists.of.setdefault(resource, []).append([task, control])
                self.next_rank[entry] = rank + 1
            for _, resource, task, _, was_told in sorted(records, key=lambda it: by_name(it[1])):
                if was_told or task not in lists.owning(resource):
                    continue
                if task[0] == self.number:
                    self.control(task, resource)
                else:
                    untold.add((resource, task))

    def noticed(self, moved):
        """Entries have other managers than before."""
        for entry, manager, mask in moved:
            if entry in self.managed or entry in self.gathers:
                continue
            for state in self.tasks:
                if state.phase == SENT and state.asked.entry(self.deck.entries) == entry:
                    self.enter(state, TO_SEND)
            self.owes.pop(entry, None)
            if manager == self.number:
                others = {it for it in range(len(self.deck.systems)) if mask >> it & 1}
                self.gathers[entry] = others - {self.number} - self.knows, []
            else:
                self.owes[entry] = manager

    def decide(self, entry, asked):
        """Decides a request of an entry that it manages; the answer, who became owner, and the rank of a new element."""
        lists, untold = self.managed[entry]
        had = asked.resource and any(task == asked.task for task, _ in lists.list(asked.resource))
        answer, owners = lists.decide(asked, asked.full)
        has, rank = asked.resource and any(task == asked.task for task, _ in lists.list(asked.resource)), 0
        if has and not had:
            rank = self.next_rank[entry]
            self.next_rank[entry] += 1
        self.run.fix(asked)
        if asked.verb in ("DEQ", "RELEASE") and all(task != asked.task for task, _ in lists.list(asked.resource)):
            untold.discard((asked.resource, asked.task))
        return answer, owners, rank

    def grant(self, entry, asked, owners):
        for task in owners:
            if task[0] == self.number:
                self.control(task, asked.resource)
            else:
                self.managed[entry][1].add((asked.resource, task))

    def send(self, place):
        state = self.tasks[place]
        if not self.is_star or state.phase != TO_SEND:
            return self.run.says.no_send(self, (self.number, place))
        asked, entry = state.asked, state.asked.entry(self.deck.entries)
        if entry in self.gathers:
            return self.run.says.gathers(self, entry)
        stale = self.stale()
        if stale:
            return stale
        reply = self.medium.submit(self.number, entry, asked)
        if reply in ("YOURS", "OLD"):
            return self.run.says.noticed(self, entry)
        self.interest.add(entry)
        if reply == "SENT":
            return self.enter(state, SENT)
        if entry not in self.managed:
            self.begin(entry)
        answer, owners, rank = self.decide(entry, asked)
        self.answer(asked, answer, rank)
        return self.grant(entry, asked, owners)

    def take(self):
        if not self.is_star:
            return self.run.says.only_star(self)
        stale = self.stale()
        if stale:
            return stale
        if not self.medium.inbox[self.number]:
            return "%s has no mail" % self.name
        kind, *mail = self.medium.inbox[self.number].pop(0)
        self.medium.resting.discard(self.number)
        if kind == "request" and mail[1] not in self.knows:
            self.held.append(mail)
        elif kind == "answer":
            self.answer(*mail)
        elif kind == "control":
            self.control(*mail)
        elif kind == "notice":
            self.noticed(*mail)
        elif kind == "part":
            self.part_came(*mail)
        self.take_up()
        return None

    def part_came(self, entry, system, records):
        awaits, parts = self.gathers.get(entry, (set(), None))
        if system in awaits:
            awaits.discard(system)
            parts.append((system, records))

    def settle(self):
        if not self.is_star:
            return self.run.says.only_star(self)
        if all(it[0] in self.gathers for it in self.held):
            return self.run.says.no_settle(self)
        stale = self.stale()
        if stale:
            return stale
        place = next(place for place, it in enumerate(self.held) if it[0] not in self.gathers)
        entry, system, asked = self.held.pop(place)
        answer, owners, rank = self.decide(entry, asked)
        self.medium.mail(self.number, system, ("answer", asked, answer, rank))
        return self.grant(entry, asked, owners)

    def all_untold(self, entry):
        """The owners of other systems that are still to be told of an entry, in the order in which they are: the task and the resource."""
        lists, untold = self.managed.get(entry, (None, ()))
        for resource in sorted({resource for resource, _ in untold}, key=by_name) if untold else ():
            for task in lists.owning(resource):
                if (resource, task) in untold:
                    yield task, resource

    def untold(self, entry):
        """The first owner of another system that is still to be told of an entry, or None."""
        return next(self.all_untold(entry), None)

    def tell_owner(self, entry):
        first = self.untold(entry) if self.is_star else None
        if not first:
            return self.run.says.no_tell(self, entry)
        stale = self.stale()
        if stale:
            return stale
        task, resource = first
        self.managed[entry][1].discard((resource, task))
        self.medium.mail(self.number, task[0], ("control", task, resource))
        return None

    def part(self, entry):
        if not self.is_star:
            return self.run.says.only_star(self)
        if self.owes.get(entry) is None or self.owes[entry] in self.knows:
            return self.run.says.no_part(self, entry)
        stale = self.stale()
        if stale:
            return stale
        self.medium.mail(self.number, self.owes.pop(entry), ("part", entry, self.number, self.part_of(entry)))
        return None

    def holds(self, entry):
        """Why a system can't leave an entry, or None."""
        for place, state in enumerate(self.tasks):
            asked = state.asked if state.asked and state.asked.is_shared() else None
            if any(is_shared(it.resource) and self.entry(it.resource) == entry for it in state.records):
                return "%s has a request on record there" % self.run.task_name((self.number, place))
            if asked and asked.entry(self.deck.entries) == entry:
                return "%s has a request there that isn't answered" % self.run.task_name((self.number, place))
        if entry in self.gathers:
            return "%s gathers its lists" % self.name
        if entry in self.owes:
            return "%s owes its part of it to %s" % (self.name, self.run.name(self.owes[entry]))
        if entry in self.managed and self.managed[entry][0].of:
            return "%s manages it, and its lists aren't empty" % self.name
        if entry in self.managed and any(it[0] == entry for it in self.held):
            return "%s holds a request of it that isn't settled" % self.name
        return None

    def leave(self, entry):
        if not self.is_star:
            return self.run.says.only_star(self)
        if entry not in self.interest:
            return self.run.says.no_interest(self, entry)
        if self.holds(entry):
            return "%s stays in entry %d: %s" % (self.name, entry, self.holds(entry))
        stale = self.stale()
        if stale:
            return stale
        others = self.medium.leave(self.number, entry)
        if others in ("YOURS", "OLD"):
            return self.run.says.noticed(self, entry)
        if others:
            names = [self.run.name(it) for it in range(len(self.deck.systems)) if others >> it & 1]
            return "%s manages entry %d, in which %s still has interest" % (self.name, entry, " and ".join(names))
        self.interest.discard(entry)
        self.managed.pop(entry, None)
        return None

    def order(self):
        return self.desk[self.done][1:] if self.done < len(self.desk) else (None, None)

    def switch(self):
        if self.order()[0] != "SETGRS":
            return self.run.says.no_order(self)
        stale = self.stale()
        if stale:
            return stale
        reply = self.medium.switch(self.number, [(0, None, 0)] * self.deck.entries if self.is_star else self.lock_words())
        if reply == "BEHIND":
            return "the message has entries that %s hasn't seen; it sees them at its TURN" % self.name
        self.carried_out("SETGRS", reply)
        if reply == "DONE":
            self.change()
        return None

    def purge(self, target):
        if self.order() != ("VARY", self.run.name(target)):
            return self.run.says.no_order(self)
        stale = self.stale()
        if stale:
            return stale
        reply = self.medium.purge(self.number, target, self.run.event)
        self.carried_out("VARY", reply)
        if reply == "DONE":
            self.knows.add(target)
            self.run.fix_removal(self.number, target)
            self.lose([target])
        return None

    def carried_out(self, verb, reply):
        self.done += 1
        self.tell("DESK", None, self.done, verb, reply)

    def pending(self):
        """What it has still to do, in words, or None."""
        free = next((place for place, state in enumerate(self.tasks) if state.is_free()), None)
        if free is not None:
            return "%s can go on" % self.run.task_name((self.number, free))
        if self.outbox:
            return "%s has a request that waits for a TURN" % self.run.task_name(self.outbox[0].task)
        if self.done < len(self.desk):
            return "a command of its desk isn't carried out"
        waits = next((place for place, state in enumerate(self.tasks) if state.phase == TO_SEND), None)
        if waits is not None:
            return "%s has a request that waits for a SEND" % self.run.task_name((self.number, waits))
        if self.held:
            return "it holds a request that isn't settled"
        if self.gathers:
            return "it gathers the lists of entry %d" % min(self.gathers)
        if self.owes:
            return "it owes its part of entry %d" % min(self.owes)
        told = next(filter(self.untold, self.managed), None)
        return None if told is None else "an owner in entry %d is still to be told" % told

    def rest(self):
        pending = self.pending()
        if pending:
            return "%s may not rest: %s" % (self.name, pending)
        stale = self.stale()
        if not stale:
            self.medium.resting.add(self.number)
        return stale


# A run

class Run:
    """A deck's systems, gone through its events. `history` has the event, the request and the answer of each entry."""

    def __init__(self, deck):
        self.deck, self.event, self.history, self.told, self.lists = deck, 0, [], [], Lists()
        self.medium = Medium(len(deck.systems), deck.entries, deck.is_star)
        self.nodes = [Node(self, number) for number in range(len(deck.systems))]
        self.says = Says(self)

    def name(self, system):
        return self.deck.systems[system].name

    def task_name(self, task):
        found = self.deck.systems[task[0]].tasks[task[1]]
        return "%s.%s.%s" % (self.name(task[0]), found.job, found.name)

    def fix(self, asked, place=None, rows=None):
        """A request takes its place in the history; of a look at several slices each one does."""
        if place is not None:
            self.history.append((self.event, asked, place, rows))
        elif asked.verb == "LOOK":
            for number in range(asked.first, asked.first + asked.count):
                self.history.append((self.event, asked, number, self.lists.look(number, asked.wanted)))
        else:
            self.history.append((self.event, asked, None, self.lists.decide(asked, asked.full)[0]))

    def fix_removal(self, by, target):
        self.lists.remove(target)
        self.history.append((self.event, Asked("REMOVE", (by, None), target=target), None, None))

    def step(self, system, verb, of):
        """Makes an event, and answers why it had nothing to do, or None."""
        self.event += 1
        if system in self.medium.removed:
            return "%s was removed in event %d" % (self.name(system), self.medium.removed[system])
        node = self.nodes[system]
        act = {"TELL": node.tell_owner}.get(verb) or getattr(node, verb.lower())
        return act() if of is None else act(of)

    def is_at_rest(self):
        live, removed = self.medium.live(), set(self.medium.removed)
        return not (self.medium.entries or self.medium.still
                    or any(self.medium.inbox[it] or self.nodes[it].pending() or self.nodes[it].knows != removed for it in live))


# What it comes to, in the report's form

def resource_text(run, resource):
    names = [decks.printed(it) for it in resource[-2:]]
    if resource[0] == "STEP":
        system = run.deck.systems[resource[1]]
        names.insert(0, next(task.job for task in system.tasks if task.job_number == resource[2]))
    if not is_shared(resource):
        names.insert(0, run.name(resource[1]))
    return "%s(%s)" % (resource[0], ",".join(names))


def row_text(run, letter, row):
    resource, queue, owners = row
    elements = ["%s:%s%s" % (run.task_name(task), control, "*" * (place < owners)) for place, (task, control) in enumerate(queue)]
    return " ".join([letter, resource_text(run, resource), *elements])


def entry_lines(run, number, asked, place, answer):
    by = "H %d %s" % (number, run.name(asked.task[0]) if asked.verb == "REMOVE" else run.task_name(asked.task))
    if asked.verb == "REMOVE":
        yield "%s REMOVE %s" % (by, run.name(asked.target))
    elif asked.verb == "LOOK":
        yield "%s LOOK %s %s %d" % (by, place if isinstance(place, int) else "LOCAL", asked.wanted, len(answer))
        yield from (row_text(run, "R", row) for row in answer)
    elif asked.verb == "ENQ":
        yield "%s ENQ %s %s %s %s" % (by, resource_text(run, asked.resource), asked.control, asked.ret, answer)
    elif asked.verb == "DEQ":
        yield "%s DEQ %s %s %s" % (by, resource_text(run, asked.resource), asked.ret, answer)
    else:
        yield "%s RELEASE %s" % (by, resource_text(run, asked.resource))


def history_lines(run):
    for number, (_, *entry) in enumerate(run.history, 1):
        yield from entry_lines(run, number, *entry)


def told_line(run, event, kind, of):
    if kind == "DESK":
        yield "D %d %s %s @%d" % (*of, event)
    elif kind == "CODE":
        yield "T %d %s %s @%d" % (*of, event)
    elif kind == "POST":
        yield "T %d POST @%d" % (*of, event)
    elif kind == "END":
        yield "T END %s @%d" % (*of, event)
    else:
        line, verb, rows = of
        yield "T %d %s %s %d @%d" % (line, verb, "00" if rows else "04", len(rows), event)
        yield from (row_text(run, "R", row) for row in rows)


def state_line(run, system, state):
    if state.phase == ENDED:
        return "S ENDED"
    if system in run.medium.removed:
        return "S REMOVED"
    return "S WAITS" if state.phase in (HELD_ANSWER, HELD_LINE) else "S OPEN"


def told_lines(run):
    told = {}
    for event, system, (kind, place, *of) in run.told:
        told.setdefault((system, place), []).extend(told_line(run, event, kind, of))
    for number, node in enumerate(run.nodes):
        yield "SYSTEM " + node.name
        yield from told.get((number, None), [])
        for place, state in enumerate(node.tasks):
            yield "TASK " + run.task_name((number, place)).partition(".")[2]
            yield from told.get((number, place), [])
            yield state_line(run, number, state)


def unit_lines(run):
    for node in run.nodes:
        units = [it.unit for state in node.tasks for it in state.records if it.unit and it.told]
        yield from ("U %s %s %d" % (node.name, unit, units.count(unit)) for unit in sorted(set(units)))


def report(run):
    ended = all(state.phase == ENDED for number in run.medium.live() for state in run.nodes[number].tasks)
    lists = run.lists
    return "".join(line + "\n" for line in [
        "GRS REPORT 1", "SCHEDULE %d" % len(run.deck.events), *(event.text for event in run.deck.events),
        "HISTORY %d" % len(run.history), *history_lines(run), "TOLD", *told_lines(run), "QUEUES",
        *(row_text(run, "Q", (it, lists.list(it), lists.owners(it))) for it in sorted(lists.of, key=by_kind)),
        "UNITS", *unit_lines(run), "WORDS",
        *("W %d MASK %d MANAGER %s EPOCH %d" % (entry, mask, "NONE" if manager is None else run.name(manager), epoch)
          for entry, (mask, manager, epoch) in enumerate(run.medium.words) if mask or epoch),
        "MODE STAR" if run.medium.is_star else "MODE RING", "END DONE" if ended else "END WAITS"])


# Why an event had nothing to do, and why a task hasn't ended

class Says:
    """Sentences about a run as it stands. What would bring a task on takes time to find, and isn't looked for where they are to be
    brief."""

    def __init__(self, run):
        self.run, self.is_brief = run, False

    def who(self, elements):
        """Some elements of a list, as the first three and how many more."""
        named = ["%s (%s)" % (self.run.task_name(task), {"E": "exclusive", "S": "shared"}[control]) for task, control in elements[:3]]
        return ", ".join(named) + (" and %d more" % (len(elements) - 3) if len(elements) > 3 else "")

    def message(self):
        at = self.run.medium.at
        return "the message has gone its last lap" if at is None else "the message isn't here: it is at %s" % self.run.name(at)

    def no_turn(self, node):
        return "%s is in star mode, in which requests go by mail: SEND, TAKE, SETTLE" % node.name

    def only_star(self, node):
        return "%s is in ring mode, in which requests go with the message: TURN" % node.name

    def no_order(self, node):
        verb, target = node.order()
        if verb is None:
            return "the desk of %s has no command that isn't carried out" % node.name
        waits = "SETGRS MODE=STAR, which SWITCH" if verb == "SETGRS" else "VARY GRS(%s),PURGE, which PURGE %s" % (target, target)
        return "the next command at the desk of %s is %s carries out" % (node.name, waits)

    def no_send(self, node, task):
        if not node.is_star:
            return self.only_star(node)
        state, name = node.tasks[task[1]], self.run.task_name(task)
        if state.is_free():
            return "%s has nothing to send; its next step is %s TASK %s" % (name, node.name, name.partition(".")[2])
        return "%s has nothing to send: %s" % (name, self.held(task))

    def gathers(self, node, entry):
        names = [self.run.name(it) for it in sorted(node.gathers[entry][0])]
        return "%s gathers the lists of entry %d, and awaits the part of %s" % (node.name, entry, " and ".join(names))

    def moved(self, node, entry):
        return "the manager of entry %d was removed, and %s is the new one; the mail that says so is in the inbox of %s" % (
            entry, self.run.name(self.run.medium.words[entry][1]), node.name)

    def noticed(self, node, entry):
        """Why a call of an entry wasn't carried out, of which a notice lies in the system's inbox."""
        return "%s: %s" % (self.moved(node, entry), self.takes(node, self.run.medium.notices(node.number, entry)[-1]))

    def no_lists(self, node, entry):
        """Why a system that is to decide of an entry, or to send a request of it, doesn't do so yet; or None."""
        if entry in node.gathers:
            return self.gathers(node, entry)
        return self.moved(node, entry) if self.run.medium.moved(node.number, entry) else None

    def no_settle(self, node):
        if node.held:
            return self.gathers(node, node.held[0][0])
        mail = self.run.medium.inbox[node.number]
        place = next((place for place, it in enumerate(mail, 1) if it[0] == "request" and it[2] not in self.run.medium.removed), None)
        return "%s has taken no request" % node.name + ("; one is in its inbox: %s" % self.takes(node, place) if place else "")

    def of_entry(self, node, entry):
        return "%s %s entry %d" % (node.name, "manages no" if entry not in node.managed else "manages", entry)

    def no_part(self, node, entry):
        if entry in node.owes:
            return "%s owes its part of entry %d to %s, which was removed" % (node.name, entry, self.run.name(node.owes[entry]))
        return "%s owes no part of entry %d to a new manager" % (node.name, entry)

    def no_tell(self, node, entry):
        if not node.is_star:
            return self.only_star(node)
        waiting = next(filter(node.untold, sorted(node.managed)), None)
        said = "%s manages no entry %d" % (node.name, entry)
        if entry in node.managed:
            said = "no owner of another system is to be told in entry %d" % entry
        if waiting is not None:
            return "%s; %s is in entry %d" % (said, resource_text(self.run, node.untold(waiting)[1]), waiting)
        held = sorted((at, resource) for at, (lists, _) in node.managed.items() for resource in lists.of)
        if entry not in node.managed and held:
            return "%s; %s is in entry %d" % (said, resource_text(self.run, held[0][1]), held[0][0])
        if entry not in node.managed and node.managed:
            return "%s; it manages %s" % (said, ", ".join(map(str, sorted(node.managed))))
        return said

    def no_interest(self, node, entry):
        own = ", ".join(map(str, sorted(node.interest)))
        return "%s has no interest in entry %d" % (node.name, entry) + ("; it has in %s" % own if own else "")

    def line(self, task):
        state = self.run.nodes[task[0]].tasks[task[1]]
        return "line %d, %s" % (state.line, self.run.deck.systems[task[0]].tasks[task[1]].lines[state.line - 1].text)

    def held(self, task):
        """Why a task can't go on."""
        state = self.run.nodes[task[0]].tasks[task[1]]
        if self.is_brief:
            return "it waits"
        if state.phase == ENDED:
            return "it has ended, in event %d" % state.since
        if state.phase in (HELD_ANSWER, HELD_LINE):
            return self.waiting(task)
        return self.on_its_way(task)

    def waits_for(self, state):
        """The resource that a held task waits for."""
        return state.waits_for if state.phase == HELD_LINE else state.records[-1].resource

    def waiting(self, task):
        """What a task waits for, and behind whom; or how control comes to it."""
        node, state = self.run.nodes[task[0]], self.run.nodes[task[0]].tasks[task[1]]
        resource = self.waits_for(state)
        since, name = "since event %d" % state.since, resource_text(self.run, resource)
        if task not in self.run.lists.owning(resource):
            away = self.run.lists.keeping_away(resource, task)
            behind = self.who([it for it in self.run.lists.front_of(resource, task) if it[0] in away])
            return "it waits for %s (line %d) %s, behind %s" % (name, state.line, since, behind)
        # (it may have owned before it was told to wait)
        if state.phase == HELD_ANSWER:
            since = "as it was told in event %d" % state.since
        return "it waits for %s (line %d), %s, and owns it by now: %s" % (name, state.line, since, self.control_comes(node, task, resource))

    def control_comes(self, node, task, resource):
        """How a task of this system, which owns a resource by the lists, is told so."""
        medium, entry = self.run.medium, node.entry(resource)
        way = Way(self.run, task, {node.number}) if medium.is_star else None
        if way is None or way.is_home:
            return "%s is told when the message comes by: %s" % (node.name, self.turns(node))
        if medium.place(node.number, "control", task, resource):
            return "the mail that says so is in its inbox: %s" % way
        why = self.no_lists(self.run.nodes[medium.words[entry][1]], entry)
        return "%s: %s" % (why, way) if why else "it is told so by %s" % way

    def times(self, event, times, learns=None):
        """An event that is made so many times, by the first of which a system may only learn something."""
        if times == 1:
            return event + " (by which %s)" % learns * bool(learns)
        return "%s (%d times%s)" % (event, times, ", by the first of which %s" % learns if learns else "")

    def takes(self, node, place):
        """The events by which a system takes the mail at a place of its inbox."""
        learns = node.learns()
        return self.times("%s TAKE" % node.name, place + bool(learns), learns)

    def turns(self, node, times=1):
        """So many turns of a system in ring mode, and one more where by the first it only learns something."""
        learns = node.learns()
        return self.times("%s TURN" % node.name, times + bool(learns), learns)

    def request(self, state, task):
        return "its RELEASE of %s" % resource_text(self.run, state.asked.resource) if state.asked.verb == "RELEASE" else (
            "its request (%s)" % self.line(task))

    def on_its_way(self, task):
        """Where the request is that a task has asked and not been answered."""
        node, state, medium = self.run.nodes[task[0]], self.run.nodes[task[0]].tasks[task[1]], self.run.medium
        asked, name, entry = self.request(state, task), node.name, state.asked.entry(self.run.deck.entries)
        if not node.is_star and not (state.phase == TO_SEND and medium.moved(node.number, entry)):
            at = "the message is at %s" % self.run.name(medium.at)
            if state.phase == TO_SEND and medium.closed:
                return "%s waits for a SEND, behind the %s by which %s changes to star mode; %s" % (asked, self.turns(node), name, at)
            if state.phase == TO_SEND:
                return "%s waits for a %s; %s" % (asked, self.turns(node, node.outbox.index(state.asked) // TURN_TAKES + 1), at)
            return "%s goes round with the message, and is answered at %s once it is back; %s" % (asked, self.turns(node), at)
        way = Way(self.run, task)
        if state.phase == TO_SEND:
            why = self.no_lists(node, entry)
            return "%s waits %s%s" % (asked, "to be sent; %s: " % why if why else "for ", way)
        for other in (self.run.nodes[it] for it in medium.live()):
            request = entry, node.number, state.asked
            at = "in the inbox of" if medium.place(other.number, "request", *request) else "held by" if [*request] in other.held else None
            if at:
                why = self.no_lists(other, entry)
                return "%s is %s %s%s: %s" % (asked, at, other.name, "; " + why if why else "", way)
        if medium.place(node.number, "answer", state.asked):
            return "the answer to %s is in the inbox of %s: %s" % (asked, name, way)
        return "%s was sent to a manager that was removed; the mail that says so is in the inbox of %s: %s" % (asked, name, way)

    def unended(self, task):
        """Why a task hasn't ended."""
        node, state = self.run.nodes[task[0]], self.run.nodes[task[0]].tasks[task[1]]
        lines = len(self.run.deck.systems[task[0]].tasks[task[1]].lines)
        event = "%s TASK %s" % (node.name, self.run.task_name(task).partition(".")[2])
        if state.phase == READY and state.line < lines:
            left = lines - state.line
            return "it has %d %s left, and %s: %s" % (left, "lines" if left > 1 else "line",
                                                       "was given no further event" if state.line else "was given no event", event)
        if state.phase == READY:
            return "it has no line left; it gives up what it has, and ends: %s" % event
        if state.phase == ENDING:
            return "it ends with %s, and was given no further event: %s" % (state.code, event)
        return self.held(task)


# What brings a task on

class Trial(Run):
    """A run that goes on from where another one stands, without a history."""

    def __init__(self, run):
        self.deck, self.event, self.told, self.says = run.deck, run.event, [], Says(self)
        self.says.is_brief = True
        self.medium = run.medium.copy()
        self.nodes = [it.copy(self) for it in run.nodes]

    def fix(self, *entry):
        pass


class Way:
    """The events that bring a task on which waits for a SEND, for mail, or for lists that are gathered, by the last of them and not
    before: they are made on a trial. Ahead of them some systems may have to change to star mode, by turns of the message; and by
    these the task may have come on already (`is_home`). In a run that no events come to there may be none."""

    def __init__(self, run, task, late=()):
        self.task, self.late, self.is_home = task, {it for it in late if not run.nodes[it].is_star}, False
        try:
            while (system := self.go(Trial(run))) is not None:
                self.late.add(system)
        except (LookupError, TypeError):
            self.events = None

    def __str__(self):
        if self.events is None:
            return "events that the model of the run doesn't find"
        late = sorted(self.run.name(it) for it in self.late)
        said = [self.run.says.times(event, times, learns) for event, times, learns in self.events]
        return "once %s changed to star mode, " % " and ".join(late) * bool(late) + ", ".join(said)

    def stands(self):
        state = self.run.nodes[self.task[0]].tasks[self.task[1]]
        return state.phase, state.since, state.line

    def go(self, trial):
        """Goes on a trial until the task has come on; answers a system that has to change to star mode first, or None."""
        self.run, self.events = trial, []
        start = self.stands()
        while not all(trial.nodes[it].is_star for it in self.late):
            trial.step(trial.medium.at, "TURN", None)
        self.is_home = self.stands() != start
        while self.stands() == start:
            system, verb, of, times = self.next()
            if not trial.nodes[system].is_star:
                return system
            while times and self.stands() == start:
                times = self.make(system, verb, of) and times - 1
        # (by its last event the task comes on, whatever its system only learns by it)
        if self.events and self.events[-1][1] == 1:
            self.events[-1][2] = None
        return None

    def make(self, system, verb, of):
        """Makes an event, and answers whether its system did by it what it was to do."""
        node = self.run.nodes[system]
        learns = node.learns()
        what = self.run.task_name((system, of)).partition(".")[2] if verb == "SEND" else of
        event = " ".join([node.name, verb] + ["%s" % what] * (what is not None))
        if self.run.step(system, verb, of) and not learns:
            raise LookupError("%s comes to nothing" % event)
        if self.events and self.events[-1][0] == event:
            self.events[-1][1] += 1
        else:
            self.events.append([event, 1, learns])
        return not learns

    def next(self):
        """The next event, and how often in a row."""
        node, state = self.run.nodes[self.task[0]], self.run.nodes[self.task[0]].tasks[self.task[1]]
        if state.phase == TO_SEND:
            return self.lists(node, state.asked.entry(self.run.deck.entries)) or (node.number, "SEND", self.task[1], 1)
        return self.answer(node, state.asked) if state.phase == SENT else self.control(node, self.run.says.waits_for(state))

    def take(self, node, place):
        return node.number, "TAKE", None, place

    def lists(self, node, entry):
        """What is next for a system that has to gather the lists of an entry, or to learn who does; None where it has not."""
        medium, notices = self.run.medium, self.run.medium.notices(node.number, entry)
        if notices or entry not in node.gathers:
            return self.take(node, notices[-1]) if notices else None
        parts = [(it, medium.place(node.number, "part", entry, it)) for it in sorted(node.gathers[entry][0])]
        for other in (self.run.nodes[it] for it, place in parts if place is None and it not in medium.removed):
            if other.owes.get(entry) == node.number:
                return other.number, "PART", entry, 1
            return self.take(other, medium.notices(other.number, entry)[-1])
        # (it learns by it that who owes it a part was removed)
        return self.take(node, max([place for _, place in parts if place], default=1))

    def answer(self, node, asked):
        """What is next for a request that was sent."""
        medium, entry = self.run.medium, asked.entry(self.run.deck.entries)
        for other in (self.run.nodes[it] for it in medium.live()):
            place = medium.place(other.number, "request", entry, node.number, asked)
            if place:
                return self.take(other, place)
            if [entry, node.number, asked] in other.held:
                before = other.held[:other.held.index([entry, node.number, asked])]
                return self.lists(other, entry) or (other.number, "SETTLE", None, 1 + sum(it[0] not in other.gathers for it in before))
        return self.take(node, medium.place(node.number, "answer", asked) or medium.notices(node.number, entry)[0])

    def control(self, node, resource):
        """What is next for a task that owns a resource, and wasn't told so."""
        medium, entry = self.run.medium, node.entry(resource)
        place = medium.place(node.number, "control", self.task, resource)
        if place:
            return self.take(node, place)
        for other in (self.run.nodes[it] for it in medium.live()):
            untold = list(other.all_untold(entry))
            if (self.task, resource) in untold:
                return other.number, "TELL", entry, untold.index((self.task, resource)) + 1
        # (else its manager learns who was removed)
        manager = self.run.nodes[medium.words[entry][1]]
        return self.lists(manager, entry) or self.take(manager, 1)


# A deadlock

def deadlock(run):
    """Tasks each of which is held for a resource from which the next one keeps it away, and the last the first; or none. A task is held
    where its last request was answered WAIT, be that home yet or not, or where it stands at a WAIT line. Those of removed
    systems don't count."""
    last = {asked.task: (asked.resource, answer) for _, asked, _, answer in run.history if asked.verb in ("ENQ", "DEQ", "RELEASE", "LOOK")}
    behind = {}
    for number in run.medium.live():
        for place, state in enumerate(run.nodes[number].tasks):
            resource, answer = last.get((number, place), (None, None))
            if state.phase == HELD_LINE:
                resource, answer = state.waits_for, "WAIT"
            if answer == "WAIT":
                behind[number, place] = run.lists.keeping_away(resource, (number, place))
    return cycle(behind)
