"""Legal histories of a deck, entry by entry, by the rules of docs/SERVICE.md: who may ask what next. Nothing here is proved."""
import runs
from lists import Lists, Wanted, resolve


class Asker:
    """How far a task is: its line, how many entries of that line there are, which entry ended it, for which resource it waits by
    which entry, and what it has, in the order in which that was queued."""

    def __init__(self):
        self.line, self.part, self.ended, self.waits, self.have = 0, 0, None, None, []


class Followed:
    """A legal history as far as it was followed, with how many lists or elements its entries went through."""

    def __init__(self, deck):
        self.deck, self.lists, self.removed, self.count, self.reached = deck, Lists(), {}, 0, 0
        self.tasks = {(number, place): Asker() for number, system in enumerate(deck.systems) for place in range(len(system.tasks))}
        self.by_name = {self.task_name(task): task for task in self.tasks}
        self.systems = {system.name: number for number, system in enumerate(deck.systems)}

    def name(self, system):
        return self.deck.systems[system].name

    def task_name(self, task):
        found = self.deck.systems[task[0]].tasks[task[1]]
        return "%s.%s.%s" % (self.name(task[0]), found.job, found.name)

    def asked(self, task, at):
        """What a line asks, with the place at which a display looks."""
        found, state = self.deck.systems[task[0]].tasks[task[1]], self.tasks[task]
        line = found.lines[at]
        if line.verb in ("GQSCAN", "DISPLAY"):
            places = [("LOCAL", task[0])] * line.is_local + list(range(line.first, line.first + line.count))
            return runs.Asked("LOOK", task, at, wanted=Wanted(line)), places[state.part if at == state.line else 0], len(places)
        verb = "ENQ" if line.verb == "RESERVE" else line.verb
        resource = resolve(self.deck, task[0], found, line)[0]
        return runs.Asked(verb, task, at, resource, control=line.control, ret=line.ret), None, 1

    def next_of(self, task):
        """What a task may ask next, with the place of a look and how many entries its line has; or why it may not ask."""
        state, lines = self.tasks[task], self.deck.systems[task[0]].tasks[task[1]].lines
        if task[0] in self.removed:
            return "%s was removed by H %d" % (self.name(task[0]), self.removed[task[0]])
        if state.waits and task not in self.lists.owning(state.waits[0]):
            return "it waits for %s by H %d" % (runs.resource_text(self, state.waits[0]), state.waits[1])
        for at in range(state.line, len(lines) if state.ended is None else 0):
            if lines[at].verb != "WAIT":
                return self.asked(task, at)
            resource = self.asked(task, at)[0].resource
            if self.has(resource, task) and task not in self.lists.owning(resource):
                return "its line %d, %s, holds it" % (at + 1, lines[at].text)
        if state.have:
            return runs.Asked("RELEASE", task, len(lines), state.have[0]), None, 1
        return "it has no line left, and nothing to release" if state.ended is None else "it was ended by H %d" % state.ended

    def has(self, resource, task):
        return any(it[0] == task for it in self.lists.list(resource))

    def answer(self, asked, place):
        """What the lists answer, which stay as they are."""
        if asked.verb == "LOOK":
            return self.lists.look(place, asked.wanted)
        before = [list(it) for it in self.lists.list(asked.resource)]
        answer = self.lists.decide(asked, len(self.tasks[asked.task].have) >= self.deck.limit)[0]
        self.lists.of[asked.resource] = before
        if not before:
            del self.lists.of[asked.resource]
        return answer

    def lines(self, asked, place):
        """The lines of an entry that may stand next."""
        return list(runs.entry_lines(self, self.count + 1, asked, place, None if asked.verb == "REMOVE" else self.answer(asked, place)))

    def removal(self, by, target):
        """The removal of a system by another, if it may stand next."""
        wanted = any(verb == "VARY" and name == self.name(target) for _, verb, name in self.deck.systems[by].desk)
        if by != target and wanted and not {by, target} & set(self.removed):
            return runs.Asked("REMOVE", (by, None), target=target), None, 1
        return "no command of its desk removes %s" % self.name(target) if not wanted else "%s was removed by H %d" % next(
            (self.name(it), self.removed[it]) for it in (by, target) if it in self.removed)

    def next_by(self, words):
        """What may stand next by the words of a line, which names a task, or two systems; or why nothing may."""
        name, verb, target = (*words[2:5], "", "", "")[:3]
        if name in self.by_name:
            return self.next_of(self.by_name[name])
        if name not in self.systems:
            return "no task of the deck has this name" if "." in name else "no system of the deck has this name"
        if verb != "REMOVE":
            return "a system asks for nothing itself, but for removals"
        if target not in self.systems:
            return "no system of the deck has the name %s" % target
        return self.removal(self.systems[name], self.systems[target])

    def nexts(self):
        """All that may stand next."""
        found = [self.next_of(task) for task in self.tasks]
        found += [self.removal(by, target) for by in range(len(self.deck.systems)) for target in range(len(self.deck.systems))]
        return [it for it in found if not isinstance(it, str)]

    def go_on(self, asked, place, parts):
        """Carries out an entry that may stand next."""
        self.count += 1
        self.reached += len(self.lists.of if asked.verb in ("LOOK", "REMOVE") else self.lists.list(asked.resource))
        if asked.verb == "REMOVE":
            self.lists.remove(asked.target)
            self.removed[asked.target] = self.count
            return
        state = self.tasks[asked.task]
        state.waits = None
        if asked.verb == "LOOK":
            at_line = asked.line == state.line
            part = (state.part if at_line else 0) + 1
            state.line, state.part = (asked.line + 1, 0) if part == parts else (asked.line, part)
            return
        answer = self.lists.decide(asked, len(state.have) >= self.deck.limit)[0]
        if self.has(asked.resource, asked.task) != (asked.resource in state.have):
            if asked.resource in state.have:
                state.have.remove(asked.resource)
            else:
                state.have.append(asked.resource)
        if asked.verb != "RELEASE":
            state.line, state.part = asked.line + 1, 0
        if answer == "WAIT":
            state.waits = asked.resource, self.count
        if len(answer) == 3:
            state.ended = self.count
