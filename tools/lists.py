"""Resources, and the list of each, by the rules of docs/SERVICE.md: for the model of a run (runs.py). Nothing here is proved."""
import itertools
import re

import decks

SCOPES = {"SYSTEMS": 0, "SYSTEM": 1, "STEP": 2}


# Resources: ("SYSTEMS", q, r), ("SYSTEM", system, q, r) or ("STEP", system, job, q, r)

def is_shared(resource):
    return resource[0] == "SYSTEMS"


def by_name(resource):
    return resource[-2].ljust(8), resource[-1]


def by_kind(resource):
    """The order of lists: those of the complex, then by system those of the system and of its jobs, by job."""
    system, job = (-1 if is_shared(resource) else resource[1]), (resource[2] if resource[0] == "STEP" else -1)
    return system, SCOPES[resource[0]], job, *by_name(resource)


def matches(entry, qname, rname):
    kind, entry_q, entry_r = entry
    if kind == "SPECIFIC":
        return (entry_q, entry_r) == (qname, rname)
    if kind == "GENERIC":
        return entry_q == qname and rname.startswith(entry_r or "")
    return is_like(entry_q, qname) and (entry_r is None or is_like(entry_r, rname))


def is_like(pattern, name):
    """Whether a name is of a pattern, in which * is any bytes and ? any one."""
    spelled = "".join({"*": ".*", "?": "."}.get(letter, re.escape(letter)) for letter in pattern)
    return re.fullmatch(spelled, name, re.DOTALL) is not None


def resolve(deck, system, task, line):
    """The resource that a line is for, and whether a RESERVE of it takes the device."""
    names, found = (line.qname, line.rname), lambda which: any(matches(entry, line.qname, line.rname) for entry in deck.lists[which])
    whole, own = ("SYSTEMS", *names), ("SYSTEM", system, *names)
    if line.scope == "STEP":
        return ("STEP", system, task.job_number, *names), False
    if line.verb == "RESERVE":
        if not line.by_lists:
            return whole, True
        return (own, True) if found("EXCL") else (whole, not found("CON"))
    is_whole = line.scope == "SYSTEMS"
    if line.by_lists:
        is_whole = (is_whole or found("INCL")) and not found("EXCL")
    return whole if is_whole else own, False


# Who owns, and who waits for whom

def owners(queue):
    """How many elements in front own."""
    return max(len(list(itertools.takewhile(lambda it: it[1] == "S", queue))), bool(queue))


def keeping_away(queue, place):
    """The tasks in front of an element that keep it away, since one of both at least is exclusive: those on whom its task depends."""
    return [task for task, control in queue[:place] if "E" in (control, queue[place][1])]


def cycle(behind):
    """A cycle among tasks, of each of which it is told on whom it depends, by the walk of `analyze`: along the greatest set of tasks each
    of which depends on one of the set, from its least task on, each time to the least one; or none."""
    while True:
        left = {task: on for task, others in behind.items() if (on := [it for it in others if it in behind])}
        if len(left) == len(behind):
            break
        behind = left
    path, task = [], min(left, default=None)
    while task is not None and task not in path:
        path.append(task)
        task = min(left[task])
    return path[path.index(task):] if path else []


# The lists of resources

class Lists:
    """The elements of each resource in order of arrival: [task, control]."""

    def __init__(self):
        self.of = {}

    def copy(self):
        again = Lists()
        again.of = {resource: [list(it) for it in queue] for resource, queue in self.of.items()}
        return again

    def list(self, resource):
        return self.of.get(resource, [])

    def owners(self, resource):
        """How many elements in front own it."""
        return owners(self.list(resource))

    def owning(self, resource):
        return [task for task, _ in self.list(resource)[:self.owners(resource)]]

    def front_of(self, resource, task):
        """Who stands in front of a task's element."""
        return list(itertools.takewhile(lambda it: it[0] != task, self.list(resource)))

    def keeping_away(self, resource, task):
        """Who keeps a task from a resource for which it waits."""
        return keeping_away(self.list(resource), len(self.front_of(resource, task)))

    def enq(self, resource, task, control, ret, full):
        queue, owners = self.list(resource), self.owners(resource)
        place = next((place for place, it in enumerate(queue) if it[0] == task), None)
        can = not queue if control == "E" else all(it[1] == "S" for it in queue)
        if place is not None and ret == "NONE":
            return "138"
        if place is not None and place >= owners:
            return "14"
        if place is not None:
            if ret != "CHNG":
                return "08"
            if queue[place][1] == "S" and owners > 1:
                return "04"
            queue[place][1] = "E"
            return "00"
        if ret == "CHNG":
            return "08"
        if full:
            return "538" if ret == "NONE" else "18"
        if ret == "TEST" or ret == "USE" and not can:
            return "00" if can else "04"
        self.of.setdefault(resource, []).append([task, control])
        return "00" if can else "04" if ret == "ECB" else "WAIT"

    def deq(self, resource, task, ret):
        place = len(self.front_of(resource, task))
        if place == len(self.list(resource)):
            return "08" if ret == "HAVE" else "130"
        if place >= self.owners(resource):
            return "04" if ret == "HAVE" else "530"
        self.drop(resource, lambda it: it == task)
        return "00"

    def drop(self, resource, gone):
        left = [it for it in self.list(resource) if not gone(it[0])]
        self.of[resource] = left
        if not left:
            self.of.pop(resource)

    def look(self, place, wanted):
        """The lists of a slice, or of a system's own by a place ("LOCAL", system), that pass a filter: each resource, its elements
        and how many own it."""
        rows = []
        for resource, queue in self.of.items():
            if isinstance(place, int):
                here = is_shared(resource) and decks.slice_of(*resource[1:]) == place
            else:
                here = not is_shared(resource) and resource[1] == place[1]
            if here and wanted.passes(resource, len(queue) > self.owners(resource)):
                rows.append((resource, [tuple(it) for it in queue], self.owners(resource)))
        return sorted(rows, key=lambda row: by_kind(row[0]))

    def decide(self, asked, full):
        """What is answered, and the tasks that became owners by another's request."""
        if asked.verb == "LOOK":
            return [row for place in range(asked.first, asked.first + asked.count) for row in self.look(place, asked.wanted)], []
        before = set(self.owning(asked.resource))
        if asked.verb == "ENQ":
            answer = self.enq(asked.resource, asked.task, asked.control, asked.ret, full)
        elif asked.verb == "DEQ":
            answer = self.deq(asked.resource, asked.task, asked.ret)
        else:
            self.drop(asked.resource, lambda it: it == asked.task)
            answer = "00"
        return answer, [task for task in self.owning(asked.resource) if task not in before and task != asked.task]

    def remove(self, system):
        """A removed system's tasks leave the lists of the whole complex; who came to own by it, resources by name."""
        freed = []
        for resource in sorted(filter(is_shared, self.of), key=by_name):
            before = set(self.owning(resource))
            self.drop(resource, lambda it: it[0] == system)
            freed += [(task, resource) for task in self.owning(resource) if task not in before]
        return freed


class Wanted:
    """Which lists a display shows: those in which a task waits, or those of the names that it gives."""

    def __init__(self, line):
        self.contended, self.qname, self.rname = line.is_contended, line.qname and line.qname.rstrip(" "), line.rname

    def passes(self, resource, waits):
        return waits if self.contended else self.qname in (None, resource[-2]) and self.rname in (None, resource[-1])

    def __str__(self):
        if self.contended or self.qname is None and self.rname is None:
            return "C" if self.contended else "ALL"
        qname, rname = (decks.printed(it) if it is not None else "" for it in (self.qname, self.rname))
        return "(%s%s)" % (qname, "," + rname if rname else "")
