"""Writes a schedule for a deck, or tells which lock entry each name is in.

    ./grs-schedule [DECK]            prints the deck with events of its own in place of those that it has
    ./grs-schedule --entries [DECK]  prints the names that all systems share, with the lock entry of each
    ./grs-schedule --help            tells this

The deck is read from the file DECK, else from standard input; ./grs first sees that it has no mistake. For one deck the events are
always the same. They come in rounds, as those of ./grs gen do: in a round each system in turn goes on with each of its tasks, takes its turn
at the message, sends, takes a mail, settles a request, tells the owners of the lock entries and sends its parts of those that others
gather; from the third round on it
carries out a command of its desk before that, once it has made as many events as the command says, or where nothing else
is left to do. Events that would have nothing to do are left out. The rounds end when the complex is at rest: what waits then waits
for ever, unless LEAVE and REST, which are never written, are put in by hand.

The events are found by a model of the program (tools/runs.py), which isn't proved; what ./grs replay then makes of them is.
Exit status: 0, all was printed; 4, the deck would have grown past 1,048,576 bytes, so later events are wanting; 8, 12, 16
and others as ./grs has them.
"""
import os
import pathlib
import subprocess
import sys
import time

sys.dont_write_bytecode = True
HERE = pathlib.Path(__file__).resolve().parent
sys.path.insert(0, str(HERE))
import decks
import runs
import streams

MOST_BYTES = 1048576
FIRST_COMMANDS = 3
MOST_ROUNDS = 20000
# how long nothing is said
SECONDS = 10


class Rounds:
    """Goes through a deck by rounds, and keeps what each one did."""

    def __init__(self, deck):
        self.deck, self.run = deck, runs.Run(deck)
        self.made = [0] * len(deck.systems)
        self.did = []

    def make(self, system, verb, of=None):
        """Makes an event where it has something to do."""
        if system in self.run.medium.removed or not self.has_to_do(system, verb, of):
            return
        self.run.step(system, verb, of)
        self.made[system] += 1
        self.did.append(" ".join([self.deck.systems[system].name, verb, *self.said(system, verb, of)]))

    def said(self, system, verb, of):
        """What stands behind the word of an event."""
        if verb in ("TASK", "SEND"):
            return [self.run.task_name((system, of)).partition(".")[2]]
        return [] if of is None else [self.names()[of] if verb == "PURGE" else str(of)]

    def has_to_do(self, system, verb, of):
        """Whether an event has something to do; one that only tells a system who was removed has."""
        node, medium = self.run.nodes[system], self.run.medium
        if verb == "TASK":
            return node.tasks[of].is_free()
        if verb == "TURN":
            # with nothing on its way the message may stay where it is
            return not node.is_star and medium.at == system and (medium.closed or medium.entries or any(
                self.run.nodes[it].outbox for it in medium.live()))
        if verb == "SWITCH":
            # an entry of the message that it hasn't seen keeps it from changing the mode
            return medium.is_star or not any(system in mask for _, mask in medium.entries)
        if verb == "PURGE":
            return True
        if not node.is_star:
            return False
        if verb == "TELL":
            return node.untold(of) is not None
        if verb == "PART":
            return of in node.owes and node.owes[of] not in node.knows
        if verb == "SETTLE":
            return any(entry not in node.gathers for entry, *_ in node.held)
        if verb == "SEND":
            asked = node.tasks[of].asked if node.tasks[of].phase == runs.TO_SEND else None
            return asked is not None and self.is_decided(node, asked.entry(self.deck.entries))
        return bool(medium.inbox[system] or node.learns())

    def is_decided(self, node, entry):
        """Whether a request of an entry gets to its manager: the lists aren't gathered, and no notice of it lies in the inbox."""
        return entry not in node.gathers and bool(node.learns() or not self.run.medium.moved(node.number, entry))

    def command(self, system, is_idle):
        """Carries out the next command of a desk, where it is time for it."""
        node = self.run.nodes[system]
        if node.done < len(node.desk) and (is_idle or self.made[system] >= node.desk[node.done][0]):
            _, verb, target = node.desk[node.done]
            of = self.names().index(target) if verb == "VARY" else None
            self.make(system, "PURGE" if verb == "VARY" else "SWITCH", of)

    def names(self):
        return [system.name for system in self.deck.systems]

    def round(self, number):
        """The events of a round."""
        self.did = []
        for system in range(len(self.deck.systems)):
            if number >= FIRST_COMMANDS:
                self.command(system, False)
        for system, it in enumerate(self.deck.systems):
            places = range(len(it.tasks))
            for place in places:
                self.make(system, "TASK", place)
            self.make(system, "TURN")
            for place in places:
                self.make(system, "SEND", place)
            self.make(system, "TAKE")
            self.make(system, "SETTLE")
            for entry in range(self.deck.entries):
                self.make(system, "TELL", entry)
                self.make(system, "PART", entry)
        return self.did

    def commands(self):
        """What is left to carry out where a round came to nothing."""
        self.did = []
        for system in range(len(self.deck.systems)):
            self.command(system, True)
        return self.did


def rounds(deck):
    """The events of each round, up to rest."""
    made = Rounds(deck)
    for number in range(1, MOST_ROUNDS + 1):
        if made.run.is_at_rest():
            return
        did = made.round(number)
        if all(event.endswith(" TURN") for event in did):
            did = did + made.commands()
        yield number, did


def shared_names(deck):
    """Each resource of the whole complex that a line names, as a name, a slice and an entry, in the order of entries."""
    found = set()
    for number, system in enumerate(deck.systems):
        for task in system.tasks:
            for line in task.lines:
                if line.rname is not None and line.scope:
                    found.add(runs.resolve(deck, number, task, line)[0])
    names = [(decks.slice_of(*it[1:]), "SYSTEMS(%s,%s)" % (decks.printed(it[1]), decks.printed(it[2])))
             for it in found if runs.is_shared(it)]
    return sorted((number % deck.entries, number, name) for number, name in names)


def scheduled(text, deck):
    """The deck's text with a schedule, by pieces."""
    front = text[:deck.front]
    yield front + "\n" * (not front.endswith("\n"))
    if deck.is_star or any(verb == "SETGRS" for system in deck.systems for _, verb, _ in system.desk):
        for entry, _, name in shared_names(deck):
            if "*/" not in name:
                yield "/* lock entry %d: %s */\n" % (entry, name)
    yield "SCHEDULE\n"
    for number, events in rounds(deck):
        yield "/* round %d */\n" % number + "".join(event + "\n" for event in events)


def patiently(pieces, now=time.monotonic, say=streams.say):
    """Hands on each piece, and says each ten seconds that there are more."""
    begun = last = now()
    for piece in pieces:
        yield piece
        time_now = now()
        if time_now - last >= SECONDS:
            last = time_now
            say("grs-schedule", "still finding events, since %d seconds" % (last - begun))


def is_built():
    """Whether there is a program; one that is wanting is built, which says what it does."""
    ways = [HERE / "proved"], [HERE / "unproved", "--for", str(os.getpid())]
    return any(subprocess.run(words, stdin=subprocess.DEVNULL, stdout=subprocess.DEVNULL).returncode == 0 for words in ways)


def checked(deck):
    """What ./grs says against a deck, as its status; 0 where that is nothing."""
    done = subprocess.run([HERE.parent / "grs", "--quiet", "lists"], input=deck, stdout=subprocess.DEVNULL)
    return done.returncode


def main(words):
    if words and words[0] in ("--help", "-h"):
        streams.give(__doc__.strip() + "\n")
        return 0
    of_entries = words[:1] == ["--entries"]
    words = words[of_entries:]
    if len(words) > 1 or words and words[0].startswith("--"):
        raise streams.Failed(12, "these are no words of it: ./grs-schedule [--entries] [DECK], or --help")
    deck = streams.take(words[0] if words else None, MOST_BYTES + 1)
    if not is_built():
        raise streams.Failed(2, "nothing was run")
    status = checked(deck)
    if status:
        return status
    text = deck.decode("latin-1")
    found = decks.read(text)
    if of_entries:
        streams.give("".join("entry %d, slice %d: %s\n" % it for it in shared_names(found)))
        return 0
    room = MOST_BYTES
    for piece in patiently(scheduled(text, found)):
        room -= len(piece)
        if room < 0:
            raise streams.Failed(4, "later events are wanting, since a deck has 1,048,576 bytes at most")
        streams.give(piece)
    return 0


if __name__ == "__main__":
    streams.run("grs-schedule", main)
