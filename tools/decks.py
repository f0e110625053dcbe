"""Decks, as the scripts about the program read them. What the program itself reads of a deck is proved; this isn't.

A deck falls into tokens and these into statements; a statement's form is a word and what stands behind it (STATEMENTS, as in
docs/FORMATS.md). `read` takes a deck without a fault and gives its systems, tasks, lines and events.
"""
import functools
import itertools
import re
from typing import NamedTuple

SLICES = 64


# The deck as tokens, and as statements

class Token(NamedTuple):
    kind: str
    text: str
    line: int
    place: int
    start: int


PIECES = re.compile(r"""
    (?P<blank>   \ + | \r?\n | /\*.*?\*/ )
  | (?P<comment> /\*.* )
  | (?P<hex>     X'(?:[0-9A-Fa-f]{2})*' )
  | (?P<digits>  X'[^'\r\n]*' )
  | (?P<quoted>  '(?:[^'\n]|'')*'(?!') )
  | (?P<quote>   X?'[^\r\n]* )
  | (?P<word>    [A-Za-z0-9$#@._\-*?]+ )
  | (?P<mark>    [(),=] )
  | (?P<other>   . )
""", re.VERBOSE | re.DOTALL)


def tokens(deck):
    line, begin = 1, 0
    for piece in PIECES.finditer(deck):
        if piece.lastgroup != "blank":
            yield Token(piece.lastgroup, piece[0], line, piece.start() - begin + 1, piece.start())
        elif "\n" in piece[0]:
            line += piece[0].count("\n")
            begin = piece.start() + piece[0].rindex("\n") + 1


def lines_of(deck):
    """The tokens of each line that has some. A comment without an end is a line by itself."""
    for _, line in itertools.groupby(tokens(deck), lambda token: (token.line, token.kind == "comment")):
        yield list(line)


def goes_on(statement, line):
    """Whether an RNLDEF goes on with a line: it ended within an operand, or the line begins with the next one."""
    within = len(statement) > 1 and statement[-1].text != ")"
    return statement[0].text == "RNLDEF" and (within or line[0].text in STATEMENTS["RNLDEF"].choices)


def statements(lines):
    """The tokens of each statement."""
    found, scheduled = [], False
    for line in lines:
        if found and not scheduled and goes_on(found[-1], line):
            found[-1] = found[-1] + line
        else:
            found.append(line)
            scheduled = scheduled or line[0].text == "SCHEDULE"
    return found


def entries_of(found):
    """How many lock entries the deck has: 64 where it doesn't say, or doesn't say it with a number."""
    first = found[0]
    for word, _, after in zip(first, first[1:], first[2:]):
        if (first[0].text, word.text) == ("COMPLEX", "ENTRIES") and re.fullmatch(r"\d{1,9}", after.text):
            return int(after.text)
    return 64


# The forms of statements, and where a statement leaves its form

class Form(NamedTuple):
    """What stands behind a statement's first word: some items, then choices, each a word with items of its own: exactly ONE
    of them, or ANY number, or any number with a COMMA before each. A choice is made once at most."""
    front: str = ""
    how: str = ""
    choices: dict = {}
    needed: tuple = ()


ENQ = {"RET": "= NONE|USE|HAVE|TEST|CHNG", "ECB": "", "RNL": "= YES|NO"}
DISPLAY = Form("GRS ,", "ONE", {"C": "", "RES": "= ( qname , rname )"})
STATEMENTS = {
    "COMPLEX": Form("", "ANY", {"MODE": "( RING|STAR )", "ENTRIES": "( entries )", "LIMIT": "( limit )"}),
    "RNLDEF": Form("", "ANY", {"RNL": "( INCL|EXCL|CON )", "TYPE": "( SPECIFIC|GENERIC|PATTERN )", "QNAME": "( qname )",
                               "RNAME": "( rname )"}, ("RNL", "TYPE", "QNAME")),
    "SYSTEM": Form("name"),
    "AT": Form("number", "ONE", {"SETGRS": "MODE = STAR", "VARY": "GRS ( name ) , PURGE"}),
    "JOB": Form("name"),
    "TASK": Form("name"),
    "ENQ": Form("( qname , rname , E|S , STEP|SYSTEM|SYSTEMS )", "COMMA", ENQ),
    "RESERVE": Form("( qname , rname , E|S , SYSTEMS )", "COMMA", {**ENQ, "UCB": "= unit"}, ("UCB",)),
    "DEQ": Form("( qname , rname , STEP|SYSTEM|SYSTEMS )", "COMMA", {"RET": "= NONE|HAVE", "UCB": "= unit", "RNL": "= YES|NO"}),
    "WAIT": Form("( qname , rname , STEP|SYSTEM|SYSTEMS )", "COMMA", {"RNL": "= YES|NO"}),
    "GQSCAN": Form("SCOPE = LOCAL|GLOBAL", "COMMA", {"QNAME": "= qname", "RNAME": "= rname"}),
    "DISPLAY": DISPLAY,
    "D": DISPLAY,
    "SCHEDULE": Form(),
}
# the calls of a text of latch calls
CALLS = {"CRT": Form("set latches"), "OBT": Form("set latch requestor E|S SYNC|COND"), "REL": Form("set latch requestor"), "PRG": Form("set requestor")}
EVENT = Form("name", "ONE", {"TASK": "task", "TURN": "", "SEND": "task", "TAKE": "", "SETTLE": "", "TELL": "entry", "PART": "entry",
                             "LEAVE": "entry", "SWITCH": "", "PURGE": "name", "REST": ""})
NAME = r"[A-Z$#@][A-Z0-9$#@]*"
# items that aren't words: what they are called, which words they may be, and which numbers
ITEMS = {
    "name": ("a name (A to Z, 0 to 9, $, # and @, no digit first)", NAME, None),
    "task": ("a job and a task (as J1.T1)", NAME + r"\." + NAME, None),
    "set": ("a set's name (A to Z, 0 to 9, $, # and @, no digit first)", NAME, None),
    "latches": ("a number of latches from 1 to 1024", r"\d{1,9}", range(1, 1025)),
    "latch": ("a latch's number, of 1 to 9 digits", r"\d{1,9}", range(10 ** 9)),
    "requestor": ("a requestor's number from 0 to 65535", r"\d{1,9}", range(65536)),
    "number": ("a number of 1 to 9 digits", r"\d{1,9}", range(10 ** 9)),
    "entries": ("1, 2, 4, 8, 16, 32 or 64", r"\d{1,9}", [1, 2, 4, 8, 16, 32, 64]),
    "limit": ("a number from 1 to 4096", r"\d{1,9}", range(1, 4097)),
    "entry": ("the number of a lock entry", r"\d{1,9}", None),
    "unit": ("a unit of four hexadecimal digits", r"[0-9A-Fa-f]{4}", None),
    "qname": ("a qname (plain, quoted or in hexadecimal)", None, None),
    "rname": ("an rname (plain, quoted or in hexadecimal)", None, None),
}


def either(words):
    words = [word if word[-1:].isalnum() else '"%s"' % word for word in words]
    return " or ".join([", ".join(words[:-1])] * (len(words) > 1) + words[-1:])


class Wrong(Exception):
    """The token at which a statement leaves its form, or none at its end; what its form wants there, as an item and in words; and
    what stood before and behind."""

    def __init__(self, token, item, wanted, met=(), behind=()):
        super().__init__(token, wanted)
        self.token, self.item, self.wanted, self.met, self.behind = token, item, wanted, met, behind


class Walk:
    """A statement's tokens, gone through by its form. It keeps what each item was."""

    def __init__(self, tokens, entries):
        self.rest, self.entries, self.met = list(tokens), entries, []

    def take(self, item):
        token = self.rest[0] if self.rest else None
        said, spelled, numbers = ITEMS.get(item, (either(item.split("|")), None, None))
        if item == "entry":
            said, numbers = "%s from 0 to %d" % (said, self.entries - 1), range(self.entries)
        if token is None:
            raise Wrong(None, item, said, self.met)
        if item in ("qname", "rname"):
            right = token.kind in ("word", "quoted", "hex")
        elif spelled:
            right = token.kind == "word" and re.fullmatch(spelled, token.text) and (numbers is None or int(token.text) in numbers)
        else:
            right = token.kind in ("word", "mark") and token.text in item.split("|")
        if not right:
            raise Wrong(token, item, said, self.met, self.rest[1:])
        self.met.append((item, self.rest.pop(0)))
        return token.text

    def go(self, form):
        for item in form.front.split():
            self.take(item)
        left = dict(form.choices)
        while left and (self.rest or form.how == "ONE"):
            end = "" if form.how == "ONE" or self.needed(form, left) else "|the end"
            if form.how == "COMMA":
                self.take("," + end)
                end = ""
            word = self.take("|".join(left) + end)
            for item in left[word].split():
                self.take(item)
            # RET and ECB are one choice, and so is all of ONE
            for gone in left if form.how == "ONE" else ["RET", "ECB"] if word in ("RET", "ECB") else [word]:
                left = {choice: items for choice, items in left.items() if choice != gone}
        if self.rest:
            raise Wrong(self.rest[0], "", "", self.met, self.rest[1:])
        for word in self.needed(form, left):
            raise Wrong(None, word, word, self.met)

    def needed(self, form, left):
        """The choices that must still be made; a specific entry of a name list needs an rname."""
        specific = any(token.text == "SPECIFIC" for item, token in self.met if item == "SPECIFIC|GENERIC|PATTERN")
        return [word for word in (*form.needed, *["RNAME"] * specific) if word in left]


# Names, and what they are names of

def name_of(token):
    """The bytes of a resource's name, a letter each."""
    if token.kind == "hex":
        return bytes.fromhex(token.text[2:-1]).decode("latin-1")
    return token.text[1:-1].replace("''", "'") if token.kind == "quoted" else token.text


def printed(name):
    if re.fullmatch(r"[A-Za-z0-9$#@._\-*?]+", name):
        return name
    if re.fullmatch(r"[ -~]*", name):
        return "'%s'" % name.replace("'", "''")
    return "X'%s'" % name.encode("latin-1").hex().upper()


@functools.lru_cache(maxsize=1 << 16)
def slice_of(qname, rname):
    """The slice of a resource of the whole complex; its lock entry is this modulo the number of entries."""
    found = 0
    for byte in (qname.ljust(8) + rname).encode("latin-1"):
        found = (found * 31 + byte) % 65521
    return found % SLICES


class Line(NamedTuple):
    """A line of a task. Only a GQSCAN may lack names; the count of a display's slices is 0 where it shows the own lists alone."""
    text: str
    verb: str
    qname: str | None = None
    rname: str | None = None
    control: str = ""
    scope: str = ""
    ret: str = "NONE"
    unit: str | None = None
    by_lists: bool = True
    is_local: bool = False
    is_contended: bool = False
    first: int = 0
    count: int = 0


class Task(NamedTuple):
    job: str
    job_number: int
    name: str
    lines: list


class System(NamedTuple):
    name: str
    # (number, SETGRS or VARY, the system that a VARY names)
    desk: list
    tasks: list


class Event(NamedTuple):
    text: str
    line: int
    system: int
    verb: str
    # a task's place in its system, a lock entry, a system's place; or none
    of: int | None


class Deck(NamedTuple):
    is_star: bool
    entries: int
    limit: int
    lists: dict
    systems: list
    events: list
    # how many bytes stand before the word SCHEDULE, or before the end
    front: int


def spelled(statement):
    """A statement in one form, whatever its blanks and comments."""
    first, *rest = statement
    text = first.text + " " * bool(rest)
    for token in rest:
        text += " " * (token.kind != "mark" and text[-1] not in " (,=") + token.text
    return text


def options(texts):
    """What stands behind a statement's parentheses or SCOPE, as a word and maybe a value each."""
    found, here = {}, 0
    while here < len(texts):
        valued = texts[here + 2:here + 3] == ["="]
        found[texts[here + 1]] = here + 3 if valued else None
        here += 4 if valued else 2
    return found


def display(statement):
    """The line of a GQSCAN or a DISPLAY."""
    texts, text = [token.text for token in statement], spelled(statement)
    if texts[0] == "GQSCAN":
        found = {word: name_of(statement[4 + at]) for word, at in options(texts[4:]).items()}
        return Line(text, "GQSCAN", found.get("QNAME"), found.get("RNAME"), is_local=texts[3] == "LOCAL",
                    count=0 if texts[3] == "LOCAL" else SLICES)
    if texts[3] == "C":
        return Line(text, "DISPLAY", is_local=True, is_contended=True, count=SLICES)
    qname, rname = name_of(statement[6]).rstrip(" "), name_of(statement[8])
    return Line(text, "DISPLAY", qname, rname, is_local=True, first=slice_of(qname, rname), count=1)


def line_of(statement):
    verb, texts = statement[0].text, [token.text for token in statement]
    if verb in ("GQSCAN", "DISPLAY", "D"):
        return display(statement)
    close = texts.index(")")
    found = {word: texts[close + 1 + at] if at else "" for word, at in options(texts[close + 1:]).items()}
    return Line(spelled(statement), verb, name_of(statement[2]).rstrip(" "), name_of(statement[4]), texts[6] if close == 9 else "",
                texts[close - 1], "ECB" if "ECB" in found else found.get("RET", "NONE"), found.get("UCB", "").upper() or None,
                found.get("RNL") != "NO")


def list_entry(statement):
    """The list that an RNLDEF adds to, and its entry: the type, the qname and maybe an rname."""
    operands = {statement[here].text: statement[here + 2] for here in range(1, len(statement), 4)}
    rname = name_of(operands["RNAME"]) if "RNAME" in operands else None
    return operands["RNL"].text, (operands["TYPE"].text, name_of(operands["QNAME"]).rstrip(" "), rname)


def event_of(statement, systems):
    names = [system.name for system in systems]
    system, verb = names.index(statement[0].text), statement[1].text
    of = statement[2].text if len(statement) > 2 else None
    text = " ".join(token.text for token in statement)
    if verb in ("TASK", "SEND"):
        of = [task.job + "." + task.name for task in systems[system].tasks].index(of)
    elif verb == "PURGE":
        of = names.index(of)
    elif of is not None:
        of = int(of)
        text = "%s %s %d" % (statement[0].text, verb, of)
    return Event(text, statement[0].line, system, verb, of)


def read(text):
    """A deck without a fault, by its text (a letter for each byte)."""
    found = statements(lines_of(text))
    is_star, limit, lists, systems, events, front = False, 4096, {"INCL": [], "EXCL": [], "CON": []}, [], [], None
    for statement in found:
        word, texts = statement[0].text, [token.text for token in statement]
        if front is not None:
            events.append(event_of(statement, systems))
        elif word == "COMPLEX":
            operands = {texts[here]: texts[here + 2] for here in range(1, len(texts), 4)}
            is_star, limit = operands.get("MODE") == "STAR", int(operands.get("LIMIT", limit))
        elif word == "RNLDEF":
            which, entry = list_entry(statement)
            lists[which].append(entry)
        elif word == "SYSTEM":
            systems.append(System(texts[1], [], []))
            jobs = 0
        elif word == "AT":
            systems[-1].desk.append((int(texts[1]), texts[2], texts[5] if texts[2] == "VARY" else None))
        elif word == "JOB":
            job, jobs = texts[1], jobs + 1
        elif word == "TASK":
            systems[-1].tasks.append(Task(job, jobs - 1, texts[1], []))
        elif word == "SCHEDULE":
            front = statement[0].start
        else:
            systems[-1].tasks[-1].lines.append(line_of(statement))
    return Deck(is_star, entries_of(found), limit, lists, systems, events, len(text) if front is None else front)
