"""What the scripts of this folder share: which programs they time, and the table that they print.

    bench/NAME [UNPROVED]

The program is crates/grs/out/grs, which `cd crates/grs && rt run` makes, or the one that the environment names as GRS.
Where an unproved program of the same tables is named, it runs each deck by turns with the first and has to write the
same. Behind each number stands in parentheses how many times as long the first takes, and how many times as much memory.

A time is that of the processor, the best of twelve runs by turns; a peak of memory is that of a run of its own. Growth says how
many times as long a deck takes as the one before it in its family, by each program. What is read is a deck, under `latch` calls
of latches, and under `gen` nothing. Under `run` each program makes events of its own, so what is written isn't compared, and the
time is that of all processors. Behind a table stands what part of the processors' time a virtual machine's host took away meanwhile.
"""
import contextlib
import math
import os
import platform
import subprocess
import sys
import tempfile

TOP = os.path.join(os.path.dirname(os.path.abspath(__file__)), "..")
PROGRAMS = [os.environ.get("GRS", os.path.join(TOP, "crates", "grs", "out", "grs"))] + sys.argv[1:2]
ROUNDS = 12


def joined(lines):
    return "".join(line + "\n" for line in lines)


@contextlib.contextmanager
def started(program, deck, output=subprocess.DEVNULL, word="replay"):
    """A program at work on a deck."""
    with tempfile.TemporaryFile("w+") as source:
        source.write(deck)
        source.seek(0)
        yield subprocess.Popen([program, *word.split()], stdin=source, stdout=output)


def written(program, deck, word):
    """What a program writes of a deck."""
    with started(program, deck, subprocess.PIPE, word) as child:
        text = child.communicate()[0]
    if child.returncode not in (0, 4):
        sys.exit("%s answered status %d" % (program, child.returncode))
    return text


def seconds(program, deck, word):
    """The processor time of a run on a deck."""
    with started(program, deck, word=word) as child:
        _, _, used = os.wait4(child.pid, 0)
        child.returncode = 0
    return used.ru_utime + used.ru_stime


def full_pipe():
    """The two ends of a pipe that takes nothing more: who writes into it waits until it is read."""
    out, full = os.pipe()
    os.set_blocking(full, False)
    with contextlib.suppress(BlockingIOError):
        while True:
            os.write(full, bytes(4096))
    os.set_blocking(full, True)
    return out, full


def peak(program, deck, word):
    """The peak of memory of a run on a deck, in MB: it is read where the program, by one thread again, waits to write its text."""
    out, full = full_pipe()
    said = {"State": "", "Threads": ""}
    with started(program, deck, full, word) as child:
        os.close(full)
        while said["State"][:1] not in ("S", "Z") or said["Threads"] != "1":
            with open("/proc/%d/status" % child.pid) as status:
                said = {name: value.strip() for name, _, value in (line.partition(":") for line in status)}
        with open(out, "rb") as rest:
            rest.read()
        child.wait()
    return int(said["VmHWM"].split()[0]) / 1024


def times(deck, word):
    """The least time of each program on a deck."""
    if len({written(program, deck, word) for program in PROGRAMS}) > 1 and word != "run":
        sys.exit("the programs don't write the same")
    best = [math.inf] * len(PROGRAMS)
    for _ in range(ROUNDS):
        best = [min(least, seconds(program, deck, word)) for least, program in zip(best, PROGRAMS)]
    return best


def machine():
    with open("/proc/cpuinfo") as file:
        model = next((line.split(":", 1)[1].strip() for line in file if line.startswith("model name")), "unknown processor")
    memory = os.sysconf("SC_PAGE_SIZE") * os.sysconf("SC_PHYS_PAGES") // 2**20
    return "%s, %d processors, %d MB, %s" % (model, os.cpu_count(), memory, platform.platform())


def spent():
    """Of all processors so far, the time in ticks that was wanted, and what of it the host of a virtual machine took away."""
    with open("/proc/stat") as file:
        user, nice, system, _, _, irq, softirq, steal = map(int, file.readline().split()[1:9])
    return user + nice + system + irq + softirq + steal, steal


def told_of_host():
    """Tells, when it is called, what part of the processors' time the host took away since now."""
    begun = spent()

    def told():
        wanted, taken = (now - then for now, then in zip(spent(), begun))
        return "the host took %.0f of 100 away" % (100 * taken / max(1, wanted))
    return told


def cell(values, unit):
    """What the first program takes, and in parentheses how many times what the other does."""
    return "%.1f %s" % (values[0], unit) + "".join(" (%.2f)" % (values[0] / other) for other in values[1:])


def print_table(families, word="replay"):
    """A line for each deck. Each family has a name, and decks in order, each with a name of its own."""
    print(machine() + "\n\n| Deck | Time | Memory | Growth |\n|---|---|---|---|")
    told = told_of_host()
    for family, decks in families:
        before = None
        for name, deck in decks:
            taken = times(deck, word)
            peaks = [peak(program, deck, word) for program in PROGRAMS]
            growth = "; ".join("%.1f" % (now / then) for now, then in zip(taken, before)) if before else ""
            cells = [family + " " + name, cell([1000 * time for time in taken], "ms"), cell(peaks, "MB"), growth]
            print("| " + " | ".join(cells) + " |", flush=True)
            before = taken
    print("\n" + told() + "\n")
