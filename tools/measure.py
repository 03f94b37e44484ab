"""What `make bench` measures with: what a run of a program takes, and tables of such rows."""
import os
import shutil
import statistics
import tempfile
from dataclasses import dataclass, field
from typing import Callable, Optional

ENVIRONMENT = {"PATH": os.environ.get("PATH", os.defpath), "LC_ALL": "C", "HOME": "/"}


@dataclass
class Job:
    """A run of a program: its words, the folder that it runs in, and the file that it reads as its standard input."""

    command: list
    folder: str = "/"
    given: str = os.devnull


@dataclass
class Taken:
    """What a process and its own children took: processor time, user and system; faults of pages. And its status."""

    seconds: float
    faults: int
    status: int


def run(job, output, environment):
    program = shutil.which(job.command[0])
    here, given = os.getcwd(), os.open(job.given, os.O_RDONLY)
    os.chdir(job.folder)
    actions = [(os.POSIX_SPAWN_DUP2, given, 0), (os.POSIX_SPAWN_DUP2, output, 1)]
    actions.append((os.POSIX_SPAWN_OPEN, 2, os.devnull, os.O_WRONLY, 0))
    child = os.posix_spawn(program, job.command, environment, file_actions=actions)
    _, status, used = os.wait4(child, 0)
    os.chdir(here)
    os.close(given)
    return Taken(used.ru_utime + used.ru_stime, used.ru_minflt + used.ru_majflt, os.waitstatus_to_exitcode(status))


def answer(job, counter=None):
    """A run's status and what it writes; and what a counter of allocations says of it, as lists of three numbers."""
    with tempfile.TemporaryDirectory(prefix="bench") as folder:
        counts = os.path.join(folder, "counts")
        loaded = {} if counter is None else {"LD_PRELOAD": counter, "COUNT_MALLOC": counts}
        with open(os.path.join(folder, "output"), "w+b") as output:
            status = run(job, output.fileno(), ENVIRONMENT | loaded).status
            output.seek(0)
            written = output.read()
        said = open(counts).read() if os.path.exists(counts) else ""
    return status, written, [[int(word) for word in line.split()] for line in said.splitlines()]


@dataclass
class Row:
    """What a program does with an input, in one run or several. `size` is the bytes that it reads, and `count` how much
    there is of what its table counts; both, and all figures, are of all runs together, or of one where each run is the
    same. `tells` takes from what the program writes what is shown of it. A row without runs shows what is `said`."""

    input: str
    program: str
    jobs: list
    size: int = 0
    count: int = 0
    same: bool = False
    beside: Optional["Row"] = None
    tells: Optional[Callable[[bytes], str]] = None
    said: str = ""
    seconds: list = field(default_factory=list)
    faults: int = 0
    taken: list = field(default_factory=list)

    def each(self, figure):
        return figure / len(self.jobs) if self.same else figure

    def prepare(self, counter):
        """Sees what the program says and allocates."""
        jobs = self.jobs[:1] if self.same else self.jobs
        answers = [answer(job, counter) for job in jobs]
        wrong = [status for status, _, _ in answers if status != 0]
        said = [] if self.tells is None else [self.tells(answers[0][1])]
        if wrong:
            said.append(f"status {wrong[0]} ({len(wrong)} of {len(jobs)})")
        self.said = ", ".join(said)
        self.taken = [line for _, _, lines in answers for line in lines]

    def measure(self):
        """One round."""
        null = os.open(os.devnull, os.O_WRONLY)
        taken = [run(job, null, ENVIRONMENT) for job in self.jobs]
        os.close(null)
        self.seconds.append(self.each(sum(one.seconds for one in taken)))
        faults = round(self.each(sum(one.faults for one in taken)))
        self.faults = faults if len(self.seconds) == 1 else min(self.faults, faults)

    def least(self):
        return min(self.seconds)

    def ratio(self):
        """How long it takes by the row beside it: the median of the ratios of all rounds. None where that has none."""
        if self.beside is None or not self.beside.seconds:
            return None
        return statistics.median(a / b for a, b in zip(self.seconds, self.beside.seconds))

    def nanoseconds(self, number):
        return self.least() / number * 1e9

    def allocations_per_thousand(self):
        """Allocations for each thousand of what is counted; None where they aren't counted."""
        return sum(line[0] for line in self.taken) / self.count * 1e3 if self.taken and self.count else None

    def peak_per_byte(self):
        """Bytes of memory at the peak for each byte that is read; None where they aren't counted."""
        return max(line[2] for line in self.taken) * 1024 / self.size if self.taken and self.size else None

    def cells(self):
        if not self.jobs:
            return [self.input, self.program, *[""] * 9, self.said]
        allocations = f"{sum(line[0] for line in self.taken):,}" if self.taken else ""
        peak = f"{max(line[2] for line in self.taken) / 1024:.1f}" if self.taken else ""
        return [
            self.input,
            self.program,
            f"{self.size:,}" if self.size else "",
            f"{self.count:,}" if self.count else "",
            f"{self.least() * 1e3:.2f}",
            "" if self.ratio() is None else f"{self.ratio():.2f}",
            f"{self.nanoseconds(self.size):.2f}" if self.size else "",
            # Of a few things the time of each says nothing.
            f"{self.nanoseconds(self.count):.1f}" if self.count >= 100 else "",
            f"{self.faults:,}",
            allocations,
            peak,
            self.said,
        ]


@dataclass
class Table:
    """Rows that count the same things, each named by this word."""

    title: str
    counts: str
    rows: list

    def print(self):
        many = f"{self.counts[:-1]}ies" if self.counts.endswith("y") else f"{self.counts}s"
        count = [many, f"ns/{self.counts}"] if self.counts else ["", ""]
        head = ["input", "program", "bytes", count[0], "ms", "ratio", "ns/byte", count[1], "faults", "allocations",
                "peak MB", "said"]
        lines = [row.cells() for row in self.rows]
        used = [place for place in range(len(head)) if any(line[place] for line in lines)]
        widths = {place: max(len(line[place]) for line in [head, *lines]) for place in used}
        print(f"\n{self.title}\n")
        print(in_line(head, widths))
        rules = ["-" * (width + 1) + ("-" if left(place) else ":") for place, width in widths.items()]
        print("|".join(["", *rules, ""]))
        for line in lines:
            print(in_line(line, widths))


def left(place):
    """Whether what stands in a column is words."""
    return place in (0, 1, 11)


def in_line(cells, widths):
    shown = [cells[p].ljust(width) if left(p) else cells[p].rjust(width) for p, width in widths.items()]
    return "| " + " | ".join(shown) + " |"


def measure(tables, rounds, counter):
    """Each round runs each row once, the rows of a table one after another."""
    rows = [row for table in tables for row in table.rows if row.jobs]
    for row in rows:
        row.prepare(counter)
    for _ in range(rounds):
        for row in rows:
            row.measure()
