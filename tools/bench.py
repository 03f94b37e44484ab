#!/usr/bin/env python3
"""Measures the programs, most beside gcc and tcc, and prints tables: bench.py ROUNDS COUNTER|none REAL PROGRAM..

Each PROGRAM is one that is built, as crates/PROGRAM/out/PROGRAM. COUNTER is tools/count_malloc.c as a shared object,
and REAL the folder that tools/real_text.py made. docs/PERFORMANCE.md says what the columns are.
"""
import os
import re
import shutil
import sys
import tempfile

import bodies
import generated
import units
from measure import Job, Row, Table, answer, measure

GCC = ["gcc", "-E", "-undef", "-nostdinc", "-w"]
TCC = ["tcc", "-E", "-nostdinc", "-w"]
ORDER = ["order", "-", "--hosts", "localhost", "-j", "1"]
COUNT = ["bench_program", "lex", "count"]
EXPAND = ["bench_program", "expand"]
# The words of a program that its row shows.
SHOWN = ["-E", "-fpreprocessed", "lex", "count", "tree", "search", "words", "share", "memo", "slots", "list", "expand", "text"]
STARTS = 50


def absent(input_, program, why):
    return Row(input_, program, [], said=why)


class Bench:
    """What the tables are made with: a folder for inputs, the programs that are built, and real text."""

    def __init__(self, folder, programs, real):
        self.folder, self.real = folder, os.path.abspath(real)
        self.programs = {name: os.path.abspath(f"crates/{name}/out/{name}") for name in programs}
        self.goals = []

    def write(self, name, body):
        path = os.path.join(self.folder, name)
        os.makedirs(os.path.dirname(path), exist_ok=True)
        with open(path, "wb") as file:
            file.write(body)
        return path

    def row(self, input_, words, given=(), **more):
        """A row of a program of the repository, or of a tool of the host: its words once with each of what is given."""
        name, *rest = words
        program = self.programs.get(name) or shutil.which(name)
        if program is None:
            return absent(input_, name, "not here")
        jobs = [Job([program, *rest, *files]) for files in given or [[]]]
        shown = [word for word in rest if word in SHOWN]
        return Row(input_, " ".join([name, *shown]), jobs, **more)

    def row_given(self, input_, words, given):
        """A row of a program that reads each of these requests as its standard input, which says how it replies."""
        row = self.row(input_, words, [[]] * len(given), size=sum(map(os.path.getsize, given)), tells=reply)
        for job, path in zip(row.jobs, given):
            job.given = path
        return row

    def rows(self, input_, commands, given, **more):
        """A row of each of these commands, beside the first."""
        rows = [self.row(input_, words, given, **more) for words in commands]
        for row in rows:
            row.beside = rows[0]
        return rows

    def goal(self, label, row, figure, limit, unit):
        """What a row is to reach: at most this much of a figure of it, where there is one."""
        if row.jobs:
            self.goals.append((label, row, figure, limit, unit))

    def numbers(self, words, paths):
        """The sums of the numbers that a program prints behind the name of each file; none where it isn't built."""
        program = self.programs.get(words[0])
        if program is None:
            return [0, 0, 0]
        _, written, _ = answer(Job([program, *words[1:], *paths]))
        lines = [line.split()[-3:] for line in written.decode().splitlines() if " error: " not in line]
        return [sum(map(int, numbers)) for numbers in zip(*lines)] or [0, 0, 0]

    def tokens(self, paths):
        return self.numbers(COUNT, paths)[-1]

    def job(self, input_, folder, times=1, words=(), options="", **more):
        """A row of `pump_program` on a folder's a.c, with more words and with compile words. What it says is how the job ended, and
        where it was done."""
        line = self.write(f"lists{folder.replace('/', '-')}", f"{folder} a.c {options}\n".encode())
        if "pump_program" not in self.programs:
            return absent(input_, "pump_program", "not here")
        job = Job([self.programs["pump_program"], *ORDER, *words], self.folder, line)
        return Row(input_, "pump_program", [job] * times, same=True, tells=way, **more)


def way(report):
    """How the first job of a report ended, and where it was done."""
    found = re.match(rb"job 0 (\S+)(?: \d+)? (.*)", report)
    return b" ".join(found.groups()).decode() if found else report[:40].decode(errors="replace")


def plain_text(bench):
    """Whole jobs on text without macros and directives, which is one file."""
    text, rows = bodies.preprocessed_text(), []
    for size in [1_400_000, 4_600_000]:
        body = bodies.fill(text, size)
        path = bench.write(f"text{size}/a.c", body)
        count, label = bench.tokens([path]), f"text, {len(body) / 1e6:.1f} MB"
        commands = [GCC, TCC, COUNT, [*EXPAND, "text"]]
        rows += bench.rows(label, commands, [[path]], size=len(body), count=count)
        bench.goal(f"{label}, expanded and laid out, to gcc -E", rows[-1], Row.ratio, 0.45, "")
        bench.goal(f"{label}, allocations for 1,000 tokens", rows[-1], Row.allocations_per_thousand, 1, "")
        bench.goal(f"{label}, peak memory", rows[-1], Row.peak_per_byte, 12, "bytes/byte")
        rows.append(bench.job(label, os.path.dirname(path), size=len(body), count=count, beside=rows[-4]))
        bench.goal(f"{label}, a whole job, to gcc -E", rows[-1], Row.ratio, 0.45, "")
    return Table("Text without macros and directives, in one file. The ratio is to gcc -E.", "token", rows)


def small_plain_files(bench):
    """Whole jobs on small files, and on such with a computed include that has a choice more than the budget."""
    files = bodies.plain_files(bodies.preprocessed_text(), 64, 59_000)
    size, rows = sum(map(len, files)), []
    lines = b"".join(b'#include "h%d.h"\n' % number for number in range(len(files)))
    beyond = b'#define H "h0.h"\n#include H\n'
    for label, line, words in [("64 plain files of 59 kB", b"int x;\n", []), ("and a choice above the budget", beyond, ["--budget", "1"])]:
        folder = f"small{len(rows)}"
        paths = [bench.write(f"{folder}/h{number}.h", body) for number, body in enumerate(files)]
        path = bench.write(f"{folder}/a.c", lines + line)
        counts = {"size": size, "count": bench.tokens(paths)}
        rows += bench.rows(label, [GCC, TCC], [[path]], **counts)
        rows.append(bench.job(label, os.path.dirname(path), beside=rows[-2], words=words, **counts))
    return Table("Whole jobs, the remote way and the local way.", "token", rows)


def real_headers(bench):
    """Sources that include headers of the C library or of Linux, with what the compiler defines by itself: preprocessed by a daemon that has the
    request, and as whole jobs, with the analysis and the exchange."""
    rows, words = [], units.compiler_words()
    for number, names in enumerate(bodies.REAL_HEADERS):
        text = "".join(f"#include <{name}>\n" for name in names)
        path = bench.write(f"headers{number}/a.c", text.encode())
        label = names[0] if len(names) == 1 else f"{names[0]} and {len(names) - 1} more"
        gcc, *others = bench.rows(label, [["gcc", "-E", "-w"], ["tcc", "-E", "-w"]], [[path]])
        daemon_alone = served(bench, label, path)
        whole = bench.job(label, os.path.dirname(path), options=words)
        daemon_alone.beside = whole.beside = gcc
        rows += [gcc, *others, daemon_alone, whole]
        bench.goal(f"{label}, preprocessed, to gcc -E", daemon_alone, Row.ratio, 0.35, "")
        bench.goal(f"{label}, a whole job, to gcc -E", whole, Row.ratio, 0.35, "")
    return Table("Real headers, conditionals and all: preprocessed by the daemon, and as whole jobs by the remote way. The ratio is to gcc -E.", "", rows)


def served(bench, label, path):
    """A row of `pumpd` on the request of a source with the files that `gcc -M` lists."""
    folder = os.path.dirname(path)
    given = bench.write(f"requests{folder.replace('/', '-')}", units.request(folder, ["a.c"]))
    return bench.row_given(label, ["pumpd", "--inetd"], [given])


def real_units(bench):
    """Units of real code with their headers, conditionals and all: by gcc and tcc where they are, and by a daemon that has the request, each in a
    process of its own; and as whole jobs of one list."""
    rows = []
    for name, listed in units.units_of(bench.real).items():
        label = f"{name}, {len(listed)} units"
        gcc, tcc = (bench.row(label, [program, "-E", "-w"], [words for _, words in listed]) for program in ["gcc", "tcc"])
        for row in [gcc, tcc]:
            for job, (folder, _) in zip(row.jobs, listed):
                job.folder = folder
        given = [bench.write(f"units/{name}/{number}", units.request(*unit)) for number, unit in enumerate(listed)]
        daemon = bench.row_given(label, ["pumpd", "--inetd"], given)
        whole = bench.row(label, ["pump_program", *ORDER], tells=looks)
        lines = [units.list_line(folder, [*units.compile_words(words), "-o", f"{number}.i"]) for number, (folder, words) in enumerate(listed)]
        for job in whole.jobs:
            job.folder, job.given = bench.folder, bench.write(f"units/{name}/list", "".join(lines).encode())
        gcc.beside = tcc.beside = daemon.beside = whole.beside = gcc
        rows += [gcc, tcc, daemon, whole]
        bench.goal(f"{name}, units with their headers, to gcc -E", daemon, Row.ratio, 0.35, "")
    if not rows:
        rows = [absent("units of zlib, libiberty, uClibc", "", "not here: see tools/real_text.py")]
    return Table("Units of real code with their headers: preprocessed by the daemon, and as whole jobs of one list. The ratio is to gcc -E.", "", rows)


def lexing(bench):
    """The lexer on headers; gcc reads the same bodies, with an error where one is cut from its headers."""
    text, rows = bodies.headers_text(5_000_000), []
    for part in [bodies.front(text, 500_000), bodies.front(text, 1_600_000), text]:
        path = bench.write(f"headers{len(part)}.c", part)
        # Without the lines that diagnostics are about: to show one, gcc reads the file from its start.
        gcc = ["gcc", "-E", "-fpreprocessed", "-w", "-fno-diagnostics-show-caret"]
        label, counts = f"headers, {len(part) / 1e6:.1f} MB", {"size": len(part), "count": bench.tokens([path])}
        rows += bench.rows(label, [gcc, COUNT], [[path]], **counts)
    tenfold = bodies.front(text, 500_000) * 10
    path = bench.write("tenfold.c", tenfold)
    counts = {"size": len(tenfold), "count": bench.tokens([path])}
    rows.append(bench.row("0.5 MB of them, ten times", COUNT, [[path]], **counts))
    rows[-1].beside = rows[1]
    bench.goal("headers", rows[-2], per_byte, 10, "ns/byte")
    bench.goal("ten times the bytes, of the time", rows[-1], Row.ratio, 11.5, "")
    return Table("Lexing. The ratio of the last row is to a tenth of it.", "token", rows)


def per_byte(row):
    return row.nanoseconds(row.size)


def per_one(row):
    return row.nanoseconds(row.count)


def hostile(bench):
    """Bodies of nearly 16 MiB, which would take long where the lexer went over bytes more than once."""
    rows = []
    for number, (label, body) in enumerate(bodies.hostile_bodies()):
        path = bench.write(f"hostile{number}.c", body)
        counts = {"size": len(body), "count": bench.tokens([path])}
        rows.append(bench.row(label, COUNT, [[path]], **counts))
    bench.goal("the slowest hostile body", rows[0], lambda _: max(map(per_byte, rows)), 20, "ns/byte")
    return Table("Lexing what is hostile, 16 MiB.", "token", rows)


def real_code(bench):
    """Units of real code, a process for each; their tokens are those read and those put out."""
    rows = []
    for name in sorted(units.units_of(bench.real)):
        folder = os.path.join(bench.real, name)
        paths = sorted(os.path.join(folder, file) for file in os.listdir(folder))
        read, made, work = bench.numbers(EXPAND, paths)
        label = f"{name}, {len(paths)} units, {work:,} of work"
        counts = {"size": sum(map(os.path.getsize, paths)), "count": read + made}
        commands = [GCC, TCC, EXPAND, [*EXPAND, "text"]]
        rows += bench.rows(label, commands, [[path] for path in paths], **counts)
        bench.goal(f"{name}, to gcc -E", rows[-1], Row.ratio, 0.30, "")
    if not rows:
        rows = [absent("zlib, libiberty, uClibc", "", "not here: see tools/real_text.py")]
    return Table("Real code without conditionals and includes. The ratio is to gcc -E.", "token", rows)


# Made texts that are to take less than a second.
IN_A_SECOND = [
    "a chain of 20,000 names",
    "300 nested calls, 100 times",
    "500 words in 20 calls, in a chain of 3,000 names",
    "a chain of 9,600 calls",
    "a call with 40,000 parameters",
    "20,000 spellings pasted",
]


def expansion(bench):
    """Made texts whose expansion takes long, and nearly the most work that a run of text has."""
    rows, expanded = [], {}
    for label, text in made_texts():
        path = bench.write(f"expansion{len(rows)}.c", text.encode())
        _, _, work = bench.numbers(EXPAND, [path])
        rows += bench.rows(label, [GCC, TCC, EXPAND], [[path]], count=work)
        expanded[label] = rows[-1]
    bench.goal("a token of a body that is put in", expanded["a body of 50 tokens, 100,000 times"], per_one, 40, "ns")
    for label in IN_A_SECOND:
        bench.goal(label, expanded[label], Row.least, 1, "s")
    shorter, longer = expanded["a chain of 4,800 calls"], expanded["a chain of 9,600 calls"]
    bench.goal("a chain of calls twice as long, of the time", longer, lambda row, of=shorter: row.least() / of.least(), 2.5, "")
    path = bench.write("pasted.c", bodies.pasted(80_000).encode())
    rows.append(bench.row("80,000 spellings pasted", EXPAND, [[path]], count=2))
    shorter = expanded["20,000 spellings pasted"]
    bench.goal("four times the spellings pasted, of the time", rows[-1], lambda row, of=shorter: row.least() / of.least(), 5, "")
    path = bench.write("doubling.c", bodies.doubling("A21 A20").encode())
    _, _, work = bench.numbers(EXPAND, [path])
    rows.append(bench.row("doubling, nearly the most", EXPAND, [[path]], count=work))
    bench.goal("20,000,000 units of work", rows[-1], lambda row: per_one(row) / 50, 10, "s")
    return Table("Macro expansion of made texts. The ratio is to gcc -E.", "unit", rows)


def made_texts():
    if shutil.which("gcc") is not None:
        yield from bodies.tgmath_expansions()
    yield from bodies.expansions()
    yield "doubling", bodies.doubling("A20")


def start(bench):
    """Jobs of 7 bytes."""
    path = bench.write("start/a.c", b"int x;\n")
    commands = [GCC, TCC, ["true"], COUNT]
    rows = bench.rows("a file of 7 bytes", commands, [[path]] * STARTS, same=True)
    rows.append(bench.job("a file of 7 bytes", os.path.dirname(path), times=STARTS, beside=rows[0]))
    bench.goal("start", rows[-1], lambda row: row.least() * 1e3, 1, "ms")
    words = [f"-DNAME{number}={number}" for number in range(350)]
    path = bench.write("defined/a.c", b"int x;\n")
    label = "and 350 words -D"
    rows.append(bench.row(label, [*GCC, *words], [[path]] * STARTS, same=True))
    rows.append(bench.job(label, os.path.dirname(path), times=STARTS, options=" ".join(words), beside=rows[-1]))
    bench.goal("350 words -D", rows[-1], lambda row: (row.least() - rows[-3].least()) * 1e3, 1.2, "ms")
    return Table(f"Start: one of {STARTS} runs. The ratio is to gcc -E.", "", rows)


def includes(bench):
    """Jobs with many small headers."""
    rows = []
    for count in [10, 90, 900]:
        folder = f"includes{count}"
        for number in range(count):
            bench.write(f"{folder}/h{number}.h", b"int y%d;\n" % number)
        lines = "".join(f'#include "h{number}.h"\n' for number in range(count))
        path = bench.write(f"{folder}/a.c", f"{lines}int x;\n".encode())
        label = f"{count} headers of some 8 bytes"
        rows += bench.rows(label, [GCC, TCC], [[path]] * 5, count=count, same=True)
        rows.append(bench.job(label, os.path.dirname(path), count=count, times=5, beside=rows[-2]))
    return Table("Includes. The ratio is to gcc -E.", "include", rows)


def searches(bench):
    """Searches for a header that only the last of the directories has, and readings of 1,000 words."""
    rows = []
    for directories, times in [(10, 20_000), (100, 2_000), (900, 200)]:
        words = ["bench_program", "tree", "search", str(directories), str(times)]
        rows.append(bench.row(f"a search in {directories} directories", words, count=times))
    rows.append(bench.row("read_words, 1,000 words", ["bench_program", "tree", "words", "999", "500"], count=500))
    bench.goal("a search in 100 directories", rows[1], lambda row: per_one(row) / 1e3, 100, "us")
    bench.goal("read_words, 1,000 words", rows[3], lambda row: per_one(row) / 1e3, 1_000, "us")
    return Table("Searches and words, over a tree in memory.", "time", rows)


def daemon(bench):
    """Requests of a small job, so that reading is what takes time and memory, and what is none."""
    requests = [
        ("15 files of 16 MiB", bodies.request(bodies.large_files(15)), 17),
        ("10,002 entries", bodies.request(bodies.small_files(10_000)), 10_002),
        ("100,000 entries", bodies.request(bodies.small_files(99_998)), 100_000),
        ("nonsense of 256 MiB", b"x" * 268_435_456, 0),
    ]
    rows = []
    for number, (label, body, entries) in enumerate(requests):
        path = bench.write(f"request{number}", body)
        row = bench.row(label, ["pumpd", "--inetd"], size=len(body), count=entries, tells=reply)
        for job in row.jobs:
            job.given = path
        rows.append(row)
    bench.goal("a request of 15 files of 16 MiB", rows[0], per_byte, 1, "ns/byte")
    return Table("Requests to pumpd --inetd.", "entry", rows)


def reply(written):
    return written[:12].decode(errors="replace")


def choices(bench):
    """Computed includes under sets of definitions, by every list of choices."""
    rows = []
    for number, (label, text, lists_run) in enumerate(bodies.choices()):
        path = bench.write(f"choices{number}", text.encode())
        row = bench.row(label, ["choice_examples"], count=lists_run)
        for job in row.jobs:
            job.given = path
        rows.append(row)
    bench.goal("15,625 headers", rows[0], lambda row: per_one(row) * row.count / 1e9, 1, "s")
    return Table("What computed includes may name, by lists of choices.", "list", rows)


def memos(bench):
    """So many looks and publications in a memo that clients share, whatever the number of its keys."""
    rows = []
    for keys, rounds in [(10, 100_000), (1_000, 1_000), (100_000, 10), (1_000_000, 1)]:
        words = ["bench_program", "share", "memo", str(keys), str(rounds)]
        rows.append(bench.row(f"{keys:,} keys", words, count=2 * keys * rounds, tells=one_line))
        rows[-1].beside = rows[0]
    return Table("Looks and publications in a memo that clients share. The ratio is to 10 keys.", "call", rows)


def slots(bench):
    """Slots that one thread and four threads take and give back."""
    rows = []
    for label, threads in [("one thread", 1), ("four threads", 4)]:
        words = ["bench_program", "share", "slots", str(threads), str(2_000_000 // threads)]
        rows.append(bench.row(label, words, count=4_000_000, tells=one_line))
        rows[-1].beside = rows[0]
    return Table("Takes and gives on three slots. The ratio is to one thread.", "call", rows)


def lists(bench):
    """Compile lists, the last of nearly the most bytes that a list has."""
    rows = []
    for label, size in [("10 kB", 10_000), ("1 MB", 1_000_000), ("16 MB", 16_777_216)]:
        body, jobs = bodies.compile_list(size)
        path = bench.write(f"list{size}", body)
        rows.append(bench.row(label, ["bench_program", "share", "list"], [[path]], size=len(body), count=jobs, tells=one_line))
    return Table("Lists that are read.", "job", rows)


def one_line(written):
    return written.decode().strip()


def many_jobs(bench):
    """Lists of jobs that one client does, and of such whose files may include the same."""
    rows = []
    for sources in [200, 1_000, 5_000]:
        folder = os.path.join(bench.folder, f"generated{sources}")
        path = bench.write(f"generated{sources}/list", generated.write(folder, sources).encode())
        row = bench.row(f"{sources:,} sources", ["pump_program", *ORDER], count=sources, tells=looks)
        for job in row.jobs:
            job.folder, job.given = folder, path
        rows.append(row)
        bench.goal(f"a job of {sources:,}", row, lambda row: per_one(row) / 1e6, 1, "ms")
    path = bench.write("again/list", again(os.path.join(bench.folder, "generated200"), 5_000).encode())
    row = bench.row("5,000 jobs on one source", ["pump_program", *ORDER], count=5_000, tells=looks)
    for job in row.jobs:
        job.folder, job.given = os.path.join(bench.folder, "again"), path
    bench.goal("a job whose files were all looked at before", row, lambda row: per_one(row) / 1e6, 0.1, "ms")
    return Table("Jobs of a list, by one client.", "job", [*rows, row])


def again(folder, jobs):
    """A list of jobs on one source of a generated tree."""
    return "".join(f"{folder} s/s7.c -o s{number}.i -Ih -DF0=0 -DF1=1 -DF2=2\n" for number in range(jobs))


def looks(report):
    """The last line of a report."""
    return report.decode(errors="replace").strip().rsplit("\n", 1)[-1]


TABLES = [
    plain_text,
    small_plain_files,
    real_headers,
    real_units,
    lexing,
    hostile,
    real_code,
    expansion,
    choices,
    start,
    includes,
    searches,
    daemon,
    memos,
    slots,
    lists,
    many_jobs,
]
MADE_BY_GCC = [plain_text, small_plain_files, real_headers, real_units]


def print_goals(bench):
    print("\nGoals\n")
    for label, row, figure, limit, unit in bench.goals:
        got = figure(row)
        if got is None:
            continue
        met = "met" if got <= limit else "MISSED"
        print(f"{label}: {got:.2f} {unit} (at most {limit}: {met})".replace("  ", " "))


def main():
    rounds, counter, real, *programs = sys.argv[1:]
    with tempfile.TemporaryDirectory(prefix="bench") as folder:
        bench = Bench(folder, programs, real)
        has_gcc = shutil.which("gcc") is not None
        tables = [make(bench) for make in TABLES if has_gcc or make not in MADE_BY_GCC]
        measure(tables, int(rounds), None if counter == "none" else os.path.abspath(counter))
        for table in tables:
            table.print()
        print_goals(bench)


main()
