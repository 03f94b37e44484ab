#!/usr/bin/env python3
"""Measures the analysis of jobs on real code: measure-analysis.py TREES [REAL [TIMES]]

TREES is `tree_examples` as it was built. There are sources that include headers of the C library or of the kernel, and the units
that REAL/units.json lists, where tools/real_text.py made it. Their tree in memory has the headers of the directories that are
searched. The units of each set are analysed with nothing remembered, TIMES times in all (500), in each of five rounds, of which the
least time counts. The time of one is told beside the processor time of `gcc -M`, with how many files are sent for each that `gcc -M`
lists, and how many units are refused; then whether the time for 340 kB meets the goal. A second table tells which files are sent
beside these for most units, and the group of which file names each.
"""
import os
import re
import resource
import subprocess
import sys
import tempfile
from collections import Counter
from dataclasses import dataclass

from bodies import REAL_HEADERS
from units import compile_words, directories_of, units_of

# The folders with headers below a directory of the system.
FOLDERS = re.compile(r"(asm|asm-generic|bits|gnu|linux|mtd|net|netinet|sys)(/|$)")
# What files include.
INCLUDED = re.compile(r".*\.(h|c|ch|def|inc)")
# How many rows the second table has.
ROWS = 20
# How many rounds there are, of which the least time counts.
ROUNDS = 5
# The goal: so many milliseconds at most for a unit of so many bytes.
GOAL, OF_BYTES = 1, 340_000
DIRECTIVE = re.compile(rb"^[ \t]*#[ \t]*(if|ifdef|ifndef|elif|else|endif|include|include_next)\b(.*)")


@dataclass
class Unit:
    """A job in a folder: the words of the analysis, those of gcc, and the files that were sent, or why none were."""

    folder: str
    words: list
    of_gcc: list
    sent: object = None
    listed: object = None


class Nodes:
    """A tree in memory: what is below directories of the host, its links as links."""

    def __init__(self):
        self.nodes, self.walked = {}, set()

    def walk(self, top, wanted=lambda below: True):
        top = os.path.normpath(top)
        if top in self.walked or not os.path.isdir(top):
            return
        self.walked.add(top)
        for folder, folders, names in os.walk(top):
            folders[:] = [name for name in folders if wanted(os.path.relpath(os.path.join(folder, name), top))]
            self.nodes[folder] = ("dir", None)
            for name in [name for name in folders if os.path.islink(os.path.join(folder, name))]:
                self.link(os.path.join(folder, name))
            for name in filter(INCLUDED.fullmatch, names):
                self.file(os.path.join(folder, name))

    def file(self, path):
        if os.path.islink(path):
            self.link(path)
        elif os.path.isfile(path):
            with open(path, "rb") as file:
                self.nodes[path] = ("file", file.read())

    def link(self, path):
        self.nodes[path] = ("link", os.readlink(path))
        target = os.path.realpath(path)
        if os.path.isdir(target):
            self.walk(target)
        elif target not in self.nodes:
            self.file(target)

    def case(self, questions):
        """The lines of a case: the nodes in order of their paths, then questions."""
        for path in list(self.nodes):
            while path != "/":
                path = os.path.dirname(path)
                if path != "/":
                    self.nodes.setdefault(path, ("dir", None))
        lines = []
        for path, (kind, of) in sorted(self.nodes.items(), key=lambda node: node[0].encode()):
            lines.append(f"{kind} {path}" + (f" {of}" if kind == "link" else ""))
            if kind == "file":
                lines.append("= " + of.decode("latin-1").translate(ESCAPES))
        return "\n".join(lines + questions) + "\n\n"


BAR = "\\|"
ESCAPES = {byte: "\\\\" if byte == 92 else f"\\x{byte:02x}" for byte in [*range(32), 92, *range(127, 256)]}


def timed(command, cwd=None, text=""):
    """The processor time of a command, and what it prints."""
    before = resource.getrusage(resource.RUSAGE_CHILDREN)
    done = subprocess.run(command, cwd=cwd, input=text, capture_output=True, encoding="latin-1", check=True)
    after = resource.getrusage(resource.RUSAGE_CHILDREN)
    return after.ru_utime + after.ru_stime - before.ru_utime - before.ru_stime, done.stdout


def files_of(answer):
    """The files that a request has, or the words of a refusal."""
    if not answer.startswith("> request "):
        return answer
    return {name for name, word in re.findall(r"NAME[0-9a-f]{8}(/[^\\]*?)(FILE|MDIR|LINK)[0-9a-f]{8}", answer) if word == "FILE"}


def question(asked, unit):
    return " ".join([asked, unit.folder, *unit.words])


def unit_of(folder, words):
    """
    A unit of these words of gcc. The compiler's own macros are left out, since reading them takes longer than many an analysis, and
    so is a word with a space, which a question can't have.
    """
    own = set(compile_words([word for word in words if not word.startswith(("-D", "-U"))]))
    kept = [word for word in compile_words(words) if not (word.startswith(("-D", "-U")) and word in own or " " in word)]
    return Unit(folder, kept, words)


def nodes_of(units):
    """The tree in which these units are analysed."""
    nodes = Nodes()
    for unit in units:
        for directory in [*directories_of(unit.words), os.path.dirname(unit.words[-1])]:
            path = os.path.join(unit.folder, directory)
            nodes.walk(path, FOLDERS.match if path.startswith("/usr/") else lambda below: True)
        nodes.file(os.path.join(unit.folder, unit.words[-1]))
    return nodes


def measured(trees, label, units, times):
    """Analyses a set of units, and prints its row."""
    nodes = nodes_of(units)
    _, told = timed([trees], text=nodes.case([question("analyse", unit) for unit in units]))
    answers = [line for line in told.splitlines() if line.startswith("> ")]
    for unit, answer in zip(units, answers, strict=True):
        unit.sent = files_of(answer)
    repeats = -(-times // len(units))
    unasked, asking = nodes.case(["path /w"]), nodes.case([question("length", unit) for unit in units] * repeats)
    rounds = [(timed([trees], text=unasked)[0], timed([trees], text=asking)[0]) for _ in range(ROUNDS)]
    base, asked = map(min, zip(*rounds, strict=True))
    gcc = 0
    for unit in units:
        took, listed = min(timed(["gcc", "-M", "-w", *unit.of_gcc], unit.folder) for _ in range(ROUNDS))
        gcc += took
        unit.listed = {os.path.realpath(os.path.join(unit.folder, name)) for name in listed.replace("\\\n", " ").split()[1:]}
    done = [unit for unit in units if isinstance(unit.sent, set)]
    sent, size = sum(len(unit.sent) for unit in done), sum(len(nodes.nodes[path][1]) for unit in done for path in unit.sent)
    listed = sum(len(unit.listed) for unit in done)
    one, of_gcc = (asked - base) / repeats / len(units) * 1e3, gcc / len(units) * 1e3
    refused = ", ".join(f"{count} {why}" for why, count in Counter(unit.sent for unit in units if unit not in done).items()) or "0"
    print(f"| {label} | {len(units)} | {sent / len(done):.0f} | {size / len(done):,.0f} | {sent / listed:.2f} | {refused} | {one:.2f} "
          f"| {one * 1e6 * len(done) / size:.1f} | {of_gcc:.1f} |", flush=True)
    for unit in done:
        for path in sorted(unit.listed - unit.sent):
            print(f"{unit.words[-1]}: {path} isn't sent, and gcc -M lists it", file=sys.stderr)
    return nodes, done, one * OF_BYTES * len(done) / size


def print_goal(labels, of_goal):
    """For how many sets a unit of the goal's size takes no longer than the goal."""
    missed = [f"{label} ({one:.2f} ms)" for label, one in zip(labels, of_goal, strict=True) if one > GOAL]
    print(f"\nFor {OF_BYTES:,} bytes at most {GOAL} ms: met by {len(of_goal) - len(missed)} sets, the slowest with {max(of_goal):.2f} ms"
          + (f"; MISSED by {', '.join(missed)}." if missed else "."))


def reason(nodes, unit, path):
    """The file whose line names another, one that gcc lists where there is one, and the group in which the line stands."""
    directories = [os.path.join(unit.folder, directory) for directory in directories_of(unit.words)]
    for name in sorted(unit.sent, key=lambda name: (name not in unit.listed, name)):
        groups = []
        for line in nodes.nodes[name][1].split(b"\n"):
            found = DIRECTIVE.match(line)
            word, rest = (found[1], found[2].split(b"/*")[0].strip()) if found else (b"", b"")
            if word.startswith(b"if"):
                groups.append(b"#" + word + b" " + rest)
            elif word == b"elif" and groups:
                groups[-1] = b"#elif " + rest
            elif word == b"else" and groups:
                groups[-1] = b"#else of " + groups[-1]
            elif word == b"endif" and groups:
                groups.pop()
            elif word.startswith(b"include"):
                text = rest.strip(b'<>"').decode("latin-1")
                if any(os.path.realpath(os.path.join(place, text)) == path for place in [os.path.dirname(name), *directories]):
                    return name, f"`{groups[-1].decode('latin-1')}`" if groups and name in unit.listed else "is sent beside them itself"
    return "", "a computed include"


def print_beside(sets):
    """The files that are sent beside those that gcc lists, for how many units, and why."""
    beside, why = Counter(), {}
    for nodes, units, _ in sets:
        for unit in units:
            for path in unit.sent - unit.listed:
                beside[path] += 1
                if path not in why:
                    why[path] = reason(nodes, unit, path)
    rows = sorted(beside.items(), key=lambda row: (-row[1], row[0]))
    print(f"\nWhat is sent beside the files that `gcc -M` lists: {len(rows)} files, of which these for most units.\n")
    print("| file | units | named by | in the group |\n|---|---:|---|---|")
    for path, count in rows[:ROWS]:
        name, group = why[path]
        print(f"| {shown(path)} | {count} | {shown(name)} | {group.replace('|', BAR)} |")


def shown(path):
    """A path without the front that all of its kind have."""
    return re.sub(r"^(/usr/include/([^/]*-linux-gnu/)?|/usr/lib/gcc/[^/]*/[^/]*/|.*/(?=uClibc-ng|libiberty/|zlib/|gcc-[0-9]))", "", path)


def main(trees, real="", times="500"):
    with tempfile.TemporaryDirectory() as folder:
        sets = []
        for number, names in enumerate(REAL_HEADERS):
            with open(os.path.join(folder, f"s{number}.c"), "w") as file:
                file.writelines(f"#include <{name}>\n" for name in names)
            more = f" and {len(names) - 1} more" if len(names) > 1 else ""
            sets.append((names[0] + more, [unit_of(os.path.realpath(folder), [f"s{number}.c"])]))
        sets += [(name, [unit_of(*unit) for unit in units]) for name, units in (units_of(real) if real else {}).items()]
        print("The analysis, over a tree in memory with nothing remembered: the mean of a set's units.\n")
        print("| set | units | files sent | bytes | of those that `gcc -M` lists | refused | ms | ns/byte | `gcc -M`, ms |")
        print("|---|---:|---:|---:|---:|---:|---:|---:|---:|")
        measures = [measured(trees, label, units, int(times)) for label, units in sets]
        print_goal([label for label, _ in sets], [of_goal for _, _, of_goal in measures])
        print_beside(measures)


if __name__ == "__main__":
    main(*sys.argv[1:])
