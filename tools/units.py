#!/usr/bin/env python3
"""Real units as requests to the daemon and as jobs, and a check of what comes of them: units.py PUMPD PUMP_PROGRAM REAL

REAL is the folder that tools/real_text.py made: REAL/units.json has units of real code, each a folder and the words with which gcc
preprocesses it. PUMPD, as it was built, gets a request with the files that `gcc -M` lists of a unit, and PUMP_PROGRAM a list with
all units, which eight clients do. The texts are to have the tokens of `gcc -E`. The last lines say of how many units they have them.

Status: 0 they have them of all units; 1 of some they don't, and a line names each; 2 there are no units.
"""
import json
import os
import re
import subprocess
import sys
import tempfile

from bodies import field, token, tokens_of

# The options whose words make a difference to a compiler's own macros, those that name a directory, and others with an operand.
OF_COMPILER = re.compile(r"-(std=|O|f|m|ansi)")
DIRECTORY = re.compile(r"(-I|-iquote|-isystem|-idirafter)(.*)")
OTHERS = re.compile(r"(-D|-U|-include)(.*)")


def compiler_words(*options):
    """The words for what gcc defines by itself with these options, and where it searches, as a list has them or, with `--lines`, one on a line."""
    script = os.path.join(os.path.dirname(os.path.abspath(__file__)), "compiler-words")
    command = [sys.executable, "-B", script, *options, "gcc"]
    return subprocess.run(command, capture_output=True, text=True, check=True).stdout.strip()


def compile_words(words):
    """The words of a job for those of gcc: the compiler's own macros in front, and the directories that it searches behind."""
    own = compiler_words("--lines", *[word for word in words if OF_COMPILER.match(word)]).split("\n")
    front = own.index("-isystem") if "-isystem" in own else len(own)
    behind = [] if "-nostdinc" in words else own[front:]
    taken, kept = iter(words), []
    for word in taken:
        found = DIRECTORY.fullmatch(word) or OTHERS.fullmatch(word)
        if found:
            kept += [word] if found[2] else [word, next(taken)]
    return [*own[:front], *kept, *behind, words[-1]]


def directories_of(words):
    """The directories that compile words name."""
    taken = iter(words)
    for word in taken:
        found = DIRECTORY.fullmatch(word)
        if found:
            yield found[2] or next(taken)


def note(nodes, path):
    """Notes each node that is walked on the way from the root to what a path leads to."""
    here, names = b"", path.split(b"/")
    while names:
        name = names.pop(0)
        if name == b"..":
            here = os.path.dirname(here).rstrip(b"/")
        elif name not in (b"", b"."):
            node = here + b"/" + name
            if os.path.islink(node):
                target = os.readlink(node)
                nodes[node] = field(b"LINK", target)
                names = target.split(b"/") + names
                here = b"" if target.startswith(b"/") else here
            elif os.path.isdir(node):
                nodes[node], here = token(b"MDIR", 0), node
            elif os.path.isfile(node):
                with open(node, "rb") as file:
                    nodes[node] = field(b"FILE", file.read())
                return
            else:
                return


def request(folder, words):
    """The request of a unit, with the files that `gcc -M` lists and all nodes on the way to them and to what is searched."""
    listed = subprocess.run(["gcc", "-M", "-w", *words], cwd=folder, capture_output=True, text=True, check=True).stdout
    job, nodes = compile_words(words), {}
    for name in [folder, *listed.replace("\\\n", " ").split()[1:], *directories_of(job)]:
        note(nodes, os.fsencode(os.path.join(folder, name)))
    head = token(b"DIST", 0x103) + field(b"CDIR", os.fsencode(folder)) + token(b"ARGC", len(job))
    entries = b"".join(field(b"NAME", path) + nodes[path] for path in sorted(nodes))
    return head + b"".join(field(b"ARGV", os.fsencode(word)) for word in job) + token(b"NFIL", len(nodes)) + entries


def list_line(folder, words):
    """The line of a compile list with a job of these words."""
    return " ".join(re.sub(r"[ \t\\]|^#", r"\\\g<0>", word) for word in [folder, *words]) + "\n"


def units_of(real):
    """The units of each set, where they were made."""
    path = os.path.join(real, "units.json")
    if not os.path.exists(path):
        return {}
    with open(path) as file:
        return json.load(file)


def served(pumpd, units):
    """The text that the daemon gives each unit."""
    for folder, words in units:
        reply = subprocess.run([pumpd, "--inetd"], input=request(folder, words), capture_output=True, check=False).stdout
        yield reply.partition(b"DOTI")[2][8:]


def done(program, units):
    """The text of each unit as a job of one list."""
    lines = [list_line(folder, [*compile_words(words), "-o", f"{number}.i"]) for number, (folder, words) in enumerate(units)]
    with tempfile.TemporaryDirectory() as place:
        command = [program, "order", "-", "--hosts", "localhost", "-j", "8"]
        subprocess.run(command, input="".join(lines).encode(), cwd=place, stdout=subprocess.DEVNULL, check=False)
        for number in range(len(units)):
            path = os.path.join(place, "out", f"{number}.i")
            if not os.path.exists(path):
                yield b""
                continue
            with open(path, "rb") as file:
                yield file.read()


def main(pumpd, program, real):
    units = [unit for units in units_of(real).values() for unit in units]
    if not units:
        print(f"{real} has no units: see tools/real_text.py", file=sys.stderr)
        return 2
    wanted = [tokens_of(subprocess.run(["gcc", "-E", "-w", *words], cwd=folder, capture_output=True, check=True).stdout) for folder, words in units]
    status = 0
    for way, texts in [("requests", served(pumpd, units)), ("whole jobs", done(program, units))]:
        differ = [words[-1] for (_, words), tokens, text in zip(units, wanted, texts, strict=True) if tokens_of(text) != tokens]
        for source in differ:
            print(f"{source} has other tokens than gcc gives it")
        print(f"{len(units) - len(differ)} of {len(units)} units have the tokens of gcc as {way}")
        status = status or (1 if differ else 0)
    return status


if __name__ == "__main__":
    sys.exit(main(*map(os.path.abspath, sys.argv[1:])))
