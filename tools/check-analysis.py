#!/usr/bin/env python3
"""Compares the analysis of jobs over random trees with a model of its own: check-analysis.py TREES TEXTS [COUNT [SEED]].

TREES and TEXTS are `tree_examples` and `job_texts` as they were built. Each of COUNT random jobs (300) is one source with
headers in its own directory and in two directories of the words; lines define and undefine macros, include by names and by
macros, ask by `__has_include`, and stand in conditionals. For each the model says which files a job may visit: the least
list that has the source and with each file the headers that its includes name, whatever its conditionals say, where each
macro has any of the definitions of all these files, or none. Then
- the request has just the entries of these files, and of those that operands of `__has_include` name, or a refusal that
  the model has too;
- preprocessing over these entries gives the text, or the diagnostic, that preprocessing over the whole tree gives;
- without the entry of a file whose marker stands in the text there is another text, or the entries make no tree.
What differs is shown, and the status is then 1.
"""
import itertools
import random
import re
import subprocess
import sys

DIRECTORIES = ["/w", "/w/a", "/w/b"]
NAMES = ["u.h", "x.h", "y.h", "z.h"]
MACROS = ["A", "B", "H", "K"]
CHAIN = ["/w/a", "/w/b"]
BUDGET = 4096
TOKEN = re.compile(r'"[^"]*"|\w+|\S')


# ---- random trees ----


def name_of_header(draw):
    name = draw.choice(NAMES)
    return f'"{name}"' if draw.random() < 0.6 else f"<{name}>"


def body_of_macro(draw):
    kind = draw.random()
    if kind < 0.5:
        return name_of_header(draw)
    return draw.choice(MACROS) if kind < 0.8 else draw.choice(["1", "", "<K>"])


def line_of(draw):
    kind = draw.random()
    if kind < 0.35:
        return f"#define {draw.choice(MACROS)} {body_of_macro(draw)}"
    if kind < 0.42:
        return f"#undef {draw.choice(MACROS)}"
    target = draw.choice(MACROS) if draw.random() < 0.5 else name_of_header(draw)
    if kind < 0.75:
        return f"#include {target}"
    if kind < 0.82:
        return f"#include_next {target}"
    return f"int t{draw.randrange(1000)};"


def condition_of(draw):
    kind = draw.random()
    if kind < 0.5:
        return f"{draw.choice(['#ifdef', '#ifndef'])} {draw.choice(MACROS)}"
    target = draw.choice(MACROS) if draw.random() < 0.5 else name_of_header(draw)
    return f"#if __has_include({target})" if kind < 0.9 else "#if 0"


def lines_of(draw, most):
    lines = []
    for _ in range(draw.randrange(most + 1)):
        if draw.random() < 0.25 and most > 1:
            lines += [condition_of(draw), *lines_of(draw, most // 2), f"int c{draw.randrange(1000)};"]
            if draw.random() < 0.4:
                lines += ["#else", *lines_of(draw, most // 2), f"int e{draw.randrange(1000)};"]
            lines.append("#endif")
        else:
            lines.append(line_of(draw))
    return lines


def tree_of(draw):
    macros = [f"#define {name} {name_of_header(draw)}" for name in MACROS[:3] if draw.random() < 0.8]
    files = {"/w/a.c": [*macros, f"#include {name_of_header(draw)}", *lines_of(draw, 10), "int end;"]}
    for directory in DIRECTORIES:
        for name in NAMES:
            if draw.random() < 0.8:
                once = [] if draw.random() < 0.05 else ["#pragma once"]
                line = ["#line 7"] if draw.random() < 0.02 else []
                files[f"{directory}/{name}"] = once + line + lines_of(draw, 4) + [f"int h{draw.randrange(1000)};"]
    return files


# ---- the model ----


class TooMany(Exception):
    """More choices than the budget."""


def choices_of(sets, tokens, hidden):
    """All lists of tokens that some choice of definitions makes of these, each name by itself; macros have no parameters here."""
    if not tokens:
        yield []
        return
    token, hide = tokens[0], hidden[0]
    ways = [None]
    if re.match(r"[A-Za-z_]", token) and token not in hide:
        ways += sets.get(token, [])
    for way in ways:
        if way is None:
            for rest in choices_of(sets, tokens[1:], hidden[1:]):
                yield [token, *rest]
        else:
            body = TOKEN.findall(way)
            yield from choices_of(sets, body + tokens[1:], [hide | {token}] * len(body) + hidden[1:])


def header_of(tokens):
    """What a first string holds, or what stands between a first `<` and the next `>`; or none."""
    if tokens and tokens[0].startswith('"'):
        return ("quote", tokens[0][1:-1])
    if tokens and tokens[0] == "<" and ">" in tokens:
        name = "".join(tokens[1 : tokens.index(">")])
        return ("angle", name) if name else None
    return None


def written(target):
    """The name that is written, or None."""
    if target.startswith('"'):
        return ("quote", target[1:-1])
    return ("angle", target[1:-1]) if target.startswith("<") else None


class Model:
    def __init__(self, files):
        self.files = files

    def find(self, visit, is_next, header):
        """The visit of the first file there, by the directory where it was found."""
        place, found = visit
        form, name = header
        chain = list(enumerate(CHAIN))
        beside = [("here", place.rsplit("/", 1)[0])]
        first = beside + chain if form == "quote" else chain
        if is_next and found == "here":
            first = chain
        elif is_next and isinstance(found, int):
            first = chain[found + 1 :]
        for how, directory in first:
            if f"{directory}/{name}" in self.files:
                return (f"{directory}/{name}", how)
        return None

    def asked(self, place):
        """The targets of a file's lines, with `include`, `next` or `probe`."""
        for line in self.files[place]:
            match = re.match(r"#(include_next|include) (.*)", line) or re.match(r"#if __has_(include)\((.*)\)", line)
            if match:
                kind = "probe" if line.startswith("#if") else {"include": "include", "include_next": "next"}[match[1]]
                yield kind, match[2]

    def definitions(self, visits):
        sets = {"K": ["<u.h>"]}
        for place, _ in visits:
            for line in self.files[place]:
                match = re.match(r"#define (\w+) (.*)", line)
                if match:
                    bodies = sets.setdefault(match[1], [])
                    if match[2] not in bodies:
                        bodies.append(match[2])
        return sets

    def may_name(self, sets, target):
        tokens = TOKEN.findall(target)
        found = list(itertools.islice(choices_of(sets, tokens, [frozenset()] * len(tokens)), BUDGET + 1))
        if len(found) > BUDGET:
            raise TooMany
        return {header for header in map(header_of, found) if header}

    def files_of(self):
        """The places of the files that searches find, at the least closed list of visits."""
        visits, probed = [("/w/a.c", "source")], set()
        while True:
            sets, before = self.definitions(visits), (len(visits), len(probed))
            for visit in list(visits):
                for kind, target in self.asked(visit[0]):
                    header = written(target)
                    for name in [header] if header else self.may_name(sets, target):
                        hit = self.find(visit, kind == "next", name)
                        if hit and kind == "probe":
                            probed.add(hit[0])
                        elif hit and hit not in visits:
                            visits.append(hit)
            if (len(visits), len(probed)) == before:
                return {place for place, _ in visits} | probed


def entries_of(files, places):
    """The entries of these files, with the directories above them."""
    entries = {place: "\n".join(files[place]) + "\n" for place in places}
    for place in places:
        for end in range(1, len(place)):
            if place[end] == "/":
                entries[place[:end]] = None
    return entries


# ---- the programs ----

WORDS = "a.c -Ia -Ib -DK=<u.h>"


def case_of(entries, question):
    lines = []
    for path in sorted(entries, key=str.encode):
        if entries[path] is None:
            lines.append(f"dir {path}")
        else:
            lines.append(f"file {path}")
            lines += [f"| {line}" for line in entries[path].splitlines()]
    return "\n".join(lines + [question]) + "\n\n"


def answers_of(program, cases):
    """What a program answers to each case: its lines that begin with `>`."""
    done = subprocess.run([program], input="".join(cases), capture_output=True, encoding="latin-1")
    if done.returncode:
        sys.exit(f"{program}: status {done.returncode}: {done.stderr}")
    answers = [[line for line in case.splitlines() if line.startswith(">")] for case in done.stdout.split("\n\n")]
    return ["\n".join(lines) for lines in answers][: len(cases)]


def entries_sent(answer):
    """The entries of a request, as the program shows it; or the word of a refusal."""
    match = re.match(r"> request (.*)", answer)
    if not match:
        return answer
    request = match[1].replace("\\n", "\n").replace("\\\\", "\\")
    rest, entries = request[request.index("NFIL") + 12 :], {}
    while rest:
        length = int(rest[4:12], 16)
        name, rest = rest[12 : 12 + length], rest[12 + length :]
        word, length = rest[:4], int(rest[4:12], 16)
        entries[name] = None if word == "MDIR" else rest[12 : 12 + length]
        rest = rest[12 + length :]
    return entries


def marked(text, entries):
    return [path for path in entries if f'>| # 1 "{path}" 1\n' in text + "\n"]


def main(trees, texts, count=300, seed=1):
    draw = random.Random(int(seed))
    jobs = [tree_of(draw) for _ in range(int(count))]
    wholes = [entries_of(files, files) for files in jobs]
    sent = list(map(entries_sent, answers_of(trees, [case_of(entries, f"analyse /w {WORDS}") for entries in wholes])))
    over_whole = answers_of(texts, [case_of(entries, f"job /w {WORDS}") for entries in wholes])
    faults, done, refused, cut = [], [], 0, []
    for number, (files, entries) in enumerate(zip(jobs, sent)):
        try:
            wanted = entries_of(files, Model(files).files_of())
        except TooMany:
            wanted = "> refused Budget"
        if entries == "> refused Presumed" and any("__" in line for lines in files.values() for line in lines):
            refused += 1
        elif entries != wanted:
            faults.append((number, "entries", entries, wanted))
        elif isinstance(entries, str):
            refused += 1
        else:
            done.append(number)
    over_sent = answers_of(texts, [case_of(sent[number], f"job /w {WORDS}") for number in done])
    for number, text in zip(done, over_sent):
        if text != over_whole[number]:
            faults.append((number, "text", text, over_whole[number]))
        for path in marked(text, sent[number]):
            cut.append((number, path, {other: body for other, body in sent[number].items() if other != path}))
    for (number, path, _), text in zip(cut, answers_of(texts, [case_of(entries, f"job /w {WORDS}") for _, _, entries in cut])):
        if text == over_whole[number]:
            faults.append((number, f"the same without {path}", text, None))
    for number, what, found, wanted in faults[:5]:
        print(f"job {number}: {what}\n{case_of(wholes[number], 'analyse /w ' + WORDS)}found: {found}\nwanted: {wanted}\n")
    print(f"{len(jobs)} jobs: {len(done)} sent, {refused} refused, {len(cut)} entries left out; {len(faults)} differ")
    return 1 if faults else 0


if __name__ == "__main__":
    sys.exit(main(*sys.argv[1:]))
