#!/usr/bin/env python3
"""Compares walks with the host's own: check-walks.py BENCH_PROGRAM.

Each round makes a tree of directories, files and links below a new folder, and asks for the files that random texts
reach from its directories, once by opening them and once by `bench_program tree locate`. The folder's own path is part of
the tree, so that links from the root and `..` above the folder go the same way.
"""
import os
import random
import subprocess
import sys
import tempfile

ROUNDS = 40
QUESTIONS = 200
NAMES = ["a", "b", "c", "d.h", "e"]


def all_paths(folder):
    """The paths of the folder and of those above it but the root, from the outside in."""
    parts = folder.strip("/").split("/")
    return ["/" + "/".join(parts[: k + 1]) for k in range(len(parts))]


def random_text(rng, folder):
    """Components with slashes between, some empty, some that lead up, some at the folder's own path."""
    start = rng.choice(["", "", "", "./", "../", folder + "/", folder + "//", "/"])
    parts = [rng.choice(NAMES + ["..", ".", ""]) for _ in range(rng.randint(1, 5))]
    return start + "/".join(parts) + rng.choice(["", "", "", "", "/"])


def make_tree(rng, folder):
    """Makes a random tree, and gives its lines and its directories. Links may lead anywhere, also to themselves."""
    lines, directories, pending = [], [folder], [folder]
    while pending:
        place = pending.pop()
        for name in NAMES:
            path = place + "/" + name
            kind = rng.random()
            if kind < 0.25 and path.count("/") < folder.count("/") + 4:
                os.mkdir(path)
                directories.append(path)
                pending.append(path)
                lines.append(("d", path))
            elif kind < 0.5:
                open(path, "w").close()
                lines.append(("f", path))
            elif kind < 0.85:
                text = random_text(rng, folder)
                if text and text != "/":
                    os.symlink(text, path)
                    lines.append(("l", path, text))
    return lines, directories


def make_chain(folder, links):
    """So many links, each of which leads to the next, and the last to a file."""
    lines = []
    for number in range(links):
        text = f"k{number + 1}" if number + 1 < links else "end"
        os.symlink(text, f"{folder}/k{number}")
        lines.append(("l", f"{folder}/k{number}", text))
    open(folder + "/end", "w").close()
    return lines + [("f", folder + "/end")]


def on_host(directory, text):
    """The real path of the regular file that opening the text from the directory gives, or `-`."""
    if not text:
        return "-"
    at = os.open(directory, os.O_RDONLY | os.O_DIRECTORY)
    try:
        found = os.open(text, os.O_RDONLY | os.O_NONBLOCK, dir_fd=at)
    except OSError:
        return "-"
    finally:
        os.close(at)
    try:
        real = os.readlink(f"/proc/self/fd/{found}")
        return real if os.path.isfile(real) else "-"
    finally:
        os.close(found)


def within(answer, folder):
    """An answer outside the folder is about files that the lines don't have."""
    return answer == "-" or answer.startswith(folder + "/")


def compare(program, folder, lines, questions):
    """How many answers differ."""
    known = [("d", path) for path in all_paths(folder)]
    nodes = sorted(known + lines, key=lambda line: line[1].encode())
    asked = [question for question in questions if within(on_host(*question), folder)]
    described = ["\t".join(line) for line in nodes] + ["\t".join(("?",) + question) for question in asked]
    with tempfile.NamedTemporaryFile("w", suffix=".tree") as file:
        file.write("\n".join(described) + "\n")
        file.flush()
        printed = subprocess.run([program, "tree", "locate", file.name], stdout=subprocess.PIPE, check=True).stdout
    answers = printed.decode().splitlines()
    assert len(answers) == len(asked), f"{len(asked)} questions, {len(answers)} answers"
    wrong = 0
    for question, answer in zip(asked, answers):
        wanted = on_host(*question)
        if answer != wanted:
            wrong += 1
            print(f"{question[1]!r} from {question[0]}: the host says {wanted}, the program {answer}")
    return len(asked), wrong


def main(program):
    asked = wrong = 0
    for seed in range(ROUNDS):
        rng = random.Random(seed)
        with tempfile.TemporaryDirectory() as made:
            folder = os.path.realpath(made)
            lines, directories = make_tree(rng, folder)
            questions = [(rng.choice(directories), random_text(rng, folder)) for _ in range(QUESTIONS)]
            count, bad = compare(program, folder, lines, questions)
            asked, wrong = asked + count, wrong + bad
    for links in (39, 40, 41):
        with tempfile.TemporaryDirectory() as made:
            folder = os.path.realpath(made)
            count, bad = compare(program, folder, make_chain(folder, links), [(folder, "k0"), (folder, "./k0")])
            asked, wrong = asked + count, wrong + bad
    print(f"{asked - wrong} of {asked} texts locate what they locate on the host")
    return 1 if wrong else 0


if __name__ == "__main__":
    sys.exit(main(sys.argv[1]))
