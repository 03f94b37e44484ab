#!/usr/bin/env python3
"""Runs the C compiles of a compile_commands.json through a wrapper: compile-commands.py FILE WRAPPER [JOBS].

Each entry whose file ends with .c is run in its directory, as WRAPPER and the entry's words, its compiler among them; JOBS, or as
many as there are processors, at once. What an entry's command writes to standard error stands behind its file's name. The status
is 1 where one of them fails, and 2 where FILE can't be read.
"""
import concurrent.futures
import json
import os
import shlex
import subprocess
import sys


def entries_of(path):
    """The C entries of a file: a directory, the words of the command, and the file."""
    with open(path, encoding="utf-8", errors="surrogateescape") as file:
        found = json.load(file)
    here = os.path.dirname(os.path.abspath(path))
    return [(os.path.join(here, entry.get("directory", ".")), entry.get("arguments") or shlex.split(entry["command"]), entry["file"])
            for entry in found if entry["file"].endswith(".c")]


def run(wrapper, entry):
    """Runs an entry. Whether it succeeded."""
    directory, words, name = entry
    done = subprocess.run([wrapper, *words], cwd=directory, stdin=subprocess.DEVNULL, stderr=subprocess.PIPE, check=False)
    if done.stderr or done.returncode != 0:
        end = f" ends with {done.returncode}" if done.returncode != 0 else ""
        print(f"{name}:{end}\n{done.stderr.decode(errors='replace')}", end="", file=sys.stderr, flush=True)
    return done.returncode == 0


def main():
    path, wrapper = sys.argv[1], os.path.abspath(sys.argv[2])
    jobs = int(sys.argv[3]) if len(sys.argv) > 3 else os.cpu_count()
    try:
        entries = entries_of(path)
    except (OSError, ValueError, KeyError, TypeError, AttributeError) as error:
        print(f"{path}: {type(error).__name__}: {error}", file=sys.stderr)
        return 2
    with concurrent.futures.ThreadPoolExecutor(jobs) as pool:
        return 0 if all(list(pool.map(lambda entry: run(wrapper, entry), entries))) else 1


if __name__ == "__main__":
    sys.exit(main())
