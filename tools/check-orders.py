#!/usr/bin/env python3
"""Runs lists of jobs by clients whose turns come in random orders: check-orders.py PROGRAM RUNS.

PROGRAM is crates/pump_program/out/pump_program. Whatever the order and the number of clients, each job has the same record and the
same text, each is remote, and the totals are such as every run has: a look for each file of each job, each sheet kept once that was
looked for, and nothing looked for in vain. With one client the totals are known.
"""
import os
import random
import re
import subprocess
import sys
import tempfile

import generated

SOURCES = 12
LOOKS = re.compile(r"looks (\d+) hits (\d+) kept (\d+) already (\d+) full (\d+)\n")


def run(program, folder, words):
    """What a run reports, but for its line of looks; what it looked for; and its texts."""
    for name in os.listdir(os.path.join(folder, "out")) if os.path.isdir(os.path.join(folder, "out")) else []:
        os.remove(os.path.join(folder, "out", name))
    with open(os.path.join(folder, "list")) as given:
        done = subprocess.run([program, "order", *words], cwd=folder, stdin=given, capture_output=True, text=True, check=False)
    if done.returncode != 0 or done.stderr:
        sys.exit(f"order {' '.join(words)[:200]}: status {done.returncode}\n{done.stdout}{done.stderr}")
    *records, last = done.stdout.splitlines(keepends=True)
    found = LOOKS.fullmatch(last)
    if not found:
        sys.exit(f"order {' '.join(words)[:200]}: no line of looks\n{done.stdout}")
    texts = {name: open(os.path.join(folder, "out", name), "rb").read() for name in os.listdir(os.path.join(folder, "out"))}
    return "".join(records), [int(number) for number in found.groups()], texts


def main(program, runs):
    program = os.path.abspath(program)
    with tempfile.TemporaryDirectory(prefix="orders") as folder:
        with open(os.path.join(folder, "list"), "w") as file:
            file.write(generated.write(folder, SOURCES))
        records, first, texts = run(program, folder, ["-", "--hosts", "localhost", "-j", "1"])
        alone = generated.totals(SOURCES)
        if not (records + "looks {} hits {} kept {} already {} full {}\n".format(*first)).endswith(alone):
            sys.exit(f"one client: {first}, and not {alone}")
        if len(texts) != SOURCES:
            sys.exit(f"one client: {len(texts)} texts of {SOURCES}")
        chance = random.Random(7)
        for _ in range(runs):
            clients = chance.randint(1, 8)
            order = ",".join(str(chance.randrange(clients)) for _ in range(chance.randint(1, 400)))
            hosts = chance.choice(["localhost", "a/1", "a/1 b/2", "a b c"])
            words = [order, "--hosts", hosts, "-j", str(clients)]
            again, (looks, hits, kept, already, full), others = run(program, folder, words)
            if again != records or others != texts:
                sys.exit(f"order {order} -j {clients}: another outcome\n{again}")
            if looks != first[0] or kept != first[2] or full or looks != hits + kept + already:
                sys.exit(f"order {order} -j {clients}: looks {looks} hits {hits} kept {kept} already {already} full {full}")
    print(f"{runs} orders of {SOURCES} jobs, 0 differ")


if __name__ == "__main__":
    main(sys.argv[1], int(sys.argv[2]))
