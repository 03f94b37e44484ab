#!/usr/bin/env python3
"""Compares the values of controlling expressions with GCC's: check-conditions.py STDOUT.

STDOUT is what `condition_examples` prints: a line for each expression, with its value or what is wrong with it behind
` => `. The preprocessor of GCC is asked for each: whether it takes `#if EXPRESSION`; if it does, for each bit of the
value, by `#if ((EXPRESSION) >> N) & 1`; and for the type, by `#if 0 * (EXPRESSION) - 1 < 0`, which holds where it is
signed. Where it doesn't take it, its words must be those of a division by zero, or others. Lines below the heading
`// GCC answers otherwise` aren't compared.
"""
import subprocess
import sys

WIDTH = 64
OTHERWISE = "// GCC answers otherwise"


def preprocessed(text):
    """What GCC writes for a text, or None with what it says is wrong."""
    command = ["gcc", "-E", "-P", "-w", "-x", "c", "-"]
    done = subprocess.run(command, input=text, capture_output=True, text=True)
    return (done.stdout if done.returncode == 0 else None), done.stderr


def value_of(expression):
    """What GCC makes of an expression that it takes: its value in decimal, with `u` where it is unsigned."""
    questions = [f"(({expression}) >> {bit}) & 1" for bit in range(WIDTH)] + [f"0 * ({expression}) - 1 < 0"]
    text = "".join(f"#if {question}\n1\n#else\n0\n#endif\n" for question in questions)
    *bits, signed = [int(line) for line in preprocessed(text)[0].split()]
    value = sum(bit << place for place, bit in enumerate(bits))
    if not signed:
        return f"{value}u"
    return str(value - (1 << WIDTH) if bits[-1] else value)


def is_same(expression, printed):
    """Whether GCC takes an expression for what was printed."""
    written, wrong = preprocessed(f"#if {expression}\n#endif\n")
    if written is not None:
        return printed == value_of(expression)
    errors = [line for line in wrong.splitlines() if "error:" in line]
    divides = all("division by zero" in error for error in errors)
    return printed.startswith("!") and divides == (printed == "!ZeroDivisor")


def main():
    tried = differs = 0
    for line in open(sys.argv[1], encoding="utf-8"):
        if line.startswith(OTHERWISE):
            break
        expression, arrow, printed = line.rstrip("\n").rpartition(" => ")
        if not arrow:
            continue
        tried += 1
        if not is_same(expression, printed):
            differs += 1
            print(f"differs: {expression} => {printed}")
    print(f"{tried} expressions compared with GCC, {differs} differ")
    sys.exit(1 if differs or not tried else 0)


main()
