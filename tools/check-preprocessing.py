#!/usr/bin/env python3
"""Compares the preprocessing of the host's headers with GCC's: check-preprocessing.py PROGRAM [COUNT].

PROGRAM is `pump_program` as it was built. For each header below /usr/include, or for COUNT of them spread evenly, a source of
one line includes it. The program and `gcc -E -undef -nostdinc` get the same words: the macros that GCC has by itself, as -D,
and its directories, as -isystem. Where GCC takes the source, the program's text must have the same tokens and pragmas as GCC's,
or the program answers with a diagnostic, each of which is counted by its words. Texts that differ are named with their first
difference, and the status is then 1.

What docs/COMPATIBILITY.md says of differences doesn't count: GCC is told not to have `__has_attribute` and its like, `_Pragma`
is taken for the pragma that GCC makes of it, and `#pragma GCC system_header` is passed over, which GCC obeys and doesn't write.
Nor does what stands behind an unpaired `'` on its line, which is undefined (ISO C 6.4 paragraph 3): C++ has such in numbers.
"""
import collections
import os
import re
import subprocess
import sys
import tempfile

TOKEN = re.compile(
    r"""(?:[uUL]|u8)?"(?:\\.|[^"\\\n])*" | [uUL]?'(?:\\.|[^'\\\n])*' | \.?[0-9](?:[eEpP][+-]|[A-Za-z0-9_.])*
    | [A-Za-z_$\x80-\xff][A-Za-z0-9_$\x80-\xff]* | \.\.\. | <<= | >>= | -> | \+\+ | -- | << | >> | <= | >= | == | != | && | \|\|
    | [-+*/%&^|]= | \#\# | [^\s]""",
    re.VERBOSE | re.DOTALL,
)
MARKER = re.compile(r'# [0-9]+ "')
OBEYED = ["#", "pragma", "GCC", "system_header"]
LACKING = ["-U__has_attribute", "-U__has_cpp_attribute", "-U__has_c_attribute", "-U__has_builtin"]


def output_of(command, text=""):
    return subprocess.run(command, input=text, capture_output=True, encoding="latin-1")


def macro_words():
    """The macros that GCC has by itself, but those that every translation has, as words."""
    words = []
    for line in output_of(["gcc", "-dM", "-E", "-x", "c", "-"]).stdout.splitlines():
        name, _, value = line[len("#define ") :].partition(" ")
        if not name.startswith("__STDC"):
            words.append(f"-D{name}={value}")
    return words


def directory_words():
    """The directories that GCC searches, as words."""
    told = output_of(["gcc", "-v", "-E", "-x", "c", "-"]).stderr
    listed = told.partition("#include <...> search starts here:")[2].partition("End of search list.")[0]
    return [word for directory in listed.split() for word in ("-isystem", os.path.realpath(directory))]


def tokens_of(text):
    """The tokens of a preprocessed text; a pragma is one."""
    tokens = []
    for line in text.splitlines():
        if MARKER.match(line):
            continue
        found = TOKEN.findall(line)
        if "'" in found:
            found = found[: found.index("'")]
        if found == OBEYED:
            continue
        tokens += [" ".join(found)] if line.lstrip().startswith("#pragma") else pragmas_in(found)
    return tokens


def pragmas_in(tokens):
    """The tokens of a line, with each `_Pragma` operator as the pragma that it stands for (ISO C 6.10.9)."""
    made = []
    while "_Pragma" in tokens:
        match tokens:
            case ["_Pragma", "(", literal, ")", *rest] if literal.startswith('"'):
                words = literal[1:-1].replace('\\"', '"').replace("\\\\", "\\")
                made.append(" ".join(["#", "pragma", *TOKEN.findall(words)]))
                tokens = rest
            case [first, *rest]:
                made.append(first)
                tokens = rest
    return made + tokens


def list_word(word):
    """A word as a compile list has it."""
    return "".join("\\" + char if char in " \\\t\n#" else char for char in word)


def ours(program, folder, words, ways):
    """The program's text of the source in a folder, or its diagnostic behind `!`; `ways` counts where jobs were done."""
    line = " ".join(list_word(word) for word in [folder, *words, "unit.c"])
    done = subprocess.run([program, "order", "-", "--hosts", "localhost", "-j", "1"],
                          input=line.encode("latin-1") + b"\n", capture_output=True, cwd=folder)
    report = done.stdout.decode("latin-1")
    ways[re.sub(r"^job 0 (text \d+|\S+) ", "", report.split("\n")[0])] += 1
    if " text " not in report.splitlines()[0]:
        return "!" + " ".join(report.split("\n")[0:2]) + done.stderr.decode("latin-1")
    with open(os.path.join(folder, "out", "unit.i"), encoding="latin-1") as file:
        return file.read()


def first_difference(left, right):
    for place, (one, other) in enumerate(zip(left, right)):
        if one != other:
            return f"token {place}: {one!r} and not {other!r} behind {' '.join(right[max(0, place - 5):place])}"
    return f"{len(left)} tokens and not {len(right)}"


def headers():
    found = []
    for folder, _, names in os.walk("/usr/include"):
        found += [os.path.relpath(os.path.join(folder, name), "/usr/include") for name in names if name.endswith(".h")]
    return sorted(found)


def main():
    program = os.path.abspath(sys.argv[1])
    chosen = headers()
    if len(sys.argv) > 2:
        step = max(1, len(chosen) // int(sys.argv[2]))
        chosen = chosen[::step]
    words = macro_words() + directory_words()
    same = refused = differs = 0
    diagnostics, ways = collections.Counter(), collections.Counter()
    with tempfile.TemporaryDirectory() as folder:
        for header in chosen:
            with open(os.path.join(folder, "unit.c"), "w", encoding="latin-1") as file:
                file.write(f"#include <{header}>\n")
            gcc = output_of(["gcc", "-E", "-undef", "-nostdinc", *words, *LACKING, os.path.join(folder, "unit.c")])
            if gcc.returncode != 0:
                refused += 1
                continue
            text = ours(program, folder, words, ways)
            if text.startswith("!"):
                diagnostics[re.sub(r".*: error: ", "", text)[:60]] += 1
                continue
            one, other = tokens_of(text), tokens_of(gcc.stdout)
            if one == other:
                same += 1
            else:
                differs += 1
                print(f"{header}: {first_difference(one, other)}")
    print(f"{len(chosen)} headers: {same} with the tokens of gcc, {differs} with others, {refused} that gcc refuses, "
          f"{sum(diagnostics.values())} with a diagnostic")
    print("    done " + ", ".join(f"{way}: {count}" for way, count in ways.most_common()))
    for told, count in diagnostics.most_common(12):
        print(f"    {count} {told}")
    sys.exit(1 if differs else 0)


main()
