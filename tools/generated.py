"""Trees of headers and sources made from a number of sources, as `tree_gen` makes them, below any folder; and what a run over them
must report. As a program it writes one: generated.py FOLDER SOURCES prints the list of its jobs."""
import os
import sys


def header(number):
    include = f'#include "h{number // 2}.h"\n' if number else ""
    macro = f"#define V{number} ({number} + F{number % 3})\nint v{number}(void) {{ return V{number}; }}\n"
    return f"#pragma once\n{include}{macro}"


def source(number):
    own = 4 * number + 3
    return f'#define H <h{own}.h>\n#include H\n#include "h{number}.h"\nint s{number} = V{own};\n'


def write(folder, sources):
    """Writes the files below `folder`, in `h` and `s`, and answers the list of the jobs that compile the sources."""
    for name in ["h", "s"]:
        os.makedirs(os.path.join(folder, name), exist_ok=True)
    for number in range(4 * sources):
        with open(os.path.join(folder, "h", f"h{number}.h"), "w") as file:
            file.write(header(number))
    for number in range(sources):
        with open(os.path.join(folder, "s", f"s{number}.c"), "w") as file:
            file.write(source(number))
    words = "-Ih -DF0=0 -DF1=1 -DF2=2"
    return "".join(f"{folder} s/s{number}.c -o s{number}.i {words}\n" for number in range(sources))


def totals(sources):
    """The last two lines of the report where one client does these jobs, each remote. A source looks for itself, for its own header
    and for each below that, of half the number, down to h0, and for the header of its number once more, since that is found in
    the words' directory and not beside another header: 5 looks, and one for each binary digit of its number."""
    looks = sum(5 + number.bit_length() for number in range(sources))
    kept = 5 * sources - sources // 4 - sources // 2
    return (f"jobs {sources} remote {sources} local 0 broken 0\n"
            f"looks {looks} hits {looks - kept} kept {kept} already 0 full 0\n")


if __name__ == "__main__":
    sys.stdout.write(write(os.path.abspath(sys.argv[1]), int(sys.argv[2])))
