#!/usr/bin/env python3
"""Makes real C text without conditionals and includes, and lists the units it is of: real_text.py OUT SOURCES

OUT/SET/NNN.c is what `gcc -E -fdirectives-only` makes of a unit of the set: its conditionals and includes are done,
each #define and #undef is kept, and no macro is expanded. So every preprocessor does the same work on it, also one that
knows no conditionals. A unit is left out where gcc gives the new file other tokens than the unit, as where a line's
number is in it. OUT/units.json lists the units by their sets, each with the folder in which gcc is run, and the words with which it
preprocesses the unit itself.

The sources come from Debian's packages, which are unpacked to the folder SOURCES and stay there. It has links, so it belongs outside
of a repository whose gate takes none. Where the sources can't be had, or no text is made, a line on standard error says why, and the status
is 1. A folder OUT with its list is left alone while the sources are there.
"""
import glob
import json
import os
import re
import shlex
import shutil
import subprocess
import sys
from dataclasses import dataclass, field

from bodies import tokens_of

# What a library's configure needs of gcc's sources besides the library.
GCC_PARTS = ["include", "config", "config*", "install-sh", "mkinstalldirs", "move-if-change", "missing", "depcomp",
             "ltmain.sh", "multilib*", "symlink-tree", "libtool*"]
# The options that are kept with their words behind them, and the fronts of those that are kept alone.
PAIRS = ("-I", "-D", "-U", "-include", "-iquote", "-isystem", "-idirafter")
ALONE = ("-I", "-D", "-U", "-f", "-m", "-O", "-std=", "-nostdinc", "-iquote", "-isystem")
# Macros that gcc defines whatever it is told.
FIXED = re.compile(rb"#define __STDC(_VERSION_|_HOSTED_|_UTF_16_|_UTF_32_)?_ ")
MARKER = re.compile(rb"# \d")


class Missing(Exception):
    """Why the text can't be made."""


def run(command, cwd):
    """Runs a command, and answers its standard output."""
    done = subprocess.run(command, cwd=cwd, stdin=subprocess.DEVNULL, capture_output=True, check=False)
    if done.returncode != 0:
        said = done.stderr.decode(errors="replace").strip().splitlines()
        raise Missing(f"{' '.join(command[:3])} failed: {said[-1] if said else ''}")
    return done.stdout


@dataclass
class Package:
    """A Debian package of sources, and what at the top of the archive in it is wanted."""

    name: str
    archive: str
    parts: list = field(default_factory=list)

    def unpack(self, place):
        """The folder of its sources, below this place."""
        folder = os.path.join(place, self.name)
        os.makedirs(folder)
        run(["apt-get", "download", self.name], folder)
        [package] = glob.glob(f"{folder}/*.deb")
        run(["dpkg-deb", "-x", package, folder], folder)
        archives = glob.glob(os.path.join(folder, self.archive))
        if not archives:
            raise Missing(f"{self.name} has no {self.archive}")
        tops = [f"*/{part}" for part in self.parts]
        run(["tar", "-xf", archives[0], "--wildcards", "--no-wildcards-match-slash", *tops], folder)
        return next(entry.path for entry in os.scandir(folder) if entry.is_dir() and entry.name != "usr")


def gcc_sources():
    version = run(["gcc", "-dumpversion"], ".").decode().split(".")[0].strip()
    parts = ["libiberty", "zlib", *GCC_PARTS]
    return Package(f"gcc-{version}-source", f"usr/src/gcc-{version}/gcc-*.tar.xz", parts)


def configured(sources, library):
    """A folder in which a library of gcc's sources is configured."""
    folder = os.path.join(os.path.dirname(sources), f"build-{library}")
    os.makedirs(folder)
    run([os.path.join(sources, library, "configure")], folder)
    return folder


def configured_uclibc(sources):
    headers = os.path.join(os.path.dirname(sources), "kernel")
    os.makedirs(headers)
    multiarch = run(["gcc", "-print-multiarch"], ".").decode().strip()
    for name, target in [("linux", "linux"), ("asm-generic", "asm-generic"), ("asm", f"{multiarch}/asm")]:
        os.symlink(f"/usr/include/{target}", os.path.join(headers, name))
    run(["make", "ARCH=x86_64", "defconfig"], sources)
    config = os.path.join(sources, ".config")
    with open(config) as file:
        text = re.sub(r"^KERNEL_HEADERS=.*", f'KERNEL_HEADERS="{headers}"', file.read(), flags=re.M)
    with open(config, "w") as file:
        file.write(text)
    run(["make", "ARCH=x86_64", "headers"], sources)
    return sources


def unit_of(command):
    """The words of a compile command that preprocessing needs and its source, or None where it compiles no C file."""
    words = shlex.split(command)
    if not words or os.path.basename(words[0]) != "gcc" or "-c" not in words:
        return None
    kept, sources, rest = [], [], iter(words[1:])
    for word in rest:
        if word in PAIRS:
            kept += [word, next(rest)]
        elif word in ("-o", "-MT", "-MF", "-MQ"):
            next(rest)
        elif word.startswith(ALONE):
            kept.append(word)
        elif word.endswith(".c"):
            sources.append(word)
    return (kept, sources[0]) if len(sources) == 1 else None


def units_of(folder, words):
    """The units that `make` would compile in a folder, each source once."""
    command = ["make", "-n", *words]
    made = subprocess.run(command, cwd=folder, stdin=subprocess.DEVNULL, capture_output=True, check=False)
    text = made.stdout.decode(errors="replace").replace("\\\n", " ")
    text = re.sub(r"`test -f '[^']*' \|\| echo '([^']*)'`", r"\1", text)
    units = {}
    for command in re.split(r"\s*(?:;|&&|\n)\s*", text):
        try:
            unit = unit_of(command)
        except (ValueError, StopIteration):
            continue  # a part of a quoted text
        if unit is not None:
            units.setdefault(unit[1], unit[0])
    return [[*words, source] for source, words in units.items()]


def text_of(folder, words, path, place):
    """Writes the text of a unit, without the place in which it was made. Whether gcc reads the same tokens in it."""
    try:
        text = run(["gcc", "-E", "-w", "-fdirectives-only", *words], folder)
        wanted = run(["gcc", "-E", "-w", *words], folder)
    except Missing:
        return False  # a unit of another machine
    lines = [line for line in text.split(b"\n") if not MARKER.match(line) and not FIXED.match(line)]
    with open(path, "wb") as file:
        file.write(b"\n".join(lines).replace(os.fsencode(place), b"/place"))
    given = subprocess.run(["gcc", "-E", "-w", "-undef", "-nostdinc", path], capture_output=True, check=False)
    return given.returncode == 0 and tokens_of(given.stdout) == tokens_of(wanted)


def make_set(out, name, units, place):
    """The texts of units, and the units that have one."""
    folder = os.path.join(out, name)
    os.makedirs(folder)
    kept = []
    for number, (build, words) in enumerate(units):
        path = os.path.join(folder, f"{number:03}.c")
        if text_of(build, words, path, place):
            kept.append((build, words))
        elif os.path.exists(path):
            os.remove(path)
    size = sum(entry.stat().st_size for entry in os.scandir(folder))
    print(f"{name}: {len(kept)} units, {size / 1e6:.1f} MB", flush=True)
    return kept


def make_all(out, place):
    sources, units = gcc_sources().unpack(place), {}
    # of each set every so many
    for library, step in [("zlib", 1), ("libiberty", 3)]:
        folder = configured(sources, library)
        units[library] = [(folder, words) for words in units_of(folder, [])][::step]
    folder = configured_uclibc(Package("uclibc-source", "usr/src/uClibc-ng-*.tar.xz").unpack(place))
    units["uClibc"] = [(folder, words) for words in units_of(folder, ["ARCH=x86_64", "V=1"])][::24]
    kept = {name: make_set(out, name, units[name], place) for name in units}
    with open(os.path.join(out, "units.json"), "w") as file:
        json.dump(kept, file)


def is_made(out):
    """Whether the texts are there, and the sources of the units that their list names."""
    path = os.path.join(out, "units.json")
    if not os.path.exists(path):
        return False
    with open(path) as file:
        return all(os.path.isdir(folder) for units in json.load(file).values() for folder, _ in units)


def main():
    out, place = map(os.path.abspath, sys.argv[1:])
    if is_made(out):
        return 0
    tools = ["gcc", "make", "apt-get", "dpkg-deb", "tar"]
    missing = [tool for tool in tools if shutil.which(tool) is None]
    texts = f"{out}.making"
    for folder in [out, place, texts]:
        shutil.rmtree(folder, ignore_errors=True)
    try:
        if missing:
            raise Missing(f"{', '.join(missing)} not found")
        os.makedirs(place)
        make_all(texts, place)
        os.rename(texts, out)
    except Missing as why:
        print(f"no real text: {why}", file=sys.stderr)
        shutil.rmtree(place, ignore_errors=True)
        return 1
    finally:
        shutil.rmtree(texts, ignore_errors=True)
    return 0


sys.exit(main())
