#!/bin/sh
# Builds a C project of the host with Mowhairu in front of its compiler: real.sh DIR [WORD..]
#
# DIR has a Makefile, and `make CC=mow-cc WORD..` is run in it; or else, and where the Makefile is CMake's, which doesn't heed CC, a
# compile_commands.json, whose C entries are run with the compilers that they name. The compiler behind make is $MOWHAIRU_CC, or cc:
# where the Makefile gives its CC words, they belong there, as in MOWHAIRU_CC='gcc -std=gnu99'. Nothing is cleaned first: what make
# finds built isn't compiled. It prints how many jobs were remote, which weren't and why, and which commands were no jobs.
#
# The log of all commands is $MOWHAIRU_LOG, or out/real.log, and begins anew. pump_program is $MOWHAIRU_PUMP; without it, it is
# built.
#
# Status: 0 all was built, 2 wrong words, or something is lacking; else that of make, or 1 where an entry failed.
here=$(cd "$(dirname "$0")" && pwd) || exit 2
if [ $# -eq 0 ] || [ -z "$1" ]; then
    echo 'usage: make real REAL=DIR [WORDS=WORD..], where DIR has a Makefile or a compile_commands.json' >&2
    exit 2
fi
dir=$1
shift
if [ -e "$dir/CMakeCache.txt" ] && ! [ -e "$dir/compile_commands.json" ]; then
    echo "$dir: CMake writes no compile_commands.json without -DCMAKE_EXPORT_COMPILE_COMMANDS=ON" >&2
    exit 2
elif [ -e "$dir/CMakeCache.txt" ]; then
    kind=commands
elif [ -e "$dir/Makefile" ] || [ -e "$dir/makefile" ] || [ -e "$dir/GNUmakefile" ]; then
    kind=make
elif [ -e "$dir/compile_commands.json" ]; then
    kind=commands
else
    echo "$dir: no Makefile, and no compile_commands.json" >&2
    exit 2
fi
for program in python3 make "${MOWHAIRU_CC:-cc}"; do
    if ! command -v "${program%% *}" > /dev/null; then
        echo "$program is lacking" >&2
        exit 2
    fi
done

if [ -z "$MOWHAIRU_PUMP" ]; then
    mkdir -p "$here/../out"
    if ! (cd "$here/../crates/pump_program" && rt run -- --version) > "$here/../out/pump_program.log" 2>&1; then
        cat "$here/../out/pump_program.log" >&2
        exit 2
    fi
    MOWHAIRU_PUMP=$here/../crates/pump_program/out/pump_program
fi
if [ -z "$MOWHAIRU_LOG" ]; then
    mkdir -p "$here/../out"
    MOWHAIRU_LOG=$here/../out/real.log
fi
case $MOWHAIRU_LOG in /*) ;; *) MOWHAIRU_LOG=$PWD/$MOWHAIRU_LOG ;; esac
case $MOWHAIRU_PUMP in /*) ;; *) MOWHAIRU_PUMP=$PWD/$MOWHAIRU_PUMP ;; esac
export MOWHAIRU_PUMP MOWHAIRU_LOG
: > "$MOWHAIRU_LOG" || exit 2

# The project's make gets no words of the make that runs this.
unset MAKEFLAGS MFLAGS MAKELEVEL
if [ $kind = make ]; then
    make -C "$dir" CC="$here/mow-cc" "$@"
else
    python3 -B "$here/compile-commands.py" "$dir/compile_commands.json" "$here/mow-cc"
fi
status=$?

# ways PATTERN: the ways of the log that match, each with its number.
ways() {
    cut -f 1 "$MOWHAIRU_LOG" | grep -E "$1" | LC_ALL=C sort | uniq -c | sort -rn
}

# number PATTERN: how many lines have such a way.
number() {
    cut -f 1 "$MOWHAIRU_LOG" | grep -cE "$1"
}

jobs='^(remote|local |compiler |failed )'
echo "jobs $(number "$jobs") remote $(number '^remote') local $(number '^local ') compiler $(number '^(compiler|failed) ')"
ways "$jobs"
if [ "$(number '^other ')" -ne 0 ]; then
    echo "other commands $(number '^other ')"
    ways '^other '
fi
if ! [ -s "$MOWHAIRU_LOG" ]; then
    echo "no command went through mow-cc: all is built already, or the compiler isn't make's CC" >&2
fi
exit $status
