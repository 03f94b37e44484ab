#!/bin/sh
# Tries tools/mow-cc and tools/real.sh as a build calls them, beside gcc alone: objects, dependency files, warnings, statuses, ways.
# pump_program is $MOWHAIRU_PUMP; without it, it is built. Where a program that they need is lacking, a line says so, and nothing is
# tried. It ends with 1 where something differs.
cd "$(dirname "$0")/.." || exit 1
for program in gcc make python3 cmp; do
    if ! command -v $program > /dev/null; then
        echo "no $program: the wrapper isn't tried"
        exit 0
    fi
done
top=$PWD
work=$top/out/wrapper
wrapper=$top/tools/mow-cc
rm -rf "$work"
mkdir -p "$work/temporary" "$work/src/odd #1" "$work/src/sys" || exit 1
if [ -z "$MOWHAIRU_PUMP" ]; then
    if ! (cd crates/pump_program && rt run -- --version) > "$work/build.log" 2>&1; then
        cat "$work/build.log"
        exit 1
    fi
    MOWHAIRU_PUMP=$top/crates/pump_program/out/pump_program
fi
MOWHAIRU_LOG=$work/log MOWHAIRU_CC=gcc TMPDIR=$work/temporary
export MOWHAIRU_PUMP MOWHAIRU_LOG MOWHAIRU_CC TMPDIR
unset MOWHAIRU_VERBOSE MOWHAIRU_FALLBACK CPATH C_INCLUDE_PATH
cd "$work/src" || exit 1
failed=0
tried=0

differs() {
    echo "differs: $1"
    failed=1
}

# try STATUS ERRORS WAY WORD..: runs the wrapper, and compares its status, what standard error says, a pattern of the shell, and the
# way that the log has.
try() {
    wanted=$1 wanted_errors=$2 wanted_way=$3
    shift 3
    : > "$MOWHAIRU_LOG"
    "$wrapper" "$@" > ../output 2> ../errors
    got=$?
    tried=$((tried + 1))
    [ $got = "$wanted" ] || differs "mow-cc $* ends with $got, not $wanted: $(cat ../errors)"
    errors=$(cat ../errors) way=$(cut -f 1 "$MOWHAIRU_LOG")
    case $errors in
    $wanted_errors) ;;
    *) differs "mow-cc $* says '$errors', not '$wanted_errors'" ;;
    esac
    case $way in
    $wanted_way) ;;
    *) differs "mow-cc $* logs '$way', not '$wanted_way'" ;;
    esac
}

# same FILE: compares a file that the wrapper's run made with gcc's of the same words; gcc's is $FILE.gcc.
same() {
    cmp -s "$1" "$1.gcc" || differs "$1 isn't what gcc makes"
}

# both FILE WAY WORD..: the wrapper and gcc make FILE, byte by byte the same, and the wrapper says nothing.
both() {
    file=$1 way=$2
    shift 2
    rm -f "$file" "$file.gcc"
    gcc "$@" 2> ../errors || differs "gcc $* fails: $(cat ../errors)"
    mv "$file" "$file.gcc"
    try 0 '' "$way" "$@"
    same "$file"
}

cat > a.c << 'END'
#include <stdio.h>
#include <stdlib.h>
#include <string.h>
#include <sys.h>
#include "h.h"
int twice(int by) {
    switch (by) {
    case 2:
        by = 1;
        /* fall through */
    default:
        break;
    }
    return by * TWO + sizeof(struct sys) + (strlen(TEXT) > 2 ? abs(by) : puts(TEXT));
}
END
printf '#define TWO 2\n' > 'odd #1/h.h'
printf 'struct sys { int unused; };\nstatic int left(void) { int nothing; return 0; }\n' > sys/sys.h
printf 'int twice(int by);\nint main(void) { return twice(1) == 0; }\n' > main.c

set -- -O2 -I 'odd #1' -isystem sys '-DTEXT="a \"b\" \\ c"'
both a.o remote "$@" -c a.c
both b.o remote "$@" -std=c99 -Wall -Wextra -Wpedantic -Werror -fPIC -c a.c -o b.o
both a.o remote "$@" -x c -c a.c -oa.o
both a.d remote "$@" -MD -c a.c
both b.d remote "$@" -MMD -MP -c a.c -o b.o
both rules remote "$@" -MD -MF rules -MT one -MQ 'two$' -c a.c -o b.o
rm -f a.o.gcc
both main.o remote -c main.c

printf '#pragma GCC system_header\nstatic int left(void) { int nothing; return 0; }\n' > called.h
printf '#include "called.h"\nint x;\n' > calls.c
both calls.o remote -Wall -Werror -c calls.c

# What is no job, and what the compiler does as it stands.
both a.i 'other -E' "$@" -E a.c -o a.i
both a.s 'other -S' "$@" -S a.c
try 0 '' 'other no -c' a.o main.o -o program
try 0 '' 'other 2 sources' "$@" -c a.c main.c
try 0 '' 'other not C' -c a.s
try 0 '*gcc version*' 'other -v' gcc -v
printf 'int count = __COUNTER__;\n' > counter.c
both counter.o 'compiler text with __COUNTER__' -c counter.c
printf '#ident "one"\nint x;\n' > ident.c
both ident.o 'compiler directive #ident' -c ident.c
printf '#if defined __has_builtin\n#if __has_builtin(__builtin_expect)\nint x;\n#endif\n#endif\n' > asks.c
both asks.o 'compiler file with __has_builtin' -c asks.c
printf 'long version =\n#ifdef __STDC_VERSION__\n__STDC_VERSION__\n#else\n0\n#endif\n;\n' > version.c
for standard in -ansi -std=gnu89 -std=iso9899:199409 -std=c99 -std=gnu2x; do
    both version.o remote $standard -c version.c
done
both a.o 'compiler *-imacros*(words 3)' "$@" -imacros 'odd #1/h.h' -c a.c
both a.o 'compiler an empty word*' "$@" -D 'LINES=1
2' -c a.c

# Diagnostics: of preprocessing, with the object of an earlier run gone, and of the compiler.
printf '#include "gone.h"\n' > gone.c
: > gone.o
try 1 "$PWD/gone.c:1: error: cannot find*gone.h*" '*, diagnostic' -c gone.c
[ -e gone.o ] && differs 'an object is left behind a diagnostic'
printf 'int x = ;\n' > wrong.c
try 1 '*wrong.c:1:9: error: *' remote -c wrong.c
export MOWHAIRU_VERBOSE=1
try 0 'mow-cc: main.c: remote' remote -c main.c
unset MOWHAIRU_VERBOSE

# Statuses of a program that does nothing else.
printf '#!/bin/sh\necho "pump: told"\necho "pump_program: told" >&2\nexit $FAKE\n' > ../fake
chmod +x ../fake
product=$MOWHAIRU_PUMP
MOWHAIRU_PUMP=$work/fake
for FAKE in 0 1 2 4 5 6 9; do
    export FAKE
    try 0 "mow-cc: main.c: pump_program ended with $FAKE*told; the compiler does it" "compiler *$FAKE*" -c main.c
    MOWHAIRU_FALLBACK=0 && export MOWHAIRU_FALLBACK
    try 104 "mow-cc: main.c: pump_program ended with $FAKE*told" "failed *$FAKE*" -c main.c
    unset MOWHAIRU_FALLBACK
done
FAKE=3
try 0 '' 'compiler *told' -c main.c
MOWHAIRU_PUMP=$work/none
try 0 "mow-cc: main.c: $work/none: No such file*; the compiler does it" 'compiler *' -c main.c
MOWHAIRU_PUMP=$product
[ -z "$(ls -A "$TMPDIR")" ] || differs "$TMPDIR has left-overs"

# A build of several jobs at once, and the commands of a database.
real() {
    MOWHAIRU_LOG=$work/real.log sh "$top/tools/real.sh" "$@" > ../output 2> ../errors
    got=$? counts=$(grep '^jobs ' ../output)
    tried=$((tried + 1))
    [ $got = 0 ] || differs "real.sh $* ends with $got: $(cat ../errors)"
    [ "$counts" = "jobs 8 remote 8 local 0 compiler 0" ] || differs "real.sh $* counts '$counts'"
}
mkdir ../project
cd ../project || exit 1
for unit in 1 2 3 4 5 6 7 8; do
    printf '#include <stdio.h>\nint unit%s(void) { return puts("%s"); }\n' $unit $unit > unit$unit.c
done
printf 'all: $(patsubst %%.c,%%.o,$(wildcard unit*.c))\n' > Makefile
real . -j4
for unit in 1 2 3 4 5 6 7 8; do
    gcc -c unit$unit.c -o unit$unit.o.gcc && same unit$unit.o
done
rm -f Makefile ./*.o
comma=
{
    echo '['
    for unit in 1 2 3 4 5 6 7 8; do
        printf '%s{"directory": "%s", "file": "unit%s.c", ' "$comma" "$PWD" $unit
        printf '"command": "gcc -c unit%s.c -o unit%s.o"}\n' $unit $unit
        comma=,
    done
    echo ']'
} > compile_commands.json
real .
for unit in 1 2 3 4 5 6 7 8; do
    same unit$unit.o
done

echo "$tried runs of the wrapper, of which $([ $failed = 0 ] && echo none || echo some) did something else than it should"
exit $failed
