#!/bin/sh
# Tries the scripts for users, compiler-words, list-of-compdb and report-json: wrong words, an entry of C and one of C++, escapes, and a
# report whose diagnostic looks like a record. The words of compiler-words must give gcc the tokens that it gives by itself; where
# pump_program is built, it must take the list. What the host lacks is named and not tried. It ends with 1 where a check fails.
cd "$(dirname "$0")/.." || exit 1
tools=$PWD/tools
pump=$PWD/crates/pump_program/out/pump_program
work=$PWD/out/scripts
if ! command -v python3 > /dev/null; then
    echo 'no python3: the scripts are not tried'
    exit 0
fi
rm -rf "$work"
mkdir -p "$work/a b/inc" || exit 1
cd "$work" || exit 1
XDG_CACHE_HOME=$work/cache
export XDG_CACHE_HOME
failed=0
tried=0

differs() {
    printf '%s\n' "differs: $1"
    failed=1
}

# try STATUS OUTPUT ERRORS INPUT COMMAND..: runs a command over a file for its input, and compares what it does; the texts are
# patterns of the shell.
try() {
    wanted=$1 wanted_output=$2 wanted_errors=$3 input=$4
    shift 4
    said="$(basename "$1") $2 $3 < $input"
    timeout 60 "$@" < "$input" > output 2> errors
    got=$?
    tried=$((tried + 1))
    [ $got = "$wanted" ] || differs "$said ends with $got, not $wanted"
    output=$(cat output)
    case $output in
    $wanted_output) ;;
    *) differs "$said writes '$output', not '$wanted_output'" ;;
    esac
    errors=$(cat errors)
    case $errors in
    $wanted_errors) ;;
    *) differs "$said says '$errors', not '$wanted_errors'" ;;
    esac
}

# report STATUS OUTPUT ERRORS REPORT: what report-json makes of a report, on one line without blanks at its lines' fronts.
report() {
    printf "$4" > report
    try "$1" '*' "$3" report "$tools/report-json"
    output=$(sed 's/^ *//' output | tr '\n' ' ')
    case $output in
    $2) ;;
    *) differs "report-json writes '$output', not '$2'" ;;
    esac
}

# tokens FILE: the words of a text of C, one on a line.
tokens() {
    tr -s ' \n' '\n\n' < "$1" | grep -v '^$'
}

: > empty
for script in compiler-words list-of-compdb report-json; do
    try 0 '*Status: 0 *' '' empty "$tools/$script" --help
done
try 2 '' 'usage: *' empty "$tools/compiler-words"
try 2 '' 'usage: *' empty "$tools/compiler-words" -q gcc
try 1 '' 'compiler-words: no-such-cc: not found*' empty "$tools/compiler-words" no-such-cc
try 1 '' 'compiler-words: *gives no macros*' empty "$tools/compiler-words" false
try 2 '' 'usage: *' empty "$tools/list-of-compdb"
try 2 '' 'usage: *' empty "$tools/list-of-compdb" a b
try 1 '' 'list-of-compdb: gone.json: No such file or directory' empty "$tools/list-of-compdb" gone.json
try 1 '' 'list-of-compdb: empty: no JSON: *' empty "$tools/list-of-compdb" empty
try 2 '' 'usage: *' empty "$tools/report-json" report

# Reports.
diagnostic='*"number": 0, "outcome": "diag", "length": null, "way": "remote", "diagnostic": "job 1 text 5 remote"*'
report 0 "$diagnostic" '' 'job 0 diag remote\njob 1 text 5 remote\njobs 1 remote 1 local 0 broken 0\n'
report 0 '*"jobs": 1, "remote": 0, "local": 1, "broken": 0*"refusal": null*' '' 'job 0 text 7 local A1\njobs 1 remote 0 local 1 broken 0\n'
report 0 '*"diagnostic": "a\\\\xff\\u000b"*' '' 'job 0 diag remote\na\377\013\njobs 1 remote 1 local 0 broken 0\n'
report 0 '*"jobs": \[\],*"totals": null, "refusal": "list 1: words 3"*' '' 'pump: list 1: words 3\n'
report 1 '' '*no report: no totals' ''
report 1 '' '*no report: line 1 has no end' 'pump: usage'
report 1 '' '*no report: job 0 has no diagnostic' 'job 0 diag remote\n'
report 1 '' '*no report: the totals*' 'job 0 text 1 remote\njobs 1 remote 0 local 1 broken 0\n'
report 1 '' '*no report: line 3 stands behind*' 'job 0 text 1 remote\njobs 1 remote 1 local 0 broken 0\nx\n'

if ! command -v gcc > /dev/null; then
    echo 'no gcc: compiler-words and list-of-compdb are tried with wrong words alone'
    echo "$tried calls of the scripts, of which $([ $failed = 0 ] && echo none || echo some) did something else"
    exit $failed
fi

# The words that gcc is told, begun as preprocessing here begins, give the tokens that it gives by itself; they are the same the second time, and where runs meet.
cat > unit.c << 'END'
#include <limits.h>
#include <stdint.h>
#include <stdio.h>
long version = __STDC_VERSION__;
int64_t wide = INT64_C(1);
char *bracket = "??(";
END
for option in -std=gnu17 -std=c99 -ansi -O2 -ffreestanding; do
    tried=$((tried + 1))
    "$tools/compiler-words" --lines $option gcc > words 2> errors || differs "compiler-words $option gcc: $(cat errors)"
    gcc $option -E -P unit.c > theirs.i 2> errors
    python3 -c 'import subprocess, sys
words = open("words", encoding="latin-1").read().split("\n")[:-1]
sys.exit(subprocess.run(["gcc", "-E", "-P", "-std=gnu17", "-undef", "-nostdinc", *words, "unit.c"]).returncode)' > ours.i 2>> errors
    [ "$(tokens ours.i)" = "$(tokens theirs.i)" ] || differs "the tokens of gcc with the words of compiler-words $option gcc"
    for run in 1 2 3 4; do "$tools/compiler-words" --lines $option gcc > again.$run & done
    wait
    for run in 1 2 3 4; do cmp -s words again.$run || differs "the words of compiler-words $option gcc, again"; done
done
rm -rf cache
for run in 1 2 3 4; do "$tools/compiler-words" gcc > again.$run & done
wait
for run in 1 2 3 4; do cmp -s again.1 again.$run || differs 'the words of runs at once'; done
[ "$(ls cache/mowhairu | grep -vc '\.json$')" = 0 ] || differs 'a part of the kept words is left'
C_INCLUDE_PATH=$work/later
export C_INCLUDE_PATH
try 0 '*-isystem /*' '' empty "$tools/compiler-words" gcc
mkdir later
try 0 "*-isystem $work/later -isystem /*" '' empty "$tools/compiler-words" gcc
unset C_INCLUDE_PATH
try 0 '*-D__INT64_C(c)=c\\ ##\\ L*-isystem /*' '' empty "$tools/compiler-words" gcc

# Lists.
printf '#include "h.h"\n' > 'a b/m.c'
printf 'char *text = TEXT; int late = LATE;\n' > 'a b/inc/h.h'
printf -- '-I inc -O2' > 'a b/words'
cat > db.json << END
[{"directory": "$work/a b", "file": "m.c",
  "command": "gcc -MMD -MF m.d -x c '-DTEXT=\"# \\\\\\\\ \\"' -DLATE=1 -Wp,-MD,m.d -Wp,-ULATE,-DLATE=2 -imultilib x -c m.c -o o/m.o"},
 {"directory": "$work/a b", "file": "m.c",
  "arguments": ["gcc", "-MMD", "-MF", "m.d", "-I/usr/include", "-DTEXT=\"# \\\\\\\\\"", "-DLATE=1", "-Wp,-MD,m.d", "-Wp,-ULATE,-DLATE=2",
                "@words", "-xc", "-c", "m.c", "-o", "o/m.o"]},
 {"directory": "a b", "file": "m.c", "command": "ccache gcc -nostdinc -undef -c m.c -o '$work/a b/o/m.o'"},
 {"directory": "a b", "file": "x.cc", "command": "g++ -c x.cc"},
 {"directory": "a b", "file": "x.c", "command": "gcc -imacros inc/h.h -c x.c"},
 {"directory": "a b", "file": "x.S", "command": "gcc -c x.S"}]
END
try 0 '*' '*' db.json "$tools/list-of-compdb" -
line() { sed -n "$1p" output; }
says() { grep -q "$1" errors || differs "list-of-compdb doesn't say '$1': $(cat errors)"; }
says "^list-of-compdb: entry 0 (m.c): left out: '-imultilib'"
says "^list-of-compdb: entry 3 (x.cc): left out: 'x.cc': not C"
says "^list-of-compdb: entry 4 (x.c): left out: '-imacros'"
says "^list-of-compdb: entry 5 (x.S): left out: 'x.S': not C"
says '^list-of-compdb: 6 entries, 2 jobs, 4 left out: 2 not C, 2 for a word$'
one=$(line 1)
two=$(line 2)
case $one in
"$work/a\\ b -D"*' -DTEXT="#\ \\\\" -DLATE=1 -Iinc -O2 -c -ULATE -DLATE=2 m.c -o o/m.i -isystem /'*) ;;
*) differs "list-of-compdb's first line: $one" ;;
esac
[ "$two" = "$work/a\\ b -nostdinc -c m.c -o o/m-2.i" ] || differs "list-of-compdb's second line: $two"
if [ -x "$pump" ]; then
    printf '%s\n' "$one" > list
    try 0 'job 0 text *' '' list "$pump" order - --hosts localhost -j 1
    grep -q '^char \* text = "# \\\\"; int late = 2;$' out/o/m.i || differs "pump_program's text of the first line: $(cat out/o/m.i)"
else
    echo 'no pump_program: the list is not tried with it'
fi

echo "$tried calls of the scripts, of which $([ $failed = 0 ] && echo none || echo some) did something else"
exit $failed
