#!/bin/sh
# Tries the programs as a new user would: wrong words, wrong lists, files that can't be read or written, a device that is full, a
# header that comes and goes. It compares statuses, standard output and what standard error says, and ends with 1 where one differs.
cd "$(dirname "$0")/.." || exit 1
top=$PWD
work=$top/out/programs
rm -rf "$work"
mkdir -p "$work/src" || exit 1
failed=0
tried=0

# Builds a program as LLVM builds it.
build() {
    log=$work/$1.log
    if ! (cd "crates/$1" && rt run -- --version) > "$log" 2>&1; then
        cat "$log"
        exit 1
    fi
}

examples='token_examples expansion_examples choice_examples condition_examples frame_examples job_texts tree_examples run_examples'
for program in pump_program pumpd bench_program $examples; do
    build $program
done
cd "$work" || exit 1
program() { echo "$top/crates/$1/out/$1"; }
pump=$(program pump_program)
daemon=$(program pumpd)
bench=$(program bench_program)
odd=$(printf 'a\377b')
: > empty

differs() {
    echo "differs: $1"
    failed=1
}

# compare STATUS OUTPUT ERRORS: compares what the last run of `try` did; the texts are patterns of the shell.
compare() {
    [ "$got" = "$1" ] || differs "$said ends with $got, not $1"
    output=$(cat output)
    case $output in
    $2) ;;
    *) differs "$said writes '$output', not '$2'" ;;
    esac
    errors=$(cat errors)
    case $errors in
    $3) ;;
    *) differs "$said says '$errors', not '$3'" ;;
    esac
}

# try STATUS OUTPUT ERRORS INPUT COMMAND..: runs a command over a file for its input, and compares what it does.
try() {
    wanted=$1 wanted_output=$2 wanted_errors=$3 input=$4
    shift 4
    said=$(basename "$1")" $2 $3 < $input"
    timeout 60 "$@" < "$input" > output 2> errors
    got=$?
    tried=$((tried + 1))
    compare "$wanted" "$wanted_output" "$wanted_errors"
}

# list STATUS OUTPUT ERRORS LIST: runs the program over a list.
list() {
    printf "$4" > list
    try "$1" "$2" "${3:+pump_program: $3}" list "$pump" order - --hosts localhost -j 1
}

# full STATUS ERRORS INPUT COMMAND..: runs a command whose output is a full device.
full() {
    wanted=$1 wanted_errors=$2 input=$3
    shift 3
    said=$(basename "$1")" $2 > /dev/full"
    "$@" < "$input" > /dev/full 2> errors
    got=$?
    tried=$((tried + 1))
    : > output
    compare "$wanted" '' "$wanted_errors"
}

wrong='wrong words; see'
try 2 'pump: usage' "pump_program: $wrong pump_program --help" empty "$pump"
try 2 'pump: usage' "pump_program: $wrong pump_program --help" empty "$pump" order - --hosts "$odd" -j 1
for budget in '' 0 01 +1 1x 65537; do
    try 2 'pump: usage' "pump_program: $wrong pump_program --help" empty "$pump" order - --hosts localhost --budget "$budget"
done
for clients in '' 0 01 65; do
    try 2 'pump: usage' "pump_program: $wrong pump_program --help" empty "$pump" order - --hosts localhost -j "$clients"
done
for order in '' , 0, 1 0,,0 01 -1 0-0 64; do
    try 2 'pump: usage' "pump_program: $wrong pump_program --help" empty "$pump" order "$order" --hosts localhost -j 1
done
for hosts in '' ' ' a: a/0 a/65 a:65536 'a b,x' a_b; do
    try 2 'pump: usage' "pump_program: $wrong pump_program --help" empty "$pump" order - --hosts "$hosts" -j 1
done
none='jobs 0 remote 0 local 0 broken 0
looks 0 hits 0 kept 0 already 0 full 0'
try 0 "$none" '' empty "$pump" order - --hosts 'a:4000/2,lzo localhost'
try 2 '' "pumpd: $wrong pumpd --help" empty "$daemon"
try 2 '' "pumpd: $wrong pumpd --help" empty "$daemon" --port 3632
try 2 '' "pumpd: $wrong pumpd --help" empty "$daemon" "$odd"
try 3 '' '' . "$daemon" --inetd
for words in '' lex 'lex count' tree 'tree locate' 'tree search 2' share 'share slots 2' 'share list' expand; do
    try 2 '' 'usage: *' empty "$bench" $words
done
try 2 '' "bench_program: $wrong bench_program --help" empty "$bench" lex count "$odd"
for numbers in '1x 2' '+1 2' '01 2' '-1 2' '4294967296 2'; do
    try 2 '' 'usage: *' empty "$bench" tree search $numbers
    try 2 '' 'usage: *' empty "$bench" share memo $numbers
done
for threads in 0 65; do
    try 2 '' 'usage: *' empty "$bench" share slots $threads 1
done
printf 'no such case\n' > odd-case
printf '1 + \377\n' > odd-text
for name in $examples; do
    try 2 '' 'usage: *' empty "$(program $name)" more
    case $name in
    condition_examples) try 2 '*' "$name: the cases aren't UTF-8" odd-text "$(program $name)" ;;
    *) try 2 '*' "$name: line *" odd-case "$(program $name)" ;;
    esac
done

# What the parts of the measuring program print; its stored run is of expansion.
cp "$top"/crates/bench_program/data/* .
try 0 'comments.c same
odd.h same' '' empty "$bench" lex again comments.c odd.h
try 0 '/w/a.c
-
/w/d/h
/w/d/h
-
-' '' empty "$bench" tree locate tree
try 0 '2 found' '' empty "$bench" tree search 3 2
try 0 'new 3 already 9 full 0 hits 12 misses 0' '' empty "$bench" share memo 3 4
try 0 'taken 4000' '' empty "$bench" share slots 4 1000

# What is no file, or isn't there.
mkfifo fifo
for node in fifo /dev/null src; do
    try 1 '' "$node: not a file" empty "$bench" lex count $node
    try 1 '' "$node: not a file" empty "$bench" tree locate $node
    try 1 '' "$node: not a file" empty "$bench" expand $node
done
try 1 '' 'gone.c: No such file or directory*' empty "$bench" lex count gone.c

# Lists that have no job, and such that are refused.
list 0 "$none" '' ''
list 0 "$none" '' '# a.c\n\n'
list 3 'pump: list 1: escape' 'list line 1: a *at the end (escape)' '/w a.c\\'
list 3 'pump: list 3: output' "list line 3: 'a.i': an earlier job's output (output)" '/w a.c\n\n/w ./a.c\n'
list 3 'pump: list 2: words 3' "list line 2: '-q r': unknown option (words 3)" '# a.c\n/w a.c -q\\ r\n'
list 3 'pump: list 1: words 1' 'list line 1: no source (words 1)' '/w -c\n'
list 3 'pump: list 1: words 2' "list line 1: 'b.c': a second source (words 2)" '/w -I i a.c b.c -O2\n'
list 3 'pump: list 1: words 3' "list line 1: '-q': unknown option (words 3)" '/w -I -q a.c -q -z\n'
list 3 'pump: list 1: words 4' "list line 1: '-I': no operand (words 4)" '/w -I i a.c -I\n'
list 3 'pump: list 1: words 5' "list line 1: '-D1x': no macro (words 5)" '/w -DX -D1x a.c -UX\n'
list 3 'pump: list 1: words 7' "list line 1: 'w': no working directory (words 7)" 'w a.c\n'
try 4 'pump: list read fault' 'pump_program: standard input: Is a directory*' src "$pump" order - --hosts localhost -j 1

# Files that are read, or can't be.
printf '#include "h.h"\nint x;\n' > src/a.c
printf 'int y;\n' > src/kept.h
cp src/kept.h src/h.h
mkfifo src/fifo.c
list 0 'job 0 text *' '' "$work/src a.c\n"
list 1 'job 0 diag *cannot find source*' '' "$work/src fifo.c\n"
list 1 'job 0 diag *cannot find source*' '' "$work/src ../src\n"
list 6 'job 0 tree-fault *' '/proc/self/mem: Input/output error*' '/proc/self mem\n'
if [ "$(id -u)" -ne 0 ]; then
    cp src/a.c src/closed.c && chmod 000 src/closed.c
    list 6 'job 0 tree-fault *' "$work/src/closed.c: Permission denied*" "$work/src closed.c\n"
fi

# Outputs that can't be written.
list 4 'job 0 out-fault *' 'out/../x.i: the name leads out of the folder' "$work/src a.c -o ../x.i\n"
list 4 'job 0 out-fault *' 'out/new/: the name is none of a file' "$work/src a.c -o new/\n"
[ -e out/new ] && differs 'a folder is left behind a name that is refused'
list 4 'job 0 out-fault *' 'out/a.i/b.i: Not a directory*' "$work/src a.c -o a.i/b.i\n"

# Where a write fails in the middle, the old output stays whole, and nothing else is there.
awk 'BEGIN { for (i = 0; i < 4000; i++) print "int x;" }' > src/long.c
printf 'old\n' > out/a.i
printf '%s\n' "$work/src long.c -o a.i" > list
(trap '' XFSZ && ulimit -f 8 && exec "$pump" order - --hosts localhost -j 1) < list > output 2> errors
got=$?
said='pump_program with a limit on the size of files'
tried=$((tried + 1))
compare 4 'job 0 out-fault *' 'pump_program: out/a.i: File too large*'
[ "$(cat out/a.i)" = old ] || differs 'the old output is gone where the new one was refused'
[ "$(ls -A out)" = a.i ] || differs 'a part of a refused output is left'

# A device that is full.
if [ -c /dev/full ]; then
    space='No space left on device*'
    printf '%s\n' "$work/src a.c" > list
    full 4 "pump_program: standard output: $space" list "$pump" order - --hosts localhost -j 1
    full 4 '' "$top/crates/pumpd/stdin" "$daemon" --inetd
    for name in pump_program pumpd bench_program $examples; do
        full 4 "$name: $space" empty "$(program $name)" --help
    done
else
    echo 'no /dev/full: what a full device gives is not tried'
fi

# Where standard error is a terminal, a line there says how far the run is; elsewhere nothing is said.
printf '%s\n%s\n' "$work/src a.c" "$work/src a.c -o b.i" > list
said='pump_program with a terminal'
tried=$((tried + 1))
python3 - "$pump" > shown <<'END'
import os, pty, subprocess, sys
ours, theirs = pty.openpty()
with open("list", "rb") as jobs:
    subprocess.run([sys.argv[1], "order", "-", "--hosts", "localhost", "-j", "1"], stdin=jobs, stdout=subprocess.DEVNULL, stderr=theirs)
print(os.read(ours, 4096).decode().strip().rsplit("\r", 1)[-1])
END
case $(cat shown) in
'pump_program: 2 of 2 jobs done, 2 remote, 0 local, '[0-9]*' s') ;;
*) differs "the terminal shows $(cat shown)" ;;
esac

# A header that is removed and made again: a run has its text, or says that it can't be found or read.
comes_and_goes() {
    while [ -e going ]; do
        rm -f src/h.h
        ln src/kept.h src/h.h
    done
}
: > going
comes_and_goes &
writer=$!
printf '%s\n' "$work/src a.c" > list
for run in $(seq 200); do
    rm -f out/a.i
    "$pump" order - --hosts localhost -j 1 < list > output 2> errors
    got=$?
    tried=$((tried + 1))
    case $got in
    0) grep -q 'int y;' out/a.i || differs "run $run has a text without its header" ;;
    1 | 6) ;;
    *) differs "run $run ends with $got" ;;
    esac
done
rm -f going
wait $writer

echo "$tried runs of the programs, of which $([ $failed = 0 ] && echo none || echo some) did something else"
exit $failed
