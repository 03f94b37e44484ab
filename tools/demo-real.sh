#!/bin/sh
# Preprocesses the C project of examples/real by the program, and shows that what is built from the texts is what the compiler
# builds by itself: demo-real.sh [PROGRAM [CC]], by default pump_program as it was built, and gcc.
#
# Each compile command of the project's Makefile becomes a line of a compile list: its own words, with the compiler's macros and
# directories (tools/compiler-words) in front. For each line it shows the job's report, and why a local one is local. CC compiles
# the texts, with -fpreprocessed, and links them; the result is run on the stored input, and must print the stored output. The
# project's own build is made too, and its objects must be the same byte by byte, or at least disassembled.
# `__FILE__` is the absolute name in a text, as in this project's own build, which gives CC absolute names.
#
# Status: 0 all of this is so, or the host lacks CC, make or python3, and nothing was tried; 1 it isn't so, or one job in ten or
# more is local.
here=$PWD
cd "$(dirname "$0")/.." || exit 1
top=$PWD
pump=${1:-$top/crates/pump_program/out/pump_program}
case $pump in /*) ;; *) pump=$here/$pump ;; esac
cc=${2:-gcc}
project=$top/examples/real
work=$top/out/demo/real
input=data/stock.ini
stored=$project/data/stock.out

fail() {
    echo "demo-real: $1" >&2
    exit 1
}

for tool in "$cc" make python3; do
    if ! command -v "$tool" > /dev/null; then
        echo "no $tool on this host: the jobs of examples/real are not tried"
        exit 0
    fi
done
[ -x "$pump" ] || fail "$pump: no program; make demo builds it"
case $top in *[[:space:]]*) fail "$top: the project's Makefile takes no folder with a blank in its name" ;; esac
# The project's make isn't told what a make around it was.
unset MAKEFLAGS MFLAGS MAKELEVEL
rm -rf "$work"
mkdir -p "$work/objects" "$work/lists" || exit 1

# project_make WORD..: make in the project.
project_make() {
    make --no-print-directory -C "$project" CC="$cc" BUILD="$work/plain" "$@"
}

# option_words WORD..: those words of a command that change what its compiler defines.
option_words() {
    for word in "$@"; do
        case $word in -std=* | -ansi | -O* | -f* | -m* | -pthread) printf '%s ' "$word" ;; esac
    done
}

# define WORD..: sets `defined` to the words of the compiler under the options among these words.
define() {
    wanted=$(option_words "$@")
    [ "$wanted" = "$asked" ] && return
    # shellcheck disable=SC2086
    defined=$("$top/tools/compiler-words" $wanted "$cc") || fail "$cc gives no words"
    asked=$wanted
}

# escaped WORD..: words as a compile list has them.
escaped() {
    for word in "$@"; do
        printf '%s' "$word" | sed 's/[\\[:blank:]]/\\&/g; s/^#/\\#/; s/$/ /' | tr -d '\n'
    done
}

# why WAY: why a job is local, by docs/FORMATS.md.
why() {
    case $1 in
    A[1-7]) sed -n "s/^| \`$1\` | \(.*\) |\$/\1/p" docs/FORMATS.md ;;
    *) echo 'the link, the other side, or want of memory' ;;
    esac
}

# keep_report NAME STATUS: shows and counts the report of a job, in the file `report`.
keep_report() {
    line=$(sed -n 1p "$work/report")
    echo "$1.c: $line"
    case $line in
    *' remote') remote=$((remote + 1)) ;;
    *' local '*)
        local_jobs=$((local_jobs + 1))
        echo "    local: $(why "${line##* local }")"
        ;;
    esac
    case $2:$line in
    '0:job 0 text '*) return 0 ;;
    '1:job 0 diag '*) sed -n '2s/^/    /p' "$work/report" ;;
    esac
    sed 's/^/    /' "$work/errors"
    broken=$((broken + 1))
    return 1
}

# compile NAME WORD..: compiles a job's text with the words of its command.
compile() {
    name=$1
    shift
    "$cc" "$@" -g0 -w -fpreprocessed -c "$work/out/$name.i" -o "$work/objects/$name.o" && return 0
    echo "    $cc doesn't compile the text out/demo/real/out/$name.i"
    broken=$((broken + 1))
}

# do_job WORD..: does the job of a command, whose words are the compiler's own and end with `-c SOURCE -o OBJECT`.
do_job() {
    while [ $# -gt 4 ]; do
        options="$options $1"
        shift
    done
    source=$2
    name=$(basename "$source" .c)
    # shellcheck disable=SC2086
    set -- $options
    jobs=$((jobs + 1))
    own=$(escaped "$@" -c "$source" -o "$name.i")
    define "$@"
    printf '%s %s %s\n' "$project" "$defined" "$own" > "$work/lists/$name"
    (cd "$work" && "$pump" order - --hosts localhost -j 1 < "lists/$name" > report 2> errors)
    keep_report "$name" $? && compile "$name" "$@"
}

# disassembled OBJECT: its code and data as objdump shows them, without its name.
disassembled() { objdump -drs "$1" | sed 1,3d; }

# compare NAME: compares the object of a text with that of the plain build.
compare() {
    one=$work/objects/$1.o other=$work/plain/$1.o
    if [ ! -e "$one" ]; then
        echo "$1.o: there is none"
    elif cmp -s "$one" "$other"; then
        same=$((same + 1))
    elif command -v objdump > /dev/null && [ "$(disassembled "$one")" = "$(disassembled "$other")" ]; then
        echo "$1.o: the same disassembled, though not byte by byte"
        alike=$((alike + 1))
    else
        echo "$1.o: not as in the plain build"
        broken=$((broken + 1))
    fi
}

asked=none jobs=0 remote=0 local_jobs=0 same=0 alike=0 broken=0
project_make -n all > "$work/commands" || fail 'the Makefile of examples/real gives no commands'
grep -e " -c $project/src/" "$work/commands" > "$work/compiles" || fail 'the Makefile of examples/real compiles nothing'
echo "--- the reports of its jobs"
while read -r _ words; do
    options=
    # shellcheck disable=SC2086
    do_job $words
done < "$work/compiles"

echo "--- the objects of the texts, and those of make"
project_make check > "$work/plain.log" 2>&1 || { cat "$work/plain.log"; fail 'the plain build fails'; }
for object in "$work"/plain/*.o; do
    compare "$(basename "$object" .o)"
done
echo "$jobs objects: $same the same byte by byte, $alike the same disassembled"

echo "--- the program of the texts, run on examples/real/$input"
if "$cc" -o "$work/tabulate" "$work"/objects/*.o -pthread 2> "$work/errors" && (cd "$project" && "$work/tabulate" "$input") > "$work/printed"; then
    cat "$work/printed"
    cmp "$work/printed" "$stored" || broken=$((broken + 1))
else
    echo "the objects don't link, or their program fails"
    broken=$((broken + 1))
fi
echo "$jobs jobs: $remote remote, $local_jobs local; $([ $broken = 0 ] && echo 'nothing differs' || echo "$broken of the steps went wrong")"
[ $((local_jobs * 10)) -lt "$jobs" ] || fail 'one job in ten or more is local'
[ $broken = 0 ]
