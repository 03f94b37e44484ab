#!/bin/sh
# Measures the programs, most beside gcc and tcc: see docs/PERFORMANCE.md. An argument is the number of rounds. With BUILT=1 the programs
# are measured as they are built, by the gate for one, and not built anew.
cd "$(dirname "$0")/.." || exit 1
mkdir -p out/bench

# Builds programs as LLVM builds them, and prints the names of those that are built.
build() {
    for program in "$@"; do
        log=$PWD/out/bench/$program.log
        if [ "${BUILT:-0}" = 1 ] && [ -x "crates/$program/out/$program" ] || (cd "crates/$program" && rt run -- --version) > "$log" 2>&1; then
            echo "$program"
        else
            echo "$program isn't built: see $log" >&2
        fi
    done
}

programs=$(build bench_program choice_examples pump_program pumpd tree_examples)
counter=out/bench/count_malloc.so
if ! gcc -O2 -shared -fPIC tools/count_malloc.c -o "$counter" 2> out/bench/count_malloc.log; then
    echo "allocations aren't counted: see out/bench/count_malloc.log" >&2
    counter=none
fi
python3 -B tools/real_text.py out/bench/real "${XDG_CACHE_HOME:-$HOME/.cache}/mowhairu/real"
# Each program's name is a word of its own.
python3 -B tools/bench.py "${1:-5}" "$counter" out/bench/real $programs
status=$?
case " $(echo $programs) " in
*" pump_program pumpd "*)
    [ ! -e out/bench/real/units.json ] || python3 -B tools/units.py crates/pumpd/out/pumpd crates/pump_program/out/pump_program out/bench/real
    ;;
esac
case " $(echo $programs) " in
*" tree_examples "*) ! command -v gcc > /dev/null || python3 -B tools/measure-analysis.py crates/tree_examples/out/tree_examples out/bench/real ;;
esac
exit $status
