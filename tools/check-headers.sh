#!/bin/sh
# Lexes each header of the host again from its tokens, and compares what preprocessing makes of each with GCC's. It ends with 1 where
# one differs or isn't read.
cd "$(dirname "$0")/.." || exit 1
list=out/headers
mkdir -p out
find /usr/include -name '*.h' -type f 2>/dev/null | LC_ALL=C sort > $list
if ! [ -s $list ]; then
    echo "no headers below /usr/include: nothing to lex"
    exit 0
fi
if ! (cd crates/bench_program && rt run -- --version) > out/bench_program.log 2>&1; then
    cat out/bench_program.log
    exit 1
fi
tr '\n' '\0' < $list | xargs -0 crates/bench_program/out/bench_program lex again > out/headers.log 2>&1
status=$?
grep -v ' same$' out/headers.log
echo "$(grep -c ' same$' out/headers.log) of $(wc -l < $list) headers have the same tokens again"
[ $status -eq 0 ] || exit 1
if ! command -v gcc > /dev/null; then
    echo "no gcc to compare preprocessing with"
    exit 0
fi
if ! (cd crates/pump_program && rt run -- --version) > out/pump_program.log 2>&1; then
    cat out/pump_program.log
    exit 1
fi
python3 tools/check-preprocessing.py crates/pump_program/out/pump_program
