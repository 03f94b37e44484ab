#!/bin/sh
# Makes random trees with links on the host, and compares what texts locate there with what `locate` says.
cd "$(dirname "$0")/.." || exit 1
mkdir -p out
if ! (cd crates/bench_program && rt run -- --version) > out/bench_program.log 2>&1; then
    cat out/bench_program.log
    exit 1
fi
exec python3 tools/check-walks.py crates/bench_program/out/bench_program
