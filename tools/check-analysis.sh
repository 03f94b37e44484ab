#!/bin/sh
# Builds the programs of cases, and compares the analysis of random trees with the model of tools/check-analysis.py.
cd "$(dirname "$0")/.." || exit 1
mkdir -p out
for program in tree_examples job_texts; do
    if ! (cd "crates/$program" && rt run -- --help) > "out/$program.log" 2>&1; then
        cat "out/$program.log"
        exit 1
    fi
done
exec python3 -B tools/check-analysis.py crates/tree_examples/out/tree_examples crates/job_texts/out/job_texts
