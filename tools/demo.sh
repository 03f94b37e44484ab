#!/bin/sh
# Does the job of out/demo/list, and shows the list, the report and the text, which is put under out/ by this name.
cd "$(dirname "$0")/../out/demo" || exit 1
echo '--- the compile list'; cat list
echo '--- the report'
../../crates/pump_program/out/pump_program order - --hosts localhost -j 1 < list || exit 1
echo "--- the text, out/$1"; cat "out/$1"
