#!/bin/sh
# Sends the daemon's program a stored request, and shows the reply's head.
cd "$(dirname "$0")/../crates/pumpd" || exit 1
./out/pumpd --inetd < stdin > ../../out/demo/reply || exit 1
echo "--- the request, $(wc -c < stdin) bytes, begins"; head -n 1 stdin
echo "--- the reply, $(wc -c < ../../out/demo/reply) bytes, begins"; head -n 2 ../../out/demo/reply
