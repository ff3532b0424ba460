#!/usr/bin/env bash
# Proves every crate from nothing, tries the must-fail edits and runs the programs; then builds and runs the hosts in C and
# Rust, which compare the port with the Rust. An edit that rt cannot try fails the tests. The last line is rt's own 'N passed,
# M failed'.
set -euo pipefail
cd "$(dirname "$0")"
said=$(mktemp)
trap 'rm -f "$said"' EXIT
rt ci | tee "$said"
if grep -q '^rt: ok; .*must-fail edits: [^;]*, [1-9][0-9]* bad\b' "$said"; then
    echo "test.sh: bad must-fail edits show nothing of a contract: mend those that are named above"
    exit 1
fi
hosts/run
tail -n 1 "$said"
