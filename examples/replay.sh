#!/usr/bin/env bash
# A log is replayed: all of it, and one that is cut off within its last line.
set -u
cd "$(dirname "${BASH_SOURCE[0]}")/.." || exit
echo "all:"
./provider --replay < examples/names.log
echo "cut off:"
head -c -100 examples/names.log | ./provider --replay
