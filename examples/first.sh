#!/usr/bin/env bash
# Opens a directory, registers three names, and changes the key of one.
set -u
cd "$(dirname "${BASH_SOURCE[0]}")/.." || exit
./keydir run < examples/first.jsonl
