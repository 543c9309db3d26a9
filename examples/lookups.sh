#!/usr/bin/env bash
# Looks names up at two epochs, and has each proof checked.
set -u
cd "$(dirname "${BASH_SOURCE[0]}")/.." || exit
./keydir run < examples/lookups.jsonl | grep '"ok":"lookup"' | ./keydir check
