#!/usr/bin/env bash
# Watches a name whose key changes, for a client that expects the first one.
set -u
cd "$(dirname "${BASH_SOURCE[0]}")/.." || exit
key=0000000000000000000000000000000000000000000000000000000000000000
./keydir monitor --key "$key" --name a --expect aw== < examples/watched.jsonl || echo "status $?"
