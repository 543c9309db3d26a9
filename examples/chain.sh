#!/usr/bin/env bash
# Audits a chain of three entries.
set -u
cd "$(dirname "${BASH_SOURCE[0]}")/.." || exit
key=0000000000000000000000000000000000000000000000000000000000000000
./keydir audit --key "$key" < examples/chain.jsonl
