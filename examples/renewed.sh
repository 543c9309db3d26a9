#!/usr/bin/env bash
# Brings a new nonce at epoch 2, has the chain audited, and the proofs of a name before and after checked.
set -u
cd "$(dirname "${BASH_SOURCE[0]}")/.." || exit
key=0000000000000000000000000000000000000000000000000000000000000000
./keydir run < examples/renewed.jsonl
./keydir run < examples/renewed.jsonl | grep '"ok":"batch"' | ./keydir audit --key "$key"
./keydir run < examples/renewed.jsonl | grep '"ok":"lookup"' | ./keydir check
