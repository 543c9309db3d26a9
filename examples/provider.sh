#!/usr/bin/env bash
# Two epochs of a directory whose indices and signatures come from outside. Its lookups are checked.
set -u
cd "$(dirname "${BASH_SOURCE[0]}")/.." || exit
run=$(./provider < examples/provider.jsonl)
echo "provider:"
cat <<< "$run"
echo "check:"
grep '"ok":"lookup"' <<< "$run" | ./keydir check
