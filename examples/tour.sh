#!/usr/bin/env bash
# Three epochs of a directory. Its lookups are checked, its entries are audited, and a name is watched for a client, whose key
# the third epoch changes.
set -u
cd "$(dirname "${BASH_SOURCE[0]}")/.." || exit
key=0000000000000000000000000000000000000000000000000000000000000000
run=$(./keydir run < examples/tour.jsonl)
echo "run:"
cat <<< "$run"
echo "check:"
grep '"ok":"lookup"' <<< "$run" | ./keydir check
echo "audit:"
grep '"ok":"batch"' <<< "$run" | ./keydir audit --key "$key"
echo "monitor:"
grep '"name":"alice".*"ok":"lookup"' <<< "$run" | ./keydir monitor --key "$key" --name alice --expect YWxpY2UtMQ== || echo "status $?"
