#!/usr/bin/python3
"""Signs and makes VRF proofs for `serve --signer SOCKET --prover SOCKET`, by keys in files. docs/LINES.md ("Keys in other processes")
defines the lines. Replace the two functions by calls of your HSM.

    signer.py SOCKET SIGNING_KEY VRF_KEY
"""

import json
import os
import socketserver
import sys
from pathlib import Path

sys.path[:0] = [
    str(Path(__file__).resolve().parents[2] / "provider"),
    str(Path(__file__).resolve().parents[3] / "embed/python/src"),
]

import ecvrf
from nacl.signing import SigningKey

LONGEST = 2048


def sign(body: bytes) -> bytes:
    """Signs bodies of a directory alone, and nothing else by its key."""
    if len(body) != 145:
        raise ValueError("a body has 145 bytes")
    return bytes(signing.sign(body).signature)


def prove(name: str) -> bytes:
    return ecvrf.prove(vrf, name.encode())


def reply_to(line: bytes) -> dict[str, str]:
    it = json.loads(line)
    if it["cmd"] == "signing-key":
        return {"key": bytes(signing.verify_key).hex()}
    if it["cmd"] == "sign":
        return {"signature": sign(bytes.fromhex(it["body"])).hex()}
    if it["cmd"] == "vrf-key":
        return {"key": ecvrf.public_key(vrf).hex()}
    if it["cmd"] == "prove":
        return {"proof": prove(it["name"]).hex()}
    raise ValueError("the command is unknown")


class Handler(socketserver.StreamRequestHandler):
    """A connection, on which requests and replies take turns."""

    def handle(self) -> None:
        while (line := self.rfile.readline(LONGEST)).endswith(b"\n"):
            try:
                reply = reply_to(line)
            except Exception as error:
                reply = {"error": type(error).__name__}
            self.wfile.write(json.dumps(reply).encode() + b"\n")


class Server(socketserver.ThreadingUnixStreamServer):
    daemon_threads, request_queue_size = True, 64


if __name__ == "__main__":
    place, *files = map(Path, sys.argv[1:])
    signing, vrf = SigningKey(files[0].read_bytes()), files[1].read_bytes()
    place.unlink(missing_ok=True)
    os.umask(0o077)
    with Server(str(place), Handler) as server:
        server.serve_forever()
