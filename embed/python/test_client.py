#!/usr/bin/env python3
"""Runs the tests of coniks.client: the cases of cases/client, random alterations and walks beside the second implementation, what
hostile callers do, calls that are interrupted, and the messages of coniks.provider over the program `provider`.

    embed/python/test_client.py [OPTION ..]      pytest embed/python/tests/client, with its options
    embed/python/test_client.py --hypothesis-profile=long    20,000 alterations and 5,000 walks

It needs PyNaCl, libconiks.so, pytest and hypothesis.
"""

from __future__ import annotations

import sys

from run_tests import run

if __name__ == "__main__":
    sys.exit(run("client", sys.argv[1:]))
