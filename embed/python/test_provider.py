#!/usr/bin/env python3
"""Runs the tests of coniks.provider over the program `provider`, and those of coniks.guard and coniks.policy.

    embed/python/test_provider.py [OPTION ..]       pytest embed/python/tests/provider, with its options
    embed/python/test_provider.py --kills N --honest N      other numbers of kills and of honest runs
    embed/python/test_provider.py --speed [PROVIDER]    prints how long 20,000 lookups and a replay of 100,000 names take

It needs pytest.
"""

from __future__ import annotations

import sys

from run_tests import measure, run

if __name__ == "__main__":
    words = sys.argv[1:]
    sys.exit(measure("provider/lookup_speed.py", words[1:]) if words[:1] == ["--speed"] else run("provider", words))
