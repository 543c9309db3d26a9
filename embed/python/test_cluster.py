#!/usr/bin/env python3
"""Runs the tests of coniks.postgres and coniks.replica over a private PostgreSQL and the program `provider`.

    embed/python/test_cluster.py [OPTION ..]        pytest embed/python/tests/cluster, with its options
    embed/python/test_cluster.py --faults N         another number of faults
    embed/python/test_cluster.py --speed [PROVIDER]     prints lookups of one replica and of three, how long a takeover takes, and
                                                        lookups while PostgreSQL is stopped

It needs PostgreSQL, psycopg and pytest.
"""

from __future__ import annotations

import sys

from run_tests import measure, run

if __name__ == "__main__":
    words = sys.argv[1:]
    sys.exit(measure("cluster/cluster_speed.py", words[1:]) if words[:1] == ["--speed"] else run("cluster", words))
