"""The build backend of setuptools, or an error that names what is missing."""

import importlib.util
import sys
from pathlib import Path

# A build leaves nothing in the checkout, and the import of this file has left its bytecode.
CACHED = Path(importlib.util.cache_from_source(__file__))
CACHED.unlink(missing_ok=True)
if CACHED.parent.is_dir() and not any(CACHED.parent.iterdir()):
    CACHED.parent.rmdir()

try:
    from setuptools.build_meta import *  # type: ignore[import]  # noqa: F403
except ImportError:
    sys.exit("the package setuptools is missing: install it with wheel (pip install setuptools wheel)")
