"""What `launcher.py` and the scripts of bench/ build programs with.

The package has a name of its own, and each script puts the repository first on the path: so no installed package comes
before it. This file checks the version of Python, for all of them. It and launcher.py are in the syntax of Python 3.6.
"""
import sys

# As the kit's `rt`.
OLDEST_PYTHON = (3, 8)
# The exit status of jvmx where a file or a device fails.
FAILED = 3

if sys.version_info < OLDEST_PYTHON:
    found, wanted = (".".join(map(str, version[:2])) for version in (sys.version_info, OLDEST_PYTHON))
    print(f"jvmx: python3 is Python {found}; building jvmx needs Python {wanted} or later", file=sys.stderr)
    sys.exit(FAILED)
