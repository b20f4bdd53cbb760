"""Finds libraries that Debian packages, for the tools beside this file that need one.

Debian's packages belong to Debian's interpreter, which needn't be the one that is found first.
"""
import importlib.util
import os
import subprocess
import sys
from collections.abc import Iterable

import listing

DEBIAN_PYTHON = "/usr/bin/python3"
# Set once a tool was started anew, so that it isn't twice.
AGAIN = "TOOLS_BY_DEBIAN_PYTHON"
# What is asked of it.
QUESTION = """\
import importlib.util, sys
sys.exit(sys.version_info < (3, 10) or not any(map(importlib.util.find_spec, sys.argv[1:])))
"""
# The module of each library, and its package in Debian.
PACKAGES = {
    "fontTools": "python3-fonttools",
    "html5lib": "python3-html5lib",
    "jsonschema": "python3-jsonschema",
    "tinycss2": "python3-tinycss2",
}


def missing(needed: Iterable[str]) -> list[str]:
    """Those libraries that this interpreter doesn't find."""
    return [name for name in needed if importlib.util.find_spec(name) is None]


def finds_more(lacking: list[str]) -> bool:
    """Whether Debian's interpreter finds one of these libraries, and is one that runs the tools."""
    try:
        return subprocess.run([DEBIAN_PYTHON, "-c", QUESTION, *lacking], capture_output=True, check=False).returncode == 0
    except OSError:
        return False


def look_for(needed: Iterable[str]) -> list[str]:
    """Starts the tool anew by Debian's interpreter where a library is missing, and says which are missing there too."""
    lacking = missing(needed)
    if lacking and AGAIN not in os.environ and finds_more(lacking):
        os.environ[AGAIN] = "1"
        os.execv(DEBIAN_PYTHON, [DEBIAN_PYTHON, *sys.argv])
    return lacking


def find_packages(needed: Iterable[str]) -> None:
    """Goes on where the libraries are, or ends the tool with a line that says how to get them."""
    lacking = look_for(needed)
    if lacking:
        packages = " ".join(PACKAGES[name] for name in lacking)
        raise listing.InputError(f"there is no {' and no '.join(lacking)}: on Debian, apt-get install {packages}")
