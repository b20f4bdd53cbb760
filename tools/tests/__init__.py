"""Tests of the tools. From the top of the repository `python3 -m unittest tools.tests.test_listing` runs those of one file,
and `tools/check-tools` all of them.
"""
import os
import sys

sys.dont_write_bytecode = True
# The tools name each other's modules as they lie beside them.
TOOLS = os.path.dirname(os.path.dirname(os.path.abspath(__file__)))
if TOOLS not in sys.path:
    sys.path.insert(0, TOOLS)
