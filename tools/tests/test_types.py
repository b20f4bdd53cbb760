"""Tests of the types that the tools' functions say, by mypy (Debian's package mypy)."""
import os
import shutil
import subprocess

from tools.tests import support
from tools.tests.support import TOOLS, TOP

# The name of `json` is that of a module of Python, so it is read by itself.
ALONE = "json"


class Types(support.ToolCase):
    """Each function says its types, and they agree."""

    def test_types(self) -> None:
        if shutil.which("mypy") is None:
            self.skipTest("types: there is no package mypy")
        names = [name for name in sorted(os.listdir(TOOLS)) if is_python(name)]
        self.hold(len(names) > 40, f"the scripts and modules of tools/: {names}")
        together = [os.path.join("tools", name) for name in names if name != ALONE]
        for words in (["--scripts-are-modules", *together], ["-p", "tools.tests"], [os.path.join("tools", ALONE)]):
            self.check_types(words)

    def check_types(self, words: list[str]) -> None:
        command = ["mypy", "--config-file", os.path.join("tools", "mypy.ini"), "--cache-dir", os.devnull, *words]
        ran = subprocess.run(command, cwd=TOP, stdout=subprocess.PIPE, stderr=subprocess.STDOUT, check=False)
        self.same(ran.returncode, 0, f"mypy of {words[-1]}: {ran.stdout.decode('utf-8', 'replace')}")


def is_python(name: str) -> bool:
    """Whether a file of tools/ is a module or a script of Python."""
    path = os.path.join(TOOLS, name)
    if not os.path.isfile(path):
        return False
    with open(path, "rb") as file:
        return name.endswith(".py") or file.readline().rstrip() == b"#!/usr/bin/env python3"
