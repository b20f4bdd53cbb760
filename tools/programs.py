"""The programs of the repository that the tools beside this file run.

They lie in crates/NAME/out, where `rt run` leaves them once it has proved the crate and all crates below it.
"""
import dataclasses
import os
import subprocess

import listing

TOP = os.path.dirname(os.path.dirname(os.path.abspath(__file__)))


@dataclasses.dataclass(frozen=True)
class Program:
    """A program: its crate, how long `rt run` proves from nothing, and what can be had before."""

    crate: str
    takes: str
    before: str

    @property
    def path(self) -> str:
        return os.path.join(TOP, "crates", self.crate, "out", self.crate)


LAYOUT = Program(
    "wm_layout",
    "some three processor hours",
    "before that `rt try -- layout < FILE` in crates/wm_layout lays out a document, unproved and in some minutes, and a tool takes"
    " its listing on standard input",
)
NODES = Program("report_nodes", "half a processor hour or more", "without it refusals by a byte or a line are shown all the same")
STYLES = Program(
    "report_styles",
    "a processor hour or so",
    "before that `rt try < FILE` in crates/report_styles tells its lines, unproved and in some minutes",
)
SHEETS = Program("check_css", "a processor hour or so", "--no-sheets goes without sheets")


def missing(path: str, program: Program, option: str) -> str:
    """What is said where a program isn't there."""
    if path != program.path:
        return f"there is no program at {path}, which {option} names"
    return (
        f"there is no program at {os.path.relpath(path)}: `rt run` in crates/{program.crate} proves that crate and those below it,"
        f" which takes {program.takes} from nothing, and leaves it there; {program.before}; {option} names another place of it"
    )


def ran(path: str, program: Program, words: list[str], data: bytes, option: str = "--program") -> tuple[bytes, int]:
    """What a program wrote for an input, and how it ended: with the status 0, or with 2 where something was refused."""
    try:
        ended = subprocess.run([path, *words], input=data, stdout=subprocess.PIPE, check=False)
    except FileNotFoundError:
        raise listing.InputError(missing(path, program, option)) from None
    except (OSError, ValueError) as error:
        raise listing.InputError(f"{path}: {getattr(error, 'strerror', None) or error}") from None
    if ended.returncode not in (0, 2):
        said = f", and wrote {listing.shown(line_of(ended.stdout))}" if ended.stdout else ""
        raise listing.InputError(f"the program ended with the status {ended.returncode} (docs/PROFILE/commands.md){said}")
    return ended.stdout, ended.returncode


def line_of(data: bytes) -> str:
    """The first line of what a program wrote."""
    return data[: 4 * listing.MOST_SHOWN].decode("ascii", "replace").split("\n", 1)[0]
