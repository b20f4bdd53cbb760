"""Tests of tools/stack, tools/streams and tools/fronts: what their jobs are, and that they find what wrong programs do."""
import importlib.machinery
import importlib.util
import os
import types

import hostile
import listing

from tools.tests import support
from tools.tests.support import TOOLS, TOP, held, tried


def loaded(name: str) -> types.ModuleType:
    """A tool as a module."""
    loader = importlib.machinery.SourceFileLoader(name, os.path.join(TOOLS, name))
    spec = importlib.util.spec_from_loader(name, loader)
    assert spec
    module = importlib.util.module_from_spec(spec)
    loader.exec_module(module)
    return module


class Hostile(support.ToolCase):
    """The jobs are at the limits, and what goes past one is found."""

    def script(self, lines: str) -> str:
        """A program of the shell."""
        path = os.path.join(self.folder(), "program")
        with open(path, "w", encoding="utf-8") as file:
            file.write(f"#!/bin/sh\nP='{self.program}'\n{lines}\n")
        os.chmod(path, 0o755)
        return path

    def test_jobs(self) -> None:
        jobs = [*hostile.deep_jobs(), *hostile.long_jobs()]
        self.same(len({job.name for job in jobs}), len(jobs), "the names of jobs")
        longest = max(len(job.input) for job in jobs)
        self.same(longest, listing.MOST_INPUT, "the longest input")
        self.same({word for job in jobs for word in job.words[:1]}, {"layout", "edit", "modes", "probe", "gen"}, "the commands")

    def test_depths(self) -> None:
        """Deep jobs are laid out; one level more, or one turn more, is refused."""
        self.needs(self.program, "how deep the jobs of tools/stack are")
        for name, content in hostile.deep_contents():
            page, deeper = hostile.document(content), hostile.document(f"<div>{content}</div>")
            self.hold(self.ran("layout", page.encode()).startswith("page "), f"{name}: it is laid out")
            self.hold(self.ran("layout", deeper.encode()).startswith("refused TooDeep "), f"{name}: it is as deep as it may be")

    def test_stack(self) -> None:
        """The least stack of a program that asks for so much is found, and one that asks for more than the most."""
        stack, job = loaded("stack"), hostile.Job("a job", ("layout",), b"")
        for least, due in ((300, 300), (302, 304), (1024, 1024), (1025, None)):
            program = self.script(f'[ "$(ulimit -s)" -ge {least} ] || kill -SEGV $$')
            self.same(stack.least_stack(program, job), due, f"the stack of a program that takes {least} KiB")
        self.hold(not stack.ends_well(self.script("echo oh >&2"), job, 1024), "what stands on standard error is no good end")
        self.hold(not stack.ends_well(self.script("exit 3"), job, 1024), "want of memory is no good end")
        self.refuses("stack", ("--program", "none"), "")
        self.hold(tried("stack", "--help").out.startswith("usage: "), "stack --help")

    def test_fronts(self) -> None:
        """How a document is refused that breaks off, and what a front of a script gives."""
        fronts = loaded("fronts")
        self.same(fronts.broken_off("<html>\u05d0".encode()[:-1]), b"refused Utf8 6\n", "a front that ends within a character")
        self.same(fronts.broken_off(b"<html>"), b"refused Syntax 6\n", "a front of six bytes")
        self.refuses("fronts", ("--program", "none"), "")
        self.hold(tried("fronts", "--help").out.startswith("usage: "), "fronts --help")
        self.needs(self.program, "what tools/fronts finds")
        job = hostile.Job("a script", ("edit",), b"<html><body><p>a</p></body></html>\nshow\ntext 3 b\nshow\n")
        due, lengths = fronts.run(self.program, job, len(job.input))[1], range(len(job.input) + 1)
        self.same([said for said in (fronts.wrong(self.program, job, due, length) for length in lengths) if said], [], "fronts of a script")
        program = self.script('"$P" "$@" >"$0.out"; status=$?; sed "s/Syntax 1/Syntax 2/; 1!s/end/ending/" "$0.out"; exit $status')
        wrong = [length for length in lengths if fronts.wrong(program, job, due, length)]
        self.hold({12, len(job.input)} <= set(wrong) and 5 not in wrong, f"a program that tells another place, or ends otherwise: {wrong}")

    def test_streams(self) -> None:
        """What a program does otherwise on a stream, or under a limit, is found."""
        streams = loaded("streams")
        self.hold(tried("streams", "--help").out.startswith("usage: "), "streams --help")
        self.refuses("streams", ("--program", "none"), "")
        self.hold(streams.table() in held(os.path.join(TOP, "docs", "TRIED.md")), "the table of tools/streams is that of docs/TRIED.md")
        self.needs(self.program, "what tools/streams finds")
        # What reads and writes by others passes over their faults, and a shell that ignores a signal isn't ended by it.
        self.check_case("the input is a folder", 'cat | "$P" "$@"')
        self.check_case("the output is a full device, `/dev/full`", '"$P" "$@" | cat')
        self.check_case("SIGTERM while it waits for its input", 'trap "" TERM; "$P" "$@"')
        self.check_case("standard error is closed", 'echo oh; "$P" "$@"')

    def check_case(self, name: str, lines: str) -> None:
        """Holds that the program ends as a case says, and that one which runs these lines doesn't."""
        streams, folder = loaded("streams"), self.folder()
        job = streams.JOBS[0]
        usual = streams.end_of(streams.spawned(self.program, job), job.input)
        for case, due in streams.dues_of(job):
            if case.name == name:
                self.hold(due.holds(case.run(self.program, job, folder), usual), f"{name}: the program")
                self.hold(not due.holds(case.run(self.script(lines), job, folder), usual), f"{name}: a program that runs {lines}")
