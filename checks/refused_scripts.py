#!/usr/bin/env python3
"""Runs scripts through the proved program with each of its allocations refused in turn, and compares every line that it
prints. The line that the refusal fell into may be answered by want of memory, or a wait by `broken`, and every other line
then has to be answered as if that line had changed nothing (after `broken`, as of a broken search). Where memory is
refused before the first command, nothing may be printed, and the status is 1.

  checks/refused_scripts.py [--whole] [SCRIPT[=NAME]..]          needs a C compiler, for checks/refuse.c

With a NAME behind the script, a refusal that falls into that tenant's line has to leave every other tenant's reply lines
as they are with ample memory. Without a script: three tenants of whom C must not touch the others, and long replies twice
each. A script that makes more than 400 allocations has that many of them refused, at equal distances; with --whole all.

A wrong body that is refused here: after a long reply for which memory lacked no long reply has any.

What lines are answered is taken from tenants.py and rt0.py, a second, plain reading of the protocol. Prints for each
script how many allocations the program makes and how its runs ended; the last line is `N passed, M failed`, a script
each."""
import copy
import os
import pathlib
import subprocess
import sys
import tempfile
from collections import Counter

from answers import Output
from tenants import Hall, lines_of

ROOT = pathlib.Path(__file__).resolve().parent.parent
PROGRAM = ROOT / "crates/rtsearch/out/rtsearch"
SAMPLE = 400
USUAL = [("cases/another-tenant-in-each-gap.script", "C"), ("cases/long-replies-twice.script", None)]


class Runner:
    """Runs the program with one allocation refused, or none where its number is 0."""

    def __init__(self, folder):
        self.library, self.count, self.bytes = folder / "refuse.so", folder / "count", folder / "bytes"
        subprocess.run(["cc", "-O1", "-shared", "-fPIC", "-o", self.library, ROOT / "checks/refuse.c"], check=True)

    def run(self, script, number):
        env = dict(os.environ, REFUSE=str(number), REFUSE_COUNT=str(self.count), REFUSE_BYTES=str(self.bytes), LD_PRELOAD=str(self.library))
        ran = subprocess.run([PROGRAM, "script"], input=script, stdout=subprocess.PIPE, env=env, timeout=60)
        return ran.returncode, ran.stdout.decode("ascii").splitlines()

    def allocations(self):
        return int(self.count.read_text())

    def bytes_asked_for(self):
        return int(self.bytes.read_text())


class Script:
    """A script's lines behind its roster, and what each is answered with ample memory."""

    def __init__(self, path, apart):
        self.name, self.apart, self.text = path.name, apart, path.read_bytes()
        hall, self.lines = self.begun()
        self.replies = [hall.reply(line) or [] for line in self.lines]

    def begun(self):
        """The hall of the script's roster, and the lines behind it."""
        hall, lines = Hall(), lines_of(self.text)
        while not hall.begun:
            assert hall.enroll(lines.pop(0))
        return hall, lines

    def hall_before(self, place):
        """The hall as the line at that place finds it."""
        hall, lines = self.begun()
        for line in lines[:place]:
            hall.reply(line)
        return hall

    def is_apart(self, place, printed):
        """Whether all other tenants were told what they are told with ample memory, if the line's own has to be apart."""
        if self.apart is None or tenant_of(self.lines[place].decode("ascii")) != self.apart:
            return True
        ample = [reply for replies in self.replies for reply in replies]
        return [line for line in printed if tenant_of(line) != self.apart] == [line for line in ample if tenant_of(line) != self.apart]


def tenant_of(line):
    return line.strip(" ").partition(":")[0]


def told_instead(printed, hall, line):
    """How the line was answered, where it isn't by its own reply: for want of memory, by a broken search, or otherwise."""
    name = tenant_of(line.decode("ascii"))
    if name in hall.tenants and printed == f"{name}: error 90 memory":
        return "lacked"
    return "broken" if printed == f"{name}: broken" and verb(line) == "wait" else None


def verb(line):
    return line.decode("ascii").partition(":")[2].split()[0]


def halls_after(hall, line, how):
    """What the hall may be after a line that was answered so: the line has changed nothing; a search that it waited for
    may have come to its end before its answer was refused."""
    if how == "broken":
        hall.break_off(line)
        return [hall]
    settled = copy.deepcopy(hall)
    if verb(line) == "wait":
        settled.reply(line)
    return [hall, settled]


def ending(script, status, printed):
    """How a run ended: as with ample memory, for want of memory before it began or at one line, broken, or otherwise."""
    if status == 1 and not printed:
        return "before"
    output = Output(printed)
    for place, replies in enumerate(script.replies):
        at = output.at
        if not output.takes(replies, at):
            how = ending_from(script, place, output, at)
            return how if status == 0 and script.is_apart(place, printed) else "otherwise"
    return "ample" if status == 0 and output.is_read() else "otherwise"


def ending_from(script, place, output, at):
    """How a run ended that answers the line at that place, at that line of its output, otherwise than with ample memory."""
    hall, line = script.hall_before(place), script.lines[place]
    how = told_instead(output.next_at(at), hall, line)
    halls = halls_after(hall, line, how) if how else []
    for line in script.lines[place + 1 :]:
        at = output.at
        halls = [hall for hall in halls if output.takes(hall.reply(line) or [], at)]
    return how if halls and output.is_read() else "otherwise"


def sweep(runner, script, most):
    assert ending(script, *runner.run(script.text, 0)) == "ample", script.name
    allocations = runner.allocations()
    refused = range(1, allocations + 1, 1 if most is None else -(-allocations // most))
    endings = Counter()
    for number in refused:
        status, printed = runner.run(script.text, number)
        how = ending(script, status, printed)
        endings[how] += 1
        if how == "otherwise":
            print(f"{script.name}: allocation {number} refused: status {status}", *printed, sep="\n  ")
    print(
        f"{script.name}: {allocations} allocations, {len(refused)} of them refused in turn; {endings['ample']} runs ended as with "
        f"ample memory, {endings['before']} before the first command, {endings['lacked']} with 90 at one line, "
        f"{endings['broken']} with a broken search, {endings['otherwise']} otherwise"
    )
    return not endings["otherwise"]


def main(words):
    most = None if "--whole" in words else SAMPLE
    named = [word.partition("=") for word in words if word != "--whole"]
    scripts = [Script(pathlib.Path(path), name or None) for path, _, name in named] or [Script(ROOT / path, name) for path, name in USUAL]
    subprocess.run([ROOT / "rtsearch", "--version"], stdout=subprocess.DEVNULL)  # builds the program where it isn't yet
    with tempfile.TemporaryDirectory() as folder:
        runner = Runner(pathlib.Path(folder))
        results = [sweep(runner, script, most) for script in scripts]
    print(f"{results.count(True)} passed, {results.count(False)} failed")
    return 0 if all(results) else 1


if __name__ == "__main__":
    sys.exit(main(sys.argv[1:]))
