#!/usr/bin/env python3
"""Runs the program on the stored run's input and on each example, cut after each of its bytes, and compares what it prints
and its status with what the protocol wants of such a script. What that is comes from tenants.py and rt0.py, a second, plain
reading of the protocol, and never from the program.

  checks/cut_input.py [SCRIPT..]          these scripts in place of the stored ones

Prints a line for each script; the last line is `N passed, M failed`, a script each."""
import pathlib
import subprocess
import sys

from answers import Output
from tenants import Hall, lines_of

ROOT = pathlib.Path(__file__).resolve().parent.parent
PROGRAM = ROOT / "crates/rtsearch/out/rtsearch"
STORED = ROOT / "crates/rtsearch/stdin"


def wanted(script):
    """The status and the replies of a script."""
    hall, lines = Hall(), lines_of(script)
    while not hall.begun:
        if not lines or not hall.enroll(lines.pop(0)):
            return 1, ["?: error 63 roster"]
    return 0, [reply for line in lines for reply in hall.reply(line) or []]


def first_wrong(script):
    """What the program does otherwise on this script, or None."""
    ran = subprocess.run([PROGRAM, "script"], input=script, stdout=subprocess.PIPE, stderr=subprocess.DEVNULL)
    status, replies = wanted(script)
    if ran.returncode != status:
        return f"status {ran.returncode} in place of {status}"
    output = Output(ran.stdout.decode("ascii").splitlines())
    return output.first_wrong(replies) or (None if output.is_read() else f"{output.next()!r} follows")


def is_right(path):
    script = path.read_bytes()
    faults = [(cut, wrong) for cut in range(len(script) + 1) if (wrong := first_wrong(script[:cut]))]
    print(f"{path.name}: cut after each of {len(script)} bytes: {len(script) + 1 - len(faults)} as wanted, {len(faults)} otherwise")
    for cut, wrong in faults[:20]:
        print(f"  after {cut} bytes: {wrong}")
    return not faults


def main(paths):
    subprocess.run([ROOT / "rtsearch", "--version"], stdout=subprocess.DEVNULL)  # builds the program where it isn't yet
    results = [is_right(path) for path in paths or [STORED, *sorted((ROOT / "examples").glob("*.script"))]]
    print(f"{results.count(True)} passed, {results.count(False)} failed")
    return 0 if all(results) else 1


if __name__ == "__main__":
    sys.exit(main([pathlib.Path(path) for path in sys.argv[1:]]))
