#!/usr/bin/env python3
"""Runs scripts through the proved program until no memory is left, and holds against it that what was granted can be taken
back all the same: no `revoke NAME` and no `revoke *` of a grant that stands is answered by 90, and no `drop` of a credential
whose vault no open search holds.

  checks/memory_used_up.py                               needs a C compiler, for checks/refuse.c

- From each allocation of a script on, each one is refused: the first and all behind it, the second and all behind it, and
  so on. One script has every kind of grant, and one a vault whose credentials come in no order and go. Where the program doesn't get as far as its first command it prints nothing, and its status is 1. Of every other
  line either the reply is the one that it has with ample memory, after what was accepted before it, or it is 90, and the
  line has changed nothing.
- Under a cap on the program's address space other tenants open searches until each of them is refused one, and put
  credentials until those are refused too. Then a tenant takes back what it granted. Once searches were ended, the others
  are told that they don't read its vault any more.

What lines are answered is taken from tenants.py, a second, plain reading of the protocol. Prints a line for each of the
three, and last `N passed, M failed`."""
import os
import pathlib
import resource
import subprocess
import sys
import tempfile

from answers import Output
from tenants import Hall, lines_of

ROOT = pathlib.Path(__file__).resolve().parent.parent
PROGRAM = ROOT / "crates/rtsearch/out/rtsearch"
MEGABYTE = 1_000_000
SHORT = """tenant A a
tenant B b
begin
A: put A.r <- B
A: put A.r <- C.s
A: put A.r <- A.s & C.s
A: grant B
A: grant C
A: grant *
B: put B.r <- A.r
B: grant A
B: ask A.r B
B: wait 1
B: put B.r <- A.s
A: revoke B
B: end 1
A: drop A.r <- B
A: revoke *
B: revoke A
A: sees
B: sees
A: drop A.r <- C.s
B: drop B.r <- A.r
A: revoke C
B: vault
"""
UNORDERED = "\n".join(
    ["tenant A a", "begin", *(f"A: put A.r <- N{place * 37 % 101}" for place in range(101))]
    + [f"A: drop A.r <- N{place * 23 % 101}" for place in range(101)]
    + ["A: vault", ""]
)


class Wrong(Exception):
    pass


def may_lack(line, searches):
    """Whether memory may lack for a line that isn't refused: for no revocation, and for a withdrawal only where an open search
    may hold the vault, or the credential has parts that are read into memory."""
    verb = line.partition(":")[2].split()[0]
    return verb != "revoke" and (verb != "drop" or searches or "&" in line)


def compare(text, printed):
    """Holds each reply against the protocol, where 90 stands for a line that changed nothing; how many were 90."""
    hall, lines, output, lacked = Hall(), lines_of(text), Output(printed), 0
    while not hall.begun:
        hall.enroll(lines.pop(0))
    for line in lines:
        said = line.decode("ascii")
        name = said.partition(":")[0]
        searches = any(tenant.unended for tenant in hall.tenants.values())
        if output.peek() == f"{name}: error 90 memory":
            if not may_lack(said, searches):
                raise Wrong(f"{said!r} was refused for memory")
            lacked += 1
            output.next()
            if said.split()[1] == "wait":
                hall.reply(line)
            continue
        if output.peek() == f"{name}: broken":
            hall.break_off(line)
        wrong = output.first_wrong(hall.reply(line) or [])
        if wrong:
            raise Wrong(f"{said!r}: {wrong}")
    if not output.is_read():
        raise Wrong(f"more was printed: {output.peek()!r}")
    return lacked


def refuse_onwards(folder, text):
    """Refuses each allocation of the script from one on, for each one."""
    library, count = folder / "refuse.so", folder / "count"
    subprocess.run(["cc", "-O1", "-shared", "-fPIC", "-o", library, ROOT / "checks/refuse.c"], check=True)
    text = text.encode("ascii")

    def run(number):
        env = dict(os.environ, REFUSE=str(number), REFUSE_ON="1", REFUSE_COUNT=str(count), LD_PRELOAD=str(library))
        ran = subprocess.run([PROGRAM, "script"], input=text, stdout=subprocess.PIPE, env=env, timeout=60)
        return ran.returncode, ran.stdout.decode("ascii").splitlines()

    status, printed = run(0)
    if status != 0 or compare(text, printed) != 0:
        raise Wrong("with ample memory a line was refused for it")
    allocations, silent, lacked = int(count.read_text()), 0, 0
    for number in range(1, allocations + 1):
        status, printed = run(number)
        if status == 1 and not printed:
            silent += 1
            continue
        if status != 0:
            raise Wrong(f"from allocation {number} on refused: status {status}")
        try:
            lacked += compare(text, printed)
        except Wrong as wrong:
            raise Wrong(f"from allocation {number} on refused: {wrong}") from None
    return (
        f"{allocations} allocations, each refused with all behind it: {silent} runs ended before the first command, in the "
        f"others {lacked} lines were answered by 90, and none that takes back was"
    )


def crowded_script(others):
    """A tenant that grants, others who take all memory, and the tenant that takes back."""
    limits = "100000 1000 64 1000000 1000000 1000000"
    lines = ["tenant A a", *(f"tenant Other{i} o {limits}" for i in range(others)), "begin"]
    lines += ["A: put A.r <- B", "A: grant Other0", "A: grant Other1", "A: grant *", "A: put A.r <- C"]
    lines += [f"Other{i}: ask Other{i}.r A" for _search in range(64) for i in range(others)]
    lines += [f"Other{i}: put Other{i}.r <- N{n}" for n in range(200) for i in range(others)]
    taken = ["A: revoke Other1", "A: revoke *", "A: revoke Other0"]
    lines += taken
    lines += [f"Other{i}: end {n}" for i in range(others) for n in range(1, 17)]
    lines += ["A: drop A.r <- C", "Other0: sees", "Other1: sees", "Other0: ask A.r B"]
    lines += ["A: grant Other1", "Other1: sees"]
    return "\n".join(lines) + "\n", taken


def run_under_cap():
    """Runs the crowded script under a cap that it goes beyond."""
    others = 40
    script, taken = crowded_script(others)
    text = script.encode("ascii")

    def cap():
        resource.setrlimit(resource.RLIMIT_AS, (16 * MEGABYTE, 16 * MEGABYTE))

    ran = subprocess.run([PROGRAM, "script"], input=text, stdout=subprocess.PIPE, preexec_fn=cap, timeout=60)
    printed = ran.stdout.decode("ascii").splitlines()
    if ran.returncode != 0:
        raise Wrong(f"status {ran.returncode}, {len(printed)} lines")
    lacked = compare(text, printed)
    before = printed[: next(i for i, line in enumerate(printed) if line.startswith("A: ok 6"))]
    if not before[-1].endswith("error 90 memory"):
        raise Wrong(f"memory isn't used up as the first grant is taken back: {before[-1]!r}")
    return f"under a cap of 16 MB {lacked} lines of {others} tenants were answered by 90, and none of the {len(taken)} revocations"


def main():
    subprocess.run([ROOT / "rtsearch", "--version"], stdout=subprocess.DEVNULL)  # builds the program where it isn't yet
    passed = failed = 0
    with tempfile.TemporaryDirectory() as folder:
        place = pathlib.Path(folder)
        for part in (lambda: refuse_onwards(place, SHORT), lambda: refuse_onwards(place, UNORDERED), run_under_cap):
            try:
                print(part())
                passed += 1
            except Wrong as wrong:
                print(wrong)
                failed += 1
    print(f"{passed} passed, {failed} failed")
    return 0 if not failed else 1


if __name__ == "__main__":
    sys.exit(main())
