#!/usr/bin/env python3
"""The program over what is large: each size at which a growth, a table or a block could go wrong by itself, once. No clause says
that memory is there; where it is, none of these replies is want of memory, and no search is broken.

  checks/sizes.py

Scripts: roles of 5,001 rows and linked roles over 301 members, a node with 1,100 listeners, a chain of 40,000 roles with its proof,
a vault at its limit of 100,000 in no order, 65 grants and 65 readable vaults, 40 tenants with open searches, 1,000 changes of
another tenant with `sees` between, a private vault of 501 behind a question, searches of 30 to 260 nodes that were ended before
another tenant's, names of 63 and 64 bytes. Then sessions: a role of 1,001 rows by workers, 110,000 lines. And an opening
over 1,000 rows makes as many allocations as one over one row, of as many bytes, for which a C compiler is needed.

Wrong bodies that are refused here: memory lacks, or a search is broken, from a size on or at a long name; an
opening copies the addresses of a vault's rows; a conversation ends after 100,000 lines.

What is wanted comes from tenants.py and rt0.py, a second, plain reading of the protocol; of the chain, whose rounds that reading
would go over for hours, it is written out here. Prints a line for each; the last line is `N passed, M failed`."""
import pathlib
import random
import subprocess
import sys
import tempfile
import time

from cut_input import PROGRAM, ROOT, first_wrong
from peers import Server, Wrong, want
from refused_scripts import Runner

MOST = "100000 1000 64 1000000 1000000000 4294967296"


def roster(names):
    return [*(f"tenant {name} w {MOST}" for name in names), "begin"]


def said(lines):
    return "".join(f"{line}\n" for line in lines).encode("ascii")


def opened(name, number, question):
    """A question, its answer, and its end."""
    return [f"{name}: {question}", f"{name}: wait {number}", f"{name}: end {number}"]


# Scripts that the second reading answers


def role_of_5001_rows():
    return [*roster("A"), *(f"A: put A.r <- E{row}" for row in range(5001)), *opened("A", 1, "who A.r"), *opened("A", 2, "ask A.r E5000")]


def linked_role_over_301_members():
    lines = roster("A")
    for member in range(301):
        lines += [f"A: put A.base <- M{member}"]
    lines += ["A: put A.r <- A.base.s", "A: put A.both <- A.base & A.base", *opened("A", 1, "who A.r"), *opened("A", 2, "who A.both")]
    return lines


def node_with_1100_listeners():
    lines = [*roster("A"), "A: put A.few <- E", "A: put A.few <- D"]
    for role in range(1100):
        lines += [f"A: put A.all <- A.r{role}", f"A: put A.r{role} <- A.few"]
    return [*lines, *opened("A", 1, "who A.all"), "A: who A.all", "A: wait 2", "A: proof 2 E"]


def vault_at_its_limit():
    names = [f"A.r{role} <- E{member}" for role in range(100) for member in range(1000)]
    random.Random(1).shuffle(names)
    lines = [*roster("AB"), *(f"A: put {name}" for name in names), "A: put A.more <- E", "A: grant B"]
    lines += ["B: who A.r7", "B: wait 1", "A: vault", f"A: drop {names[0]}", "A: put A.more <- E", "A: put A.more <- F", "A: revoke B", "A: grant *"]
    return lines


def grants_and_readable_vaults():
    owners = [f"T{place}" for place in range(65)]
    lines = roster([*owners, "R", "S"])
    for owner in owners:
        lines += [f"R: grant {owner}", f"{owner}: grant R", f"{owner}: put {owner}.r <- E{owner}", f"{owner}: sees", f"R: put R.all <- {owner}.r"]
        lines += [f"{owner}: grant S"] if owner in owners[:40] else []
    lines += ["R: sees", "S: sees", *opened("R", 1, "who R.all"), "R: revoke T64", "R: revoke T0", "T0: revoke R", "R: sees", "T64: sees"]
    return [*lines, *opened("R", 2, "who R.all"), *opened("S", 1, "who T39.r")]


def tenants_with_open_searches():
    """40 tenants, each with searches that go on, and each opens another one."""
    names = [f"T{place}" for place in range(40)]
    lines = [*roster(names), *(f"{name}: put {name}.r <- E" for name in names)]
    lines += [f"{name}: who {name}.r" for _ in range(3) for name in names]
    lines += [f"{name}: {command}" for name in names for command in ("poll 3", "wait 2", "poll 1", "end 3", f"ask {name}.r E", "wait 4", "poll 1")]
    return lines


def changes_of_another():
    lines = [*roster("AB"), "A: grant B"]
    for change in range(1001):
        lines += [f"A: {'put' if change % 2 == 0 else 'drop'} A.r <- E{change // 4}", "B: sees", "A: sees"]
    return lines


def private_vault_behind_a_question():
    lines = [*roster("ABC"), *(f"A: put A.r <- E{row}" for row in range(501)), *(f"C: put C.r <- E{row}" for row in range(1001)), "C: grant B"]
    return [*lines, *opened("B", 1, "ask A.r E500"), *opened("B", 2, "who A.r"), *opened("B", 3, "ask C.r E1000"), "A: grant B", *opened("B", 4, "ask A.r E500")]


def searches_ended_before_anothers():
    """Searches of 30 to 260 nodes, each ended before another tenant opens one in the tables that it left."""
    lines = [*roster("AB"), "B: put B.r <- E"]
    for role in range(260):
        lines += [f"A: put A.r{role} <- A.r{role + 1}"]
    for turn, nodes in enumerate(range(30, 261), start=1):
        lines += [*opened("A", turn, f"who A.r{261 - nodes}"), *opened("B", turn, "ask B.r E")]
    return lines


def long_names():
    lines = roster("A")
    for length in (62, 63, 64, 65):
        name = "E" * length
        lines += [f"A: put A.r <- {name}", f"A: put A.{name} <- D", f"A: put A.s <- A.{name}", f"A: put A.t <- A.{name} & A.r & {name}"]
        lines += [f"A: put A.u <- A.r.{name}", f"A: drop A.t <- A.{name} & A.r & {name}"]
    return [*lines, *opened("A", 1, "who A.r"), *opened("A", 2, "who A.s"), "A: vault"]


def intersections_in_a_vault():
    """Credentials of up to 1,706 bytes, which take memory each."""
    lines, name = roster("A"), "p" * 64
    for parts in range(2, 9):
        body = " & ".join([f"A.{name}.{name}"] * parts)
        lines += [f"A: put A.r{parts} <- {body}", f"A: put A.s{parts} <- {body}", f"A: drop A.s{parts} <- {body}"]
    return [*lines, "A: vault"]


# What is written out


def chain_of_40000():
    """A chain of 40,000 roles: its member, the proof of it, and that it has no other."""
    count = 40000
    lines = [*roster("A"), *(f"A: put A.r{role} <- A.r{role + 1}" for role in range(count - 1)), f"A: put A.r{count - 1} <- E"]
    lines += ["A: ask A.r0 E", "A: wait 1", "A: proof 1 E", "A: ask A.r0 D", "A: wait 2", "A: who A.r1", "A: wait 3"]
    proof = ["1 E in E by itself", f"2 E in A.r{count - 1} by A.r{count - 1} <- E from 1"]
    proof += [f"{step} E in A.r{role} by A.r{role} <- A.r{role + 1} from {step - 1}" for step, role in enumerate(range(count - 2, -1, -1), start=3)]
    told = [*(f"ok {change}" for change in range(1, count + 1)), "search 1", "yes", f"proof {count + 1}", *proof, "search 2", "no", "search 3", "members E"]
    ran = subprocess.run([PROGRAM, "script"], input=said(lines), stdout=subprocess.PIPE)
    want((ran.stdout.decode("ascii").splitlines(), ran.returncode), ([f"A: {line}" for line in told], 0), "a chain")


def role_by_workers(rows=1001):
    with Server(f"tenant A w {MOST}\nbegin\n", 1, "--workers", "4") as server, server.peer() as peer:
        lines = ["hello A w", *(f"put A.r <- E{row}" for row in range(rows)), "who A.r", "wait 1", "ask A.r E0", "wait 2"]
        sender = peer.send_beside(said(lines))
        members = " ".join(["members", *sorted(f"E{row}" for row in range(rows))])
        for wanted in ["hello A", *(f"ok {change}" for change in range(1, rows + 1)), "search 1", members, "search 2", "yes"]:
            want(peer.line(), wanted, "a role by workers")
        sender.join()


def lines_in_one_session(count=110_000):
    with Server(f"tenant A w {MOST}\nbegin\n", 1, "--workers", "1") as server, server.peer() as peer:
        sender = peer.send_beside(said(["hello A w", *["sees", " "] * (count // 2), "put A.r <- E", "quit"]))
        for wanted in ["hello A", *["sees A"] * (count // 2), "ok 1", "bye"]:
            want(peer.line(), wanted, f"a session of {count} lines")
        sender.join()


def opening_allocates_alike():
    """How often memory is taken by an opening, and how much, doesn't depend on how many rows there are."""
    with tempfile.TemporaryDirectory() as folder:
        runner = Runner(pathlib.Path(folder))

        def allocations(rows, openings):
            lines = [*roster("AB"), "A: grant B", *(f"A: put A.r <- E{row}" for row in range(rows)), *["B: who B.r", "A: ask A.s E"] * openings]
            want(runner.run(said(lines), 0)[0], 0, "a script")
            return runner.allocations(), runner.bytes_asked_for()

        def taken(rows):
            return tuple(more - fewer for more, fewer in zip(allocations(rows, 9), allocations(rows, 4)))

        want(taken(1)[0] >= 10, True, f"ten openings make allocations, {taken(1)[0]} of them, that are counted")
        want(taken(1000), taken(1), "allocations of ten openings over 1,000 rows and their bytes, in place of those over one")


SCRIPTS = [
    role_of_5001_rows, linked_role_over_301_members, node_with_1100_listeners, vault_at_its_limit, grants_and_readable_vaults,
    tenants_with_open_searches, changes_of_another, private_vault_behind_a_question, searches_ended_before_anothers, long_names,
    intersections_in_a_vault,
]  # fmt: skip
OTHERS = [chain_of_40000, role_by_workers, lines_in_one_session, opening_allocates_alike]


def as_wanted(script):
    """A check that the script of this name is answered as the second reading has it."""

    def check():
        wrong = first_wrong(said(script()))
        if wrong:
            raise Wrong(wrong)

    return script.__name__, check


def main():
    subprocess.run([ROOT / "rtsearch", "--version"], stdout=subprocess.DEVNULL)  # builds the program where it isn't yet
    failed = 0
    checks = [*map(as_wanted, SCRIPTS), *((other.__name__, other) for other in OTHERS)]
    for name, check in checks:
        began = time.monotonic()
        try:
            check()
            print(f"{name.replace('_', ' ')}: as wanted, in {time.monotonic() - began:.1f} seconds", flush=True)
        except (OSError, Wrong) as wrong:
            failed += 1
            print(f"{name.replace('_', ' ')}: otherwise: {str(wrong)[:400]}", flush=True)
    print(f"{len(checks) - failed} passed, {failed} failed")
    return 1 if failed else 0


if __name__ == "__main__":
    sys.exit(main())
