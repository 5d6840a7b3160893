#!/usr/bin/env python3
"""Runs the proved program as a server, `rtsearch serve`, with each of its allocations refused in turn, and compares every
line that its sessions are answered: once with one worker and one session, for one connection; once with two of each, for
two connections whose tenants take turns. The refused allocation is the first alone, the second alone, and so on until a
run makes fewer. Threads come to their allocations in another order each time, so another run may refuse others. Without
--whole every third allocation is refused.

  checks/refused_sessions.py [--whole] [ROUNDS]          once, or so often; needs a C compiler, for checks/refuse.c

Each run has to end by itself, within a minute. One allocation is refused in it, so at most one of these may come of that:

- Nothing was served: nothing is printed, or the line that tells where the service listens, and no session has a reply. The
  status is 1.
- One session is closed before its first reply, since there was no memory for a line and a reply. None of its commands was
  carried out. The status is 0.
- One line is answered `error 90 memory`, and has changed nothing; but a search that it waited for may have come to its
  end. (After a refused `hello` the peer says it again.) The status is 0.
- One search is broken, since memory was refused to a letter that was handed in: its waits and polls say `broken`. Every
  other search is answered as ever, and the status is 0.
- A worker ended, since memory was refused to a letter that it was to take, or to it as it began: the status is 1, and no
  `served` line comes. Where it was the only one, or the other one couldn't be started, the service ends: a `wait` for a
  search that hasn't come to its end says `working`, and from some time on no session has a reply any more. Where there is
  another, all searches are answered as ever.

After each of them every other line has to be answered as it follows from that: where `ask` was refused the next search has
its number, and a proof of a search that is broken is refused as 52. A `poll` may always say `working` where nobody has
waited for the search. What a line is answered is taken from tenants.py and rt0.py, a second, plain reading of the protocol;
of a proof any is taken that is one. Prints how many allocations were refused, and how the runs ended; the last line is
`N passed, M failed`, a sweep each."""
import contextlib
import copy
import os
import pathlib
import select
import socket
import subprocess
import sys
import tempfile
from collections import Counter

import rt0
from peers import ROOT
from rt0 import Refused
from tenants import Hall, Proof, refusal

PROGRAM = ROOT / "crates/rtsearch/out/rtsearch"
PATIENCE = 60  # seconds, after which a reply or the program's end has come too late
MEMORY = ["error 90 memory"]

ALONE = """tenant A a
tenant B b
begin
"""
ALONE_SAYS = [
    ("A", line)
    for line in [
        "hello A a", "put A.r <- A.s", "put A.s <- D", "put A.s <- E", "put A.b <- F", "put F.t <- D", "put A.l <- A.b.t",
        "put A.m <- A.r & A.s", "put A.s <- D", "grant B", "grant B", "revoke B", "grant *", "sees", "revoke *", "ask A.r D", "wait 1", "poll 1",
        "proof 1 D", "proof 1 F", "who A.m", "wait 2", "proof 2 E", "drop A.s <- E", "vault", "who A.m", "ask A.l D", "wait 4",
        "wait 3", "poll 2", "end 2", "wait 2", "ask A.r E", "wait 5", "proof 5 E", "end 1", "vault", "quit",
    ]
]  # fmt: skip

PAIR = """tenant A a
tenant B b
begin
"""
PAIR_SAYS = [
    ("A", "hello A a"), ("B", "hello B b"), ("A", "put A.r <- B.s"), ("B", "put B.s <- D"), ("A", "ask A.r D"), ("B", "grant A"),
    ("A", "ask A.r D"), ("A", "sees"), ("B", "put B.s <- B.s.t"), ("B", "put B.u <- B.s & B.s"), ("B", "who B.u"), ("A", "wait 1"),
    ("B", "wait 1"), ("A", "wait 2"), ("A", "proof 2 D"), ("B", "revoke A"), ("B", "grant *"), ("A", "sees"), ("A", "who A.r"), ("B", "proof 1 D"), ("B", "vault"),
    ("A", "wait 3"), ("A", "poll 2"), ("B", "drop B.s <- D"), ("B", "who B.s"), ("A", "end 1"), ("B", "wait 2"), ("A", "vault"),
    ("A", "quit"), ("B", "end 2"), ("B", "sees"), ("B", "quit"),
]  # fmt: skip


# running


class Peer:
    """One connection, whose replies are told as lists of lines, or as None once it is closed."""

    def __init__(self, port):
        self.socket = self.lines = None
        try:
            self.socket = socket.create_connection(("127.0.0.1", port), PATIENCE)
            self.lines = self.socket.makefile("rb")
        except ConnectionError:
            pass

    def ask(self, line):
        if self.lines is None:
            return None
        try:
            self.socket.sendall(line.encode("ascii") + b"\n")
            first = self.line()
            word, _, count = first.partition(" ")
            return [first, *[self.line() for _ in range(int(count) if word in ("vault", "proof") else 0)]]
        except ConnectionError:
            self.close()
            return None

    def line(self):
        line = self.lines.readline().decode("ascii")
        if not line.endswith("\n"):
            raise ConnectionError
        return line[:-1]

    def close(self):
        if self.lines is not None:
            self.lines.close()
            self.socket.close()
            self.lines = None


class Runner:
    """Runs the program with one allocation refused, or none where its number is 0."""

    def __init__(self, folder, roster, says, threads):
        self.library, self.count = folder / "refuse.so", folder / "count"
        self.roster, self.says, self.threads = roster, says, threads
        subprocess.run(["cc", "-O1", "-shared", "-fPIC", "-o", self.library, ROOT / "checks/refuse.c"], check=True)

    def run(self, number):
        """The status, what was printed, and each line that was said with its reply; None where it didn't end."""
        env = dict(os.environ, REFUSE=str(number), REFUSE_COUNT=str(self.count), LD_PRELOAD=str(self.library))
        peers = len({name for name, _ in self.says})
        words = ["serve", "--workers", str(self.threads), "--sessions", str(self.threads), "--accept", str(peers)]
        with subprocess.Popen([PROGRAM, *words], stdin=subprocess.PIPE, stdout=subprocess.PIPE, env=env) as process:
            try:
                with contextlib.suppress(BrokenPipeError):  # it may have ended before it read
                    process.stdin.write(self.roster.encode("ascii"))
                    process.stdin.close()
                first = first_line(process.stdout)
                said = self.talk(first) if first else []
                rest = process.stdout.read().decode("ascii") if process.wait(PATIENCE) is not None else ""
                return process.returncode, first + rest, said
            except (TimeoutError, subprocess.TimeoutExpired):
                return None
            finally:
                process.kill()

    def talk(self, first):
        """Says each line once the one before it is answered. A `hello` that is refused for memory is said again."""
        port = int(first.rpartition(":")[2])
        peers = {name: Peer(port) for name in dict(self.says)}
        said = []
        for name, line in self.says:
            said.append((name, line, peers[name].ask(line)))
            if line.startswith("hello") and said[-1][2] == MEMORY:
                said.append((name, line, peers[name].ask(line)))
        for peer in peers.values():
            peer.close()
        return said

    def allocations(self):
        return int(self.count.read_text())


def first_line(stream):
    """The first line that the program prints, or nothing where it ends before."""
    if not select.select([stream], [], [], PATIENCE)[0]:
        raise TimeoutError
    return stream.readline().decode("ascii")


# judging


def told(hall, name, line):
    """What the tenant's line is answered by this hall, and what it does to it."""
    if line.startswith("hello") or line == "quit":
        return [f"hello {name}" if line != "quit" else "bye"]
    try:
        return hall.command(hall.tenants[name], line)
    except Refused as refused:
        return [refusal(refused.number)]


def search_of(hall, name, line):
    """The search of the number in the line, where the tenant has one that isn't ended."""
    return hall.tenants[name].unended.get(int(line.split()[1]))


def is_told(expected, reply):
    """Whether the reply is what was expected, where any proof will do."""
    if isinstance(expected[0], Proof):
        proof = expected[0]
        return reply[0] == f"proof {len(reply) - 1}" and rt0.is_proof(reply[1:], proof.who, proof.role, proof.credentials)
    return reply == expected


class Judge:
    """Takes a run's replies one after another, over all that the hall may be after them, and keeps what came of the refusal."""

    def __init__(self, roster):
        hall = Hall()
        for line in roster.encode("ascii").splitlines():
            assert hall.enroll(line)
        self.halls = [hall]
        self.events = Counter()  # how often a line was answered by 90, a search by `broken`, and by `working`
        self.closed = set()
        self.is_over = False  # whether a session was ended behind its first reply, as by a service that ends

    def takes(self, name, line, reply):
        """Whether this may be the reply to the line."""
        if reply is None:
            return self.takes_none(name, line)
        if self.is_over:
            return False
        if line.startswith(("poll", "proof")):
            self.halls += self.settled(name, line)  # the workers may have come to its end meanwhile
        before = copy.deepcopy(self.halls)
        self.halls = [hall for hall in self.halls if is_told(told(hall, name, line), reply)]
        if self.halls:
            return True
        self.halls = before
        if reply == MEMORY:
            return self.takes_memory(name, line)
        return line.startswith(("wait", "poll")) and reply in (["broken"], ["working"]) and self.takes_unanswered(name, line, reply[0])

    def takes_none(self, name, line):
        """A session is closed before its first reply, and stays so; or the service ends, and nobody has a reply any more."""
        if name not in self.closed:
            if line.startswith("hello"):
                self.closed.add(name)
            else:
                self.is_over = True
        return True

    def takes_memory(self, name, line):
        if line.startswith("wait"):
            self.halls += self.settled(name, line)
        self.events["lacked"] += 1
        return line != "quit"

    def settled(self, name, line):
        """The same halls, where the search of the line's number has come to its end."""
        halls = copy.deepcopy(self.halls)
        for search in filter(None, (search_of(hall, name, line) for hall in halls)):
            search.settle()
        return halls

    def takes_unanswered(self, name, line, reply):
        """The search that the line is about is broken, or nobody goes on with it, since the service ends."""
        for hall in self.halls:
            search = search_of(hall, name, line)
            if search is None or search.waited or search.broken:
                return False
            search.broken = reply == "broken"
        self.events[reply] += 1
        return True

    def ending(self, status, printed, accept):
        """How the run ended, or `otherwise`."""
        listens, _, rest = printed.partition("\n")
        if status == 1 and rest or status == 0 and rest != f"served {accept}\n" or status not in (0, 1):
            return "otherwise"
        seen = {**self.events, **({"closed": len(self.closed)} if self.closed else {})}
        if status == 0:
            is_right = not self.is_over and seen in ({}, {"lacked": 1}, {"broken": 1}, {"closed": 1})
            return next(iter(seen), "ample") if is_right else "otherwise"
        if seen == {"closed": accept}:
            return "before"
        if self.is_over or self.events["working"]:
            return "over" if set(seen) <= {"working", "closed"} else "otherwise"
        return "unseen" if not seen else "otherwise"


def ending(runner, ran):
    """How a run ended, and what was wrong with it."""
    if ran is None:
        return "otherwise", "it did not end"
    status, printed, said = ran
    accept = len({name for name, _ in runner.says})
    if not printed:
        return ("before", "") if status == 1 else ("otherwise", f"status {status}")
    if not printed.startswith("listening 127.0.0.1:"):
        return "otherwise", f"printed {printed!r}"
    judge = Judge(runner.roster)
    for name, line, reply in said:
        if not judge.takes(name, line, reply):
            return "otherwise", f"{name}: {line}: {reply!r}, after {dict(judge.events)}"
    return judge.ending(status, printed, accept), f"status {status}, printed {printed!r}, {dict(judge.events)}, closed {judge.closed}"


ENDINGS = {
    "ample": "as with ample memory",
    "before": "before any session",
    "closed": "with a session that was closed before its first reply",
    "lacked": "with 90 at one line",
    "broken": "with a broken search",
    "over": "with sessions that ended as the service did",
    "unseen": "with status 1 alone, a worker having ended after all was answered or beside another",
    "otherwise": "otherwise",
}


def sweep(runner, apart):
    how, why = ending(runner, runner.run(0))
    assert how == "ample", why
    endings, number, ample = Counter(), 1, runner.allocations()
    while number <= max(ample, runner.allocations()):
        how, why = ending(runner, runner.run(number))
        endings[how] += 1
        if how == "otherwise":
            print(f"allocation {number} refused: {why}")
        number += apart
    print(f"{runner.threads} workers and sessions: {sum(endings.values())} allocations refused in turn; runs ended", end=" ")
    print(", ".join(f"{endings[how]} {text}" for how, text in ENDINGS.items()))
    return not endings["otherwise"]


def main(words):
    apart = 1 if "--whole" in words else 3
    rounds = next((int(word) for word in words if word != "--whole"), 1)
    subprocess.run([ROOT / "rtsearch", "--version"], stdout=subprocess.DEVNULL)  # builds the program where it isn't yet
    results = []
    with tempfile.TemporaryDirectory() as folder:
        for _ in range(rounds):
            results.append(sweep(Runner(pathlib.Path(folder), ALONE, ALONE_SAYS, 1), apart))
            results.append(sweep(Runner(pathlib.Path(folder), PAIR, PAIR_SAYS, 2), apart))
    print(f"{results.count(True)} passed, {results.count(False)} failed")
    return 0 if all(results) else 1


if __name__ == "__main__":
    sys.exit(main(sys.argv[1:]))
