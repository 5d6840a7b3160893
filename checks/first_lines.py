#!/usr/bin/env python3
"""What sessions of the proved program, `rtsearch serve`, leave as it was, and how the program begins. Over TCP, in a few seconds.

  checks/first_lines.py

- Before a good hello each command is refused, and so are a wrong hello and what is no command. None of them changes anything:
  the first change after it is the first, the first search has the number 1, and no vault was put, granted or opened to all.
- A line that is too long, or not ASCII, ends no search and changes nothing.
- A peer that resets within a line, then another, then a third: each is a connection, and the third is answered.
- Members come in the order of their names, whatever the order in which they were put.
- A service on a port that is taken ends with status 1, and says nothing but what its roster is due.
- Its listener is at 127.0.0.1, and at no other address of this machine.

Wrong bodies that are refused here: the members that a session waits for come backwards; the service listens
at all addresses.

It prints a line for each, and last `N passed, M failed`; the status is 1 where one failed. It is part of ./check."""
import pathlib
import random
import socket
import struct
import subprocess
import sys

from peers import PATIENCE, ROOT, Server, Wrong, want

PROGRAM = ROOT / "crates/rtsearch/out/rtsearch"
ROSTER = "tenant A a\ntenant B b\nbegin\n"
COMMANDS = [
    "put A.r <- D", "drop A.r <- D", "grant B", "revoke B", "grant *", "revoke *", "ask A.r D", "who A.r",
    "poll 1", "wait 1", "proof 1 D", "end 1", "vault", "sees",
]  # fmt: skip
NONSENSE = ["hellp A a", "A: sees", "put", "?", "HELLO A a", "quit now", "hello"]


def first(peer, line):
    return peer.ask(line)[0]


def before_the_hello():
    with Server(ROSTER, len(COMMANDS) + len(NONSENSE) + 2) as server:
        for line in [*COMMANDS, *NONSENSE, "hello A b"]:
            with server.peer() as peer:
                refused = {"hello A b": "error 62 bad hello", "hello": "error 64 command"}
                want(first(peer, line), refused.get(line, "error 61 no hello"), f"a first line: {line}")
                want(first(peer, "hello A a"), "hello A", f"a good hello after {line}")
                want(peer.ask("vault"), ["vault 0"], f"the vault after {line}")
                want(first(peer, "sees"), "sees A", f"who is read after {line}")
                want(first(peer, "poll 1"), "error 51 no such search", f"the searches after {line}")
        with server.peer() as peer:
            for line in [*COMMANDS, *NONSENSE]:
                want(peer.ask(line)[0][:7], "error 6", f"one after another: {line}")
            lines = ["hello A a", "put A.r <- D", "ask A.r D", "wait 1"]
            peer.talk(lines, [["hello A"], ["ok 1"], ["search 1"], ["yes"]], "after all of them")
    return f"{len(COMMANDS)} commands and {len(NONSENSE)} other lines before a hello"


def faulty_lines():
    with Server(ROSTER, 1) as server, server.peer() as peer:
        peer.talk(["hello A a", "put A.r <- D", "ask A.r D"], [["hello A"], ["ok 1"], ["search 1"]], "a search")
        for line, reply in [(b"end 1 " + b"x" * 4091, "error 65 line too long"), ("end 1 é".encode(), "error 66 not ascii")]:
            peer.send(line + b"\n")
            want(peer.reply(), [reply], "a faulty line")
        peer.talk(["wait 1", "put A.r <- E"], [["yes"], ["ok 2"]], "the search after faulty lines")
    return "a line too long and one that isn't ASCII, while a search is open"


def peers_that_reset():
    with Server(ROSTER, 3) as server:
        for begun in (b"hello A", b"hello A a\nput A.r"):
            with server.peer() as peer:
                peer.send(begun)
                peer.socket.setsockopt(socket.SOL_SOCKET, socket.SO_LINGER, struct.pack("ii", 1, 0))
        with server.peer() as peer:
            peer.talk(["hello A a", "vault", "quit"], [["hello A"], ["vault 0"], ["bye"]], "after two that reset")
    return "two peers that reset, and a third"


def members_in_order(count=60):
    names = [f"{letter}{place}" for letter in "Eed" for place in range(count // 3)]
    shuffled = random.Random(1).sample(names, len(names))
    with Server(ROSTER, 1) as server, server.peer() as peer:
        want(first(peer, "hello A a"), "hello A", "a hello")
        for place, name in enumerate(shuffled):
            want(first(peer, f"put A.r <- {name}"), f"ok {place + 1}", "a member")
        want(first(peer, "who A.r"), "search 1", "who")
        wanted = " ".join(["members", *sorted(names, key=lambda name: name.encode("ascii"))])
        want((first(peer, "wait 1"), first(peer, "poll 1")), (wanted, wanted), "the members")
    return f"{len(names)} members in order"


def run(roster, *words):
    ran = subprocess.run([PROGRAM, "serve", "--accept", "1", *words], input=roster, stdout=subprocess.PIPE, timeout=PATIENCE)
    return ran.stdout, ran.returncode


def taken_port():
    with socket.create_server(("127.0.0.1", 0)) as taken:
        port = str(taken.getsockname()[1])
        want(run(ROSTER.encode("ascii"), "--port", port), (b"", 1), "a port that is taken")
        want(run(b"begin\n", "--port", port), (b"?: error 63 roster\n", 1), "a faulty roster for a port that is taken")
    return "a port that is taken, with a good roster and with a faulty one"


def only_here():
    with Server(ROSTER, 1) as server:
        tables = [table for table in map(pathlib.Path, ("/proc/net/tcp", "/proc/net/tcp6")) if table.exists()]
        rows = [row.split() for table in tables for row in table.read_text().splitlines()[1:]]
        places = [row[1].partition(":")[0] for row in rows if row[3] == "0A" and int(row[1].rpartition(":")[2], 16) == server.port]
        want(places, [socket.inet_aton("127.0.0.1")[::-1].hex().upper()], "where the service listens")
        with server.peer():
            pass
    return "the listener is at 127.0.0.1 alone"


def main():
    failed = 0
    checks = [before_the_hello, faulty_lines, peers_that_reset, members_in_order, taken_port, only_here]
    for check in checks:
        try:
            print(check())
        except Wrong as wrong:
            failed += 1
            print(f"{check.__name__}: {wrong}")
    print(f"{len(checks) - failed} passed, {failed} failed")
    return 1 if failed else 0


if __name__ == "__main__":
    sys.exit(main())
