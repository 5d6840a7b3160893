#!/usr/bin/env python3
"""What the service keeps to over many connections, many lines and long waits, told from outside: no clause speaks of it.

  checks/services.py

- The limits of the roster reach the desk: each of the six is told to a session at its own number.
- A roster of 1,000 tenants among 6,000 blank lines is one, for a script and for a service.
- One session thread answers 1,101 connections, one after another.
- The system's own bound of a connection for reading is that of `--idle`, and none without it. For one write it is a quarter of a second.
- One worker, a long search and a short one of two tenants: the short one is answered while the long one works.
- Two sessions wait for each of six searches beside one worker: all twelve are answered where these are ended, and where they come
  to their ends.

Wrong bodies that are refused here: the desk has the usual limits, whatever the roster says; a session thread
ends after 1,000 connections; `--idle` is 60 seconds at most; each worker begins at one search in each of its turns; the end of
a search wakes one of those who wait for it, or nobody; a session stops the desk as it ends.

Prints a line for each; the last line is `N passed, M failed`."""
import contextlib
import fcntl
import socket
import struct
import subprocess
import sys
import time

from cut_input import PROGRAM, ROOT
from peers import Server, Wrong, want
from strangers import lent_sockets, put_chain

MOST = "100000 1000 64 1000000 1000000000 4294967296"


def limits_of_the_roster():
    """Each limit, at 1 or 2, is told once it is reached, and not before."""
    said = [
        ("C", "1 9 9 99 99 99", [("put C.r <- E", "ok 1"), ("put C.r <- F", "error 41 creds limit"), ("drop C.r <- E", "ok 2"), ("put C.r <- F", "ok 3")]),
        ("G", "9 1 9 99 99 99", [("grant C", "ok 1"), ("grant *", "error 42 grants limit"), ("revoke C", "ok 2"), ("grant *", "ok 3")]),
        ("S", "9 9 2 99 99 99", [("who S.r", "search 1"), ("who S.r", "search 2"), ("who S.r", "error 43 searches limit"), ("end 1", "ended"), ("who S.r", "search 3")]),
        ("H", "9 9 9 2 99 99", [("put H.r <- E", "ok 1"), ("put H.r <- F", "ok 2"), ("drop H.r <- E", "error 44 changes limit")]),
        ("O", "9 9 9 99 2 99", [("who O.r", "search 1"), ("end 1", "ended"), ("who O.r", "search 2"), ("end 2", "ended"), ("who O.r", "error 45 opens limit")]),
        # Three letters are the work of the first question, five of the second.
        ("W", "9 9 9 99 99 3", [("put W.r <- E", "ok 1"), ("who W.r", "search 1"), ("wait 1", "members E"), ("put W.r <- F", "ok 2"), ("who W.r", "search 2"), ("wait 2", "spent")]),
    ]  # fmt: skip
    roster = "".join(f"tenant {name} w {limits}\n" for name, limits, _ in said) + "begin\n"
    with Server(roster, len(said)) as server:
        for name, _, lines in said:
            with server.peer() as peer:
                peer.talk(["hello " + name + " w", *(line for line, _ in lines)], [["hello " + name], *([reply] for _, reply in lines)], f"limits of {name}")
    return f"{len(said)} limits of a roster"


def blank_lines_in_a_roster():
    blank = "\n" * 3 + " \r\n" * 3
    roster = blank + "".join(f"tenant T{place} w\n{blank}" for place in range(1000)) + "begin\n"
    ran = subprocess.run([PROGRAM, "script"], input=f"{roster}T999: sees\n".encode("ascii"), stdout=subprocess.PIPE)
    want((ran.stdout, ran.returncode), (b"T999: sees T999\n", 0), "a script of 1,000 tenants among blank lines")
    with Server(roster, 1) as server, server.peer() as peer:
        peer.talk(["hello T999 w", "sees"], [["hello T999"], ["sees T999"]], "a service of 1,000 tenants among blank lines")
    return f"{roster.count(chr(10))} lines of a roster"


def many_connections(count=1101):
    with Server(f"tenant A w {MOST}\nbegin\n", count, "--sessions", "1") as server:
        for number in range(1, count + 1):
            with server.peer() as peer:
                peer.send(b"hello A w\nput A.r <- E%d\nquit\n" % number)
                want(peer.rest(), b"hello A\nok %d\nbye\n" % number, f"connection {number}")
    return f"{count} connections by one thread"


def bounds_of(server):
    """The system's bounds for reading and writing of the server's one connection, in seconds, as its socket tells them."""
    for lent in lent_sockets(server.process):
        with lent, contextlib.suppress(OSError):
            lent.getpeername()  # the listener has no peer, also once it is shut
            kept = [struct.unpack("ll", lent.getsockopt(socket.SOL_SOCKET, option, 16)) for option in (socket.SO_RCVTIMEO, socket.SO_SNDTIMEO)]
            return [seconds + parts / 1_000_000 for seconds, parts in kept]
    return None


def idle_bounds():
    tried = 0
    for words, bound in [(["--idle", "1"], 1), (["--idle", "86400"], 86400), ([], 0)]:
        with Server("tenant A w\nbegin\n", 1, *words) as server, server.peer() as peer:
            peer.talk(["hello A w"], [["hello A"]], "a hello")
            found = bounds_of(server)
            # (a system that counts time in longer steps rounds it up)
            want(found is None or found[0] == bound and 0.25 <= found[1] <= 0.27, True, f"the system's bounds of a connection with {words}: {found}")
            tried += found is not None
    return f"{tried} of 3 services with `--idle` or without"


def short_beside_long(tries=10):
    """The short one is answered while the long one works. On a busy machine its answer may be late to arrive, so that is tried again."""
    roster = f"tenant A a {MOST}\ntenant B b {MOST}\nbegin\n"
    with Server(roster, 2, "--workers", "1") as server, server.peer() as long, server.peer() as short:
        long.talk(["hello A a"], [["hello A"]], "a hello")
        put_chain(long)
        short.talk(["hello B b", "put B.r <- E"], [["hello B"], ["ok 1"]], "a hello")
        for number in range(1, tries + 1):
            want(long.ask("who A.c0"), [f"search {number}"], "a long search")
            short.talk(["who B.r", f"wait {number}"], [[f"search {number}"], ["members E"]], "a short search beside a long one")
            if long.ask(f"poll {number}") == ["working"]:
                return f"a short search is answered while a long one works, at try {number}"
            want(long.ask(f"end {number}"), ["ended"], "the end of a long search")
    raise Wrong(f"in {tries} tries no short search was answered while a long one worked")


def who_waits_is_woken():
    """Six searches, for each of which two sessions wait, and one worker: all are ended while they go on, and then six others come
    to their ends."""
    roster = f"tenant A a {MOST}\nbegin\n"
    with Server(roster, 13, "--workers", "1", "--sessions", "13") as server, contextlib.ExitStack() as peers:
        first, *others = [peers.enter_context(server.peer()) for _ in range(13)]
        for peer in (first, *others):
            peer.talk(["hello A a"], [["hello A"]], "a hello")
        put_chain(first)
        for role, told, ended in [("A.c0", "error 51 no such search", True), ("A.c2990", "members", False)]:
            numbers = range(1, 7) if ended else range(7, 13)
            for number in numbers:
                want(first.ask(f"who {role}"), [f"search {number}"], "a search")
            for place, peer in enumerate(others):
                peer.say(f"wait {numbers[place // 2]}")
            if ended:
                time.sleep(0.2)
                first.talk([f"end {number}" for number in numbers], [["ended"]] * 6, "six searches end")
            for peer in others:
                want(peer.line().startswith(told), True, "one of two that wait for a search")
    return "12 sessions, each two for one of six searches, which are ended, and of six that come to their ends"


def main():
    subprocess.run([ROOT / "rtsearch", "--version"], stdout=subprocess.DEVNULL)  # builds the program where it isn't yet
    failed = 0
    checks = [limits_of_the_roster, blank_lines_in_a_roster, many_connections, idle_bounds, short_beside_long, who_waits_is_woken]
    for check in checks:
        try:
            print(f"{check.__name__.replace('_', ' ')}: {check()}", flush=True)
        except (OSError, Wrong) as wrong:
            failed += 1
            print(f"{check.__name__.replace('_', ' ')}: otherwise: {wrong}", flush=True)
    print(f"{len(checks) - failed} passed, {failed} failed")
    return 1 if failed else 0


if __name__ == "__main__":
    sys.exit(main())
