#!/usr/bin/env python3
"""Talks to the proved program as a server, `rtsearch serve`, and compares every line that it answers.

  checks/sessions.py [CONNECTIONS [REQUESTS [FIRST]]]     64 connections of 1,000 requests each, made of the number 1

- Many at once: so many connections, each of a tenant of its own, say their lines at the same time; one half waits for each
  reply, the other half sends ahead. Every reply has to be the one that the same line has in `rtsearch script`, byte for
  byte, and the one that a second reading of the protocol wants (crowds.py, tenants.py, rt0.py); of a proof any is taken
  that is one. Then the same with few session threads, so that connections wait for their turn.
- Hellos: a wrong word and an unknown name are answered by the same bytes.
- One tenant: changes by many of its sessions at the same time have each a number of its own.
- Waits and polls: a session that waits for a long search while another session of its tenant ends it, and one that polls.
- Cut sessions: a session is cut after each of its bytes, once by a peer that has said its last and reads on, once by a reset.
- A peer that never reads: its own session alone stands still, and goes on when it reads.
- A line of 100 MB: refused, and the most memory that the server had grows by less than 8 MB.
- Endings: what the server prints, and its status, after its last connection and where it can't begin.

It prints what it did, and ends with status 1 at the first difference. It isn't part of ./check."""
import array
import fcntl
import socket
import struct
import subprocess
import sys
import termios
import threading
import time

from many_sessions import BAD_HELLO, many_at_once
from peers import ROOT, Server, Wrong, session_replies, want
from tenants import Hall


def hall_of(roster):
    hall = Hall()
    for line in roster.encode("ascii").splitlines():
        hall.enroll(line)
    return hall


# hellos

SMALL = "tenant A a\ntenant B bb\ntenant P p\nbegin\n"


def hellos():
    wrong = ["A b", "A aa", "A A", "B b", "B bbb", "B bc", "Z a", "Z bb", "a a", "A. a", "9 a", f"{'A' * 65} a", f"A {'a' * 65}", f"Z {'a' * 4000}"]
    with Server(SMALL, 2 + len(wrong)) as server:
        answers = set()
        for words in wrong:
            with server.peer() as peer:
                peer.send(f"hello {words}\n".encode("ascii"))
                answers.add(peer.rest())
        want(answers, {BAD_HELLO.encode("ascii") + b"\n"}, "wrong hellos")
        with server.peer() as peer:
            lines = ["hello A", "hello A a a", "put A.r <- D", "hello A a", "hello B bb", "sees", "quit"]
            replies = ["error 64 command", "error 64 command", "error 61 no hello", "hello A", "error 64 command", "sees A", "bye"]
            peer.talk(lines, [[reply] for reply in replies], "hellos")
        with server.peer() as peer:
            peer.send(b"hello A a\nquit\nsees\nvault\n")
            want(peer.lines.read(), b"hello A\nbye\n", "lines behind quit")
    print(f"hellos: {len(wrong)} wrong ones, each on a connection of its own, answered by the same bytes")


# many sessions of one tenant


def put_all(peer, first, last, numbers):
    for place in range(first, last):
        word, _, number = peer.ask(f"put A.r <- E{place:05}")[0].partition(" ")
        numbers.append(int(number) if word == "ok" else None)


def one_tenant(sessions=16, count=100):
    """The sessions of one tenant put credentials at the same time: each change has a number of its own, and all are there."""
    total, numbers = sessions * count, []
    with Server(f"tenant A a {total} 1 1 {total} 1 1\nbegin\n", sessions, "--sessions", str(sessions)) as server:
        peers = [server.peer() for _ in range(sessions)]
        for peer in peers:
            want(peer.ask("hello A a"), ["hello A"], "a session of many")
        threads = [threading.Thread(target=put_all, args=(peer, place * count, (place + 1) * count, numbers))
                   for place, peer in enumerate(peers)]  # fmt: skip
        for thread in threads:
            thread.start()
        for thread in threads:
            thread.join()
        want(set(numbers), set(range(1, total + 1)), "the numbers of the changes")
        rows = [f"A.r <- E{place:05}" for place in range(total)]
        for peer in peers:
            want(peer.ask("vault"), [f"vault {total}", *rows], "the vault of all")
            with peer:
                want(peer.ask("put A.r <- F"), ["error 44 changes limit"], "past the limit of all")
    print(f"one tenant: {sessions} sessions at once put {total} credentials, each change with a number of its own")


# waiting and polling


def waits(roles=500, members=1000):
    """A long search, from the last role of a chain: one session waits for it while another ends it; the same again, polled."""
    lines = [f"put A.r{place} <- A.r{place + 1}" for place in range(roles)]
    lines += [f"put A.r{roles} <- E{place}" for place in range(members)]
    found = " ".join(["members", *sorted(f"E{place}" for place in range(members))])
    with Server("tenant A a 100000 1 1 1000000 9 100000000\nbegin\n", 2) as server, server.peer() as one, server.peer() as other:
        for peer in (one, other):
            want(peer.ask("hello A a"), ["hello A"], "two sessions of a tenant")
        sender = one.send_beside("".join(f"{line}\n" for line in [*lines, "who A.r0", "wait 1"]).encode("ascii"))
        for place in range(len(lines)):
            want(one.reply(), [f"ok {place + 1}"], "a session that is to wait")
        want(one.reply(), ["search 1"], "a session that is to wait")
        other.talk(["poll 1", "end 1"], [["working"], ["ended"]], "beside a session that waits")
        want(one.reply(), ["error 51 no such search"], "a wait for a search that another session ended")
        sender.join()
        want(one.ask("who A.r0"), ["search 2"], "a search that is polled")
        polls = 1
        while (reply := other.ask("poll 2")) == ["working"]:
            polls += 1
            time.sleep(0.01)
        want(reply, [found], "a search that is polled")
        want(one.ask("wait 2"), [found], "a wait for a search that has ended")
    print(f"waits: of a search that was ended meanwhile; and {polls} polls until another had its {members} members")


# cut sessions


def session_of(name):
    """The lines of a whole session, with its end."""
    lines = [f"{name}: sees", "hello", f"hello {name} x", f"hello {name} w", f"put {name}.r <- {name}.s", f"put {name}.s <- D", "grant P",
             f"ask {name}.r D", "wait 1", f"who {name}.r", "wait 2", "", "vault", "drop it", "end 1", "quit"]  # fmt: skip
    return "".join(f"{line}\n" for line in lines).encode("ascii")


def probe(server, where):
    """Another session, answered as ever."""
    with server.peer() as peer:
        peer.talk(["hello P p", "poll 1", "vault", "quit"], [["hello P"], ["error 51 no such search"], ["vault 0"], ["bye"]], where)


def cut_by_a_last_word(server, data, replies, where):
    """The peer has said its last in the middle of the session, and reads all that is answered."""
    with server.peer() as peer:
        peer.send(data)
        want(peer.rest().decode("ascii").splitlines(), replies, where)


def cut_by_a_reset(server, data):
    """The peer resets the connection, whatever was read or written by then."""
    with server.peer() as peer:
        peer.send(data)
        peer.socket.setsockopt(socket.SOL_SOCKET, socket.SO_LINGER, struct.pack("ii", 1, 0))


def cuts():
    length = len(session_of("K000"))
    names = [f"K{place:03}" for place in range(length + 1)]
    words = {"P": "p"} | {name: "w" for name in names}
    roster = "".join(f"tenant {name} {word}\n" for name, word in words.items()) + "begin\n"
    hall = hall_of(roster)
    with Server(roster, 3 * len(names)) as server:
        for place, name in enumerate(names):
            data = session_of(name)[:place]
            cut_by_a_last_word(server, data, session_replies(hall, words, data), f"cut after {place} bytes")
            cut_by_a_reset(server, data)
            probe(server, f"after a reset behind {place} bytes")
    print(f"cut sessions: {len(names)} by a last word and {len(names)} by a reset, after each of {length} bytes; the next one answered right each time")


# a peer that never reads


def never_reads(asked=10000, rows=200, others=20):
    vault = [f"vault {rows}", *sorted(f"A.r <- D{place}" for place in range(rows))]
    replies = "".join(f"{line}\n" for line in vault).encode("ascii") * asked + b"bye\n"
    with Server(SMALL, 1 + others, "--sessions", "2") as server, server.peer() as still:
        want(still.ask("hello A a"), ["hello A"], "a peer that doesn't read")
        for place in range(rows):
            want(still.ask(f"put A.r <- D{place}"), [f"ok {place + 1}"], "a peer that doesn't read")
        still.send(b"vault\n" * asked + b"quit\n")
        came = unread_at_last(still)
        for _ in range(others):
            probe(server, "beside a peer that doesn't read")
        want(unread(still), came, "bytes for a peer that doesn't read, a while later")
        want(still.lines.read(len(replies)) == replies, True, "the replies to the peer, once it reads")
    print(f"a peer that never reads: {came} bytes of its {len(replies)} had come while {others} other sessions were answered; then it read all")


def unread(peer):
    """How many bytes have come that the peer hasn't read."""
    room = array.array("i", [0])
    fcntl.ioctl(peer.socket, termios.FIONREAD, room)
    return room[0]


def unread_at_last(peer):
    """The same, once no more come."""
    before, now = -1, unread(peer)
    while now != before:
        time.sleep(0.5)
        before, now = now, unread(peer)
    return now


# a line of 100 MB


def long_lines(size=100_000_000):
    piece = b"x" * 1_000_000
    with Server(SMALL, 4) as server:
        probe(server, "before the long lines")
        before = server.most_memory()
        with server.peer() as peer:
            want(peer.ask("hello A a"), ["hello A"], "before the long line")
            for _ in range(size // len(piece)):
                peer.send(piece)
            peer.say("")
            want(peer.reply(), ["error 65 line too long"], "the long line")
            peer.talk(["sees", "quit"], [["sees A"], ["bye"]], "after the long line")
        with server.peer() as peer:
            for _ in range(size // len(piece)):
                peer.send(piece)
            want(peer.rest(), b"error 65 line too long\n", "a long line that has no end")
        grown = server.most_memory() - before
        probe(server, "after the long lines")
        if grown > 8192:
            raise Wrong(f"the server took {grown} kB for long lines")
    print(f"two lines of {size} bytes: refused, and the server's most memory, {before} kB before, grew by {grown} kB")


# endings


def ended(words, text):
    ran = subprocess.run([ROOT / "rtsearch", "serve", *words], input=text, stdout=subprocess.PIPE, timeout=60)
    return ran.stdout, ran.returncode


def endings():
    faulty = [b"", b"begin\n", b"tenant A a\n", b"tenant A a\ntenant A a\nbegin\n", b"tenant A a 0 1 1 1 1 1\nbegin\n"]
    for roster in faulty:
        want(ended([], roster), (b"?: error 63 roster\n", 1), "a faulty roster")
    with socket.create_server(("127.0.0.1", 0)) as taken:
        want(ended(["--port", str(taken.getsockname()[1])], SMALL.encode("ascii")), (b"", 1), "a port that is taken")
    lines = [["--port", "65536"], ["--workers", "0"], ["--workers", "65"], ["--sessions", "0"], ["--sessions", "65"],
             ["--accept", "0"], ["--accept", "1000001"], ["--accept", "x"], ["--help"]]  # fmt: skip
    for words in lines:
        want(ended(words, SMALL.encode("ascii"))[1], 2, f"serve {' '.join(words)}")
    print(f"endings: {len(faulty)} faulty rosters and a port that is taken end with status 1, {len(lines)} command lines with status 2")


def main(size=64, count=1000, first=1):
    sys.setrecursionlimit(100000)
    subprocess.run([ROOT / "rtsearch", "--version"], stdout=subprocess.DEVNULL)  # builds the program where it isn't yet
    try:
        many_at_once(size, count, first, 64)
        many_at_once(size, max(1, count // 10), first + 1, 3)
        hellos()
        one_tenant()
        waits()
        cuts()
        never_reads()
        long_lines()
        endings()
    except Wrong as wrong:
        print(f"otherwise: {wrong}")
        return 1
    return 0


if __name__ == "__main__":
    sys.exit(main(*map(int, sys.argv[1:])))
