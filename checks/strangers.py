#!/usr/bin/env python3
"""Whether strangers can stop the proved program as a server, `rtsearch serve`: peers that connect and say nothing, that come
and go, or that are gone while their session waits. All over 127.0.0.1, with few connections. What has to come soon is tried
up to five times, since a machine that does more is late: nobody is soon once who isn't ever.

  checks/strangers.py

- Few descriptors: 20 silent peers connect to a server that may have 13 descriptors. A tenant is answered meanwhile, and
  another one within half a second once they are gone, so the pauses between failed accepts are short. They are there: at many
  looks no thread of the server runs or waits for a processor. A server without a descriptor for its listener ends at once.
- Few threads: a server that can't start one of its threads, the first or the last worker or session, refuses peers, cuts
  those that it has, and ends within a second, with status 1.
- Idle peers: 8 silent peers have all 8 sessions of a server with `--idle 1`; they are cut, and a ninth peer is served. So is
  one cut that stops within its hello; one that waits for a long search isn't, nor one that takes its replies slowly. With
  `--idle 3` one that takes no replies is cut within six seconds: three, and two writes, after it took its last byte.
- Half-open peers: one that has said its last reads all its replies. Where a peer closes or resets while its session waits
  for a search, that session is over within a second of the search's end. One that has sent 500,000 bytes behind its `quit`
  reads `bye`, and then the end.
- Passers-by: 200 connections come and go while each of 1,000 requests of a tenant is answered.
- A closed listener: a server refuses peers once it has its last connection. One whose listener is at fault refuses them too;
  it tells four that wait `working` and cuts these sessions before their peers speak, ends its other sessions, also of peers that
  say nothing or take nothing, and then itself within a second, with status 1.

Wrong bodies that are refused here: the pause between failed accepts grows without a bound, or there is none;
a service goes on without a thread; a failed session ends its thread; a write of which a part was taken begins the time of
`--idle` anew; a connection is closed over what its peer sent behind `quit`; after a fault a session waits for its peer, or
one alone of those who wait for searches is woken.

It prints a line for each, and last `N passed, M failed`; the status is 1 where one failed. It needs a C compiler, for
checks/refuse_threads.c, and is part of ./check."""
import array
import contextlib
import ctypes
import fcntl
import os
import pathlib
import random
import resource
import socket
import struct
import subprocess
import sys
import tempfile
import termios
import threading
import time

from peers import PATIENCE, ROOT, Peer, Server, Wrong, want

PROGRAM = ROOT / "crates/rtsearch/out/rtsearch"
ROSTER = "tenant A a 100000 1 64 1000000 10000 100000000\ntenant B b\nbegin\n"
PIDFD_GETFD = 438  # the number of a call of the system's that Python has no name for


# peers


def until(holds, what):
    """Waits until it holds."""
    last = time.monotonic() + PATIENCE
    while not holds():
        if time.monotonic() > last:
            raise Wrong(f"not within {PATIENCE} seconds: {what}")
        time.sleep(0.01)


def soon(seconds_of, most, what, tries=5):
    """How many seconds it takes at the least of so many tries, which has to be less than so many."""
    least = PATIENCE
    for _ in range(tries):
        least = min(least, seconds_of())
        if least < most:
            return least
    raise Wrong(f"{what} takes {least:.2f} seconds")


def is_cut(peer):
    """Whether nothing more comes, and the connection ends."""
    try:
        return peer.socket.recv(1) == b""
    except ConnectionResetError:
        return True


def ends(peer):
    """Whether the connection ends, whatever comes before that."""
    with contextlib.suppress(ConnectionResetError):
        while peer.socket.recv(1 << 20):
            pass
    return True


def reset(peer):
    """Goes without a farewell: the other side isn't told that this was the last."""
    peer.socket.setsockopt(socket.SOL_SOCKET, socket.SO_LINGER, struct.pack("ii", 1, 0))


def is_refused(server):
    """Whether nobody can connect any more."""
    try:
        server.peer().__exit__()
    except ConnectionRefusedError:
        return True
    except ConnectionResetError:
        pass
    return False


def greet(peer, name):
    want(peer.ask(f"hello {name} {name.lower()}"), [f"hello {name}"], f"the hello of {name}")


def ask_and_wait(peer, name, number, where):
    """The tenant asks its search of this number, waits for it and is answered."""
    lines = [f"put {name}.r{number} <- D", f"ask {name}.r{number} D", f"wait {number}"]
    peer.talk(lines, [[f"ok {number}"], [f"search {number}"], ["yes"]], where)


def put_chain(peer, roles=6000, members=1000):
    """Puts what makes `who A.c0` a search of seconds: each member goes down a chain of roles."""
    lines = [f"put A.c{place} <- A.c{place + 1}" for place in range(roles)]
    lines += [f"put A.c{roles} <- E{place}" for place in range(members)]
    sender = peer.send_beside("".join(f"{line}\n" for line in lines).encode("ascii"))
    for place in range(len(lines)):
        want(peer.reply(), [f"ok {place + 1}"], "the credentials of a long search")
    sender.join()


# few descriptors


def no_descriptor():
    """A server that may have no descriptor but those it began with. It is told so once it has read the first line of its roster."""
    with subprocess.Popen([PROGRAM, "serve", "--accept", "1"], stdin=subprocess.PIPE, stdout=subprocess.PIPE, bufsize=0) as process:
        process.stdin.write(b"tenant A a\n")
        unread = array.array("i", [1])
        until(lambda: fcntl.ioctl(process.stdin, termios.FIONREAD, unread) == 0 and unread[0] == 0, "the server reads its roster")
        resource.prlimit(process.pid, resource.RLIMIT_NOFILE, (3, 3))
        process.stdin.write(b"begin\n")
        want((process.stdout.read(), process.wait(PATIENCE)), (b"", 1), "a server without a descriptor for its listener")


def rests(process):
    """Whether none of its threads runs, or waits for a processor."""
    threads = f"/proc/{process.pid}/task"
    states = [pathlib.Path(f"{threads}/{thread}/stat").read_text().rpartition(")")[2].split()[0] for thread in os.listdir(threads)]
    return "R" not in states


def share_of_rest(process, looks=60):
    """How often of so many looks, a hundredth of a second apart, it rests."""
    rested = 0
    for _ in range(looks):
        time.sleep(0.01)
        rested += rests(process)
    return rested / looks


def after_silent_peers(silent, most):
    """How many seconds a peer waits that comes once silent peers have gone, which took all descriptors."""
    with Server(ROSTER, silent + 2) as server:
        resource.prlimit(server.process.pid, resource.RLIMIT_NOFILE, (most, most))
        with server.peer() as tenant:
            greet(tenant, "A")
            strangers = [server.peer() for _ in range(silent)]
            until(lambda: len(os.listdir(f"/proc/{server.process.pid}/fd")) == most, "the server has all descriptors that it may have")
            rested = []
            for number in (1, 2):
                rested.append(share_of_rest(server.process))
                ask_and_wait(tenant, "A", number, "a tenant beside silent peers")
            for stranger in strangers:
                stranger.__exit__()
        left = time.monotonic()
        with server.peer() as tenant:
            greet(tenant, "B")
            came = time.monotonic() - left
            ask_and_wait(tenant, "B", 1, "a tenant after silent peers")
    want(max(rested) > 0.1, True, f"the server pauses between accepts that fail: it rests for {max(rested):.2f} of the time")
    return came


def few_descriptors(silent=20, most=13):
    soon(lambda: after_silent_peers(silent, most), 0.5, "a pause between accepts")
    no_descriptor()
    return f"{silent} silent peers and {most} descriptors: a tenant is answered beside them, and another one after them"


# few threads


def lacks_thread(library, environment, what):
    """How long after its refusal a server has ended that can't start this thread. Meanwhile two peers have connected."""
    environment = dict(os.environ, LD_PRELOAD=library, REFUSE_AFTER="300", **environment)
    with subprocess.Popen([PROGRAM, "serve"], stdin=subprocess.PIPE, stdout=subprocess.PIPE, env=environment) as process:
        process.stdin.write(ROSTER.encode("ascii"))
        process.stdin.close()
        port = int(process.stdout.readline().rpartition(b":")[2])
        with Peer(port) as silent, Peer(port) as greeted:
            greeted.say("hello A a")
            time.sleep(0.3)
            began = time.monotonic()
            until(lambda: process.poll() is not None, f"a server without {what} ends")
            seconds = time.monotonic() - began
            want((process.stdout.read(), process.wait()), (b"", 1), f"a server without {what}")
            want(ends(silent) and ends(greeted), True, f"the peers of a server without {what} are cut")
    with contextlib.suppress(ConnectionRefusedError):
        Peer(port).__exit__()
        raise Wrong(f"the port is open though {what} couldn't be started")
    return seconds


def few_threads(workers=4, sessions=8):
    with tempfile.TemporaryDirectory() as folder:
        library = f"{folder}/refuse_threads.so"
        subprocess.run(["cc", "-O1", "-shared", "-fPIC", "-o", library, ROOT / "checks/refuse_threads.c"], check=True)
        lacks = [
            ({"REFUSE_FIRST": "1"}, "a thread for its workers"),
            ({"REFUSE_OTHERS": "1"}, "its first worker"),
            ({"REFUSE_OTHERS": str(workers)}, "its last worker"),
            ({"REFUSE_FIRST": "2"}, "its first session"),
            ({"REFUSE_FIRST": str(1 + sessions)}, "its last session"),
        ]
        after = [soon(lambda: lacks_thread(library, *thread), 1, f"the end of a server without {thread[1]}") for thread in lacks]
    return f"a server that lacks one of {len(after)} threads ends with its sessions {1000 * max(after):.0f} ms after that at most"


# idle peers


def takes_nothing(idle=3, rows=500):
    """Asks for more than can be on its way, and takes nothing of it, until it can't ask any more. How long that is."""
    with Server(ROSTER, 1, "--idle", str(idle)) as server, server.peer() as peer:
        greet(peer, "A")
        peer.talk([f"put A.r <- E{row}" for row in range(rows)], [[f"ok {row + 1}"] for row in range(rows)], "the rows of long replies")
        peer.socket.settimeout(PATIENCE)
        began = time.monotonic()
        with contextlib.suppress(BrokenPipeError, ConnectionResetError):
            while True:
                peer.send(b"vault\n" * 1000)
        return time.monotonic() - began


def takes_slowly(server, times=24, a_second=400_000):
    """Asks for more than can be on its way, and takes so many bytes a second of it."""
    with server.peer() as peer:
        greet(peer, "A")
        peer.send(b"vault\n" * 300)
        for _ in range(times):
            time.sleep(0.25)
            left = a_second // 4
            while left > 0:
                piece = peer.socket.recv(left)
                want(piece != b"", True, "a peer that takes its replies slowly isn't cut")
                left -= len(piece)


def idle_peers(silent=8):
    with Server(ROSTER, silent + 4, "--idle", "1") as server:
        began = time.monotonic()
        strangers = [server.peer() for _ in range(silent)]
        with server.peer() as ninth:
            greet(ninth, "B")
            served = time.monotonic() - began
            ask_and_wait(ninth, "B", 1, "the ninth peer")
        for stranger in strangers:
            want(is_cut(stranger), True, "a silent peer is cut")
        want(0.9 < served, True, f"a silent peer has its second: the ninth is served after {served:.1f}")
        with server.peer() as peer:
            peer.send(b"hel")
            want(is_cut(peer), True, "a peer that stops within its hello is cut")
        with server.peer() as peer:
            greet(peer, "A")
            put_chain(peer, 14000)
            want(peer.ask("who A.c0"), ["search 1"], "a long search")
            began = time.monotonic()
            want(peer.ask("wait 1")[0].split()[0], "members", "a wait that is longer than peers may be idle")
            waited = time.monotonic() - began
        takes_slowly(server)
    taken = soon(takes_nothing, 6, "the end of a peer that takes nothing")
    want(2.9 < taken, True, f"a peer that takes nothing has its three seconds: it is cut after {taken:.1f}")
    return (
        f"{silent} silent peers are cut after a second, and a ninth is served after {served:.1f}; one that may take nothing for three is cut after "
        f"{taken:.1f}; one that waits for {waited:.1f} isn't cut, nor one that takes slowly"
    )


# half-open peers


def last_word():
    """A peer has said its last, and its session waits."""
    with Server(ROSTER, 1) as server, server.peer() as peer:
        greet(peer, "A")
        put_chain(peer)
        peer.send(b"ask A.c0 E7\nwait 1\nsees")
        want(peer.rest().decode("ascii"), "search 1\nyes\nsees A\n", "a peer that has said its last")


def says_more_than_quit(server, more=500_000):
    """A peer has sent more behind its last line, which nobody reads."""
    with server.peer() as peer:
        sender = peer.send_beside(b"hello A a\nquit\n" + b"x" * more)
        want(peer.lines.read().decode("ascii"), "hello A\nbye\n", "a peer that has sent more behind its quit")
        sender.join()


def gone(leave):
    """How long after a search's end the place of a session is free that waited for it, and whose peer has left meanwhile."""
    with Server(ROSTER, 3, "--sessions", "2") as server, server.peer() as stays:
        with server.peer() as goes:
            greet(stays, "A")
            greet(goes, "A")
            put_chain(stays)
            want(stays.ask("ask A.c0 E7"), ["search 1"], "a long search")
            goes.say("wait 1")
            stays.say("wait 1")
            time.sleep(0.2)
            leave(goes)
        left = time.monotonic()
        with server.peer() as third:
            third.say("hello B b")
            want(stays.reply(), ["yes"], "the session that stays")
            ended = time.monotonic()
            want(ended - left > 0.1, True, "the search goes on when the peer leaves")
            want(third.reply(), ["hello B"], "the peer that has the place of the one that left")
            return time.monotonic() - ended


def half_open(goodbyes=5):
    last_word()
    with Server(ROSTER, goodbyes) as server:
        for _ in range(goodbyes):
            says_more_than_quit(server)
    after = [soon(lambda: gone(leave), 1, "the place of a peer that has gone") for leave in (lambda peer: None, reset)]
    milliseconds = " and ".join(f"{1000 * seconds:.0f}" for seconds in after)
    return (
        f"a peer that has said its last reads all, and so do {goodbyes} that send more behind their quit; one that closes and one that "
        f"resets in a wait leave their places {milliseconds} ms after its end"
    )


# passers-by


def says(*lines):
    """Says these lines, and reads as many replies."""

    def pass_by(peer):
        for line in lines:
            peer.ask(line)

    return pass_by


def pass_by(server, count, faults):
    """So many connections, one after another, each of which goes in its own way."""
    ways = [lambda peer: None, reset, lambda peer: peer.send(b"hello B"), says("hello B wrong"), says("hello B b", "sees"), says("quit")]
    chosen = random.Random(1).choices(ways, k=count)
    try:
        for way in chosen:
            with server.peer() as peer:
                way(peer)
    except (OSError, Wrong) as fault:
        faults.append(fault)


def passers_by(count=200, requests=1000):
    with Server(ROSTER, count + 1) as server, server.peer() as tenant:
        greet(tenant, "A")
        faults = []
        others = threading.Thread(target=pass_by, args=(server, count, faults))
        others.start()
        for number in range(1, requests // 4 + 1):
            ask_and_wait(tenant, "A", number, "a tenant beside passers-by")
            want(tenant.ask(f"end {number}"), ["ended"], "a tenant beside passers-by")
        others.join()
        want(faults, [], "the passers-by")
    return f"{count} connections come and go while {requests} requests of a tenant are answered"


# a closed listener


def lent_sockets(process):
    """The server's sockets, also in the hands of this process; none where the system doesn't lend them."""
    call = ctypes.CDLL(None, use_errno=True).syscall
    with open(os.pidfd_open(process.pid), "rb", buffering=0) as there:
        for number in sorted(map(int, os.listdir(f"/proc/{process.pid}/fd"))):
            ours = call(PIDFD_GETFD, there.fileno(), number, 0)
            if ours < 0:
                return
            if os.path.realpath(f"/proc/self/fd/{ours}").rpartition("/")[2].startswith("socket:"):
                yield socket.socket(fileno=ours)
            else:
                os.close(ours)


def listener_of(process):
    """The server's listener, also in the hands of this process; None where the system doesn't lend it."""
    lent = list(lent_sockets(process))
    listeners = [each for each in lent if each.getsockopt(socket.SOL_SOCKET, socket.SO_ACCEPTCONN)]
    for each in lent:
        if each not in listeners:
            each.close()
    if lent and not listeners:
        raise Wrong("the server has no listener")
    return listeners[0] if listeners else None


def lends():
    """Whether the system lends a server's listener."""
    with Server(ROSTER, 2) as server, server.peer():
        lent = listener_of(server.process)
        if lent is not None:
            lent.close()
        server.peer().__exit__()
        return lent is not None


def at_fault():
    """The listener is told not to wait for connections any more, which is a fault of its own. After how many seconds all ends."""
    server = Server(ROSTER, 1_000_000)
    try:
        lent = listener_of(server.process)
        with contextlib.ExitStack() as peers:
            reads, silent, full, *wait = [peers.enter_context(server.peer()) for _ in range(7)]
            for peer, name in zip([reads, full, *wait], "BAAAAA"):
                greet(peer, name)
            put_chain(wait[0], 9000)
            want(wait[0].ask("who A.c0"), ["search 1"], "a long search")
            full.send(b"vault\n" * 500)
            for peer in wait:
                peer.say("wait 1")
            time.sleep(0.1)
            lent.setblocking(False)
            lent.close()
            until(lambda: is_refused(server), "peers are refused once the listener is at fault")
            began = time.monotonic()
            for peer in wait:
                want(peer.reply(), ["working"], "a wait at the stop")
                want(is_cut(peer), True, "a session that comes to read after the stop ends before its peer speaks")
            for peer in (reads, silent):
                want(is_cut(peer), True, "a session that reads ends")
            want((server.process.stdout.read(), server.process.wait(PATIENCE)), (b"", 1), "the server's end")
            ended = time.monotonic()
            want(ends(full), True, "a session whose peer takes nothing ends")
        return ended - began
    finally:
        server.process.kill()
        server.process.wait()


def closed_listener():
    with Server(ROSTER, 1) as server, server.peer() as last:
        greet(last, "A")
        until(lambda: is_refused(server), "peers are refused after the last connection")
        ask_and_wait(last, "A", 1, "the last connection")
    faulty = "a listener at fault wasn't tried: the system lends none"
    if lends():
        after = soon(at_fault, 1, "the end of a server whose listener is at fault")
        faulty = f"and so are they where the listener is at fault, and all ends after {1000 * after:.0f} ms"
    return f"peers are refused after the last connection, {faulty}"


def main():
    checks = {
        "few descriptors": few_descriptors,
        "few threads": few_threads,
        "idle peers": idle_peers,
        "half-open peers": half_open,
        "passers-by": passers_by,
        "a closed listener": closed_listener,
    }
    passed = 0
    for name, check in checks.items():
        try:
            print(f"{name}: {check()}", flush=True)
            passed += 1
        except (OSError, Wrong) as fault:
            print(f"{name}: otherwise: {fault}", flush=True)
    print(f"{passed} passed, {len(checks) - passed} failed")
    return 0 if passed == len(checks) else 1


if __name__ == "__main__":
    sys.exit(main())
