#!/usr/bin/env python3
"""held.py PROGRAM PART: the bytes that a service keeps for each of what its tenants have said. PART divides all sizes."""
import pathlib
import random
import re
import socket
import subprocess
import sys
import tempfile
import time

ROOT = pathlib.Path(__file__).resolve().parent.parent.parent
MOST = "100000 1000 64 1000000 1000000000 4294967295"
SETTINGS = re.findall(r'^export (MALLOC_\w+)=.*-(\d+)\}"$', (ROOT / "rtsearch").read_text(), flags=re.M)
LONG = "".join(chr(ord("a") + place % 26) for place in range(64))


def roster_of(tenants):
    return "".join(f"tenant T{at} word {MOST}\n" for at in range(tenants)) + "begin\n"


class Program:
    """The program with these words, in one arena, as the launcher has it; not in huge pages, of which one that is begun counts whole."""

    def __init__(self, words, source):
        command = ["env", *(f"{name}={value}" for name, value in SETTINGS), sys.argv[1], *words]
        self.process = subprocess.Popen(command, stdin=source, stdout=subprocess.PIPE, text=True)

    def __enter__(self):
        return self

    def __exit__(self, *_):
        self.process.kill()
        self.process.communicate()

    def status(self, word):
        return int(re.search(rf"{word}:\s*(\d+)", pathlib.Path(f"/proc/{self.process.pid}/status").read_text()).group(1))

    def bytes(self):
        return 1024 * self.status("RssAnon")

    def more(self, act):
        """How many bytes more it has after this."""
        before = self.bytes()
        act()
        return self.bytes() - before


class Service(Program):
    """A service of so many tenants, T0 and on."""

    def __init__(self, tenants=1, workers=4, sessions=8):
        with tempfile.TemporaryFile("w+") as roster:
            roster.write(roster_of(tenants))
            roster.seek(0)
            super().__init__(["serve", "--workers", str(workers), "--sessions", str(sessions)], roster)
        self.port = int(self.process.stdout.readline().rpartition(":")[2])
        while self.status("Threads") < workers + sessions + 2:
            time.sleep(0.01)
        time.sleep(0.1)  # so that each has come to where it waits

    def session(self, tenant=0):
        return Session(self.port, tenant)


class Script(Program):
    """A script of so many tenants."""

    def __init__(self, tenants):
        super().__init__(["script"], subprocess.PIPE)
        self.say([roster_of(tenants) + "T0: sees"])

    def say(self, lines):
        for line in lines:
            print(line, file=self.process.stdin, flush=True)
            self.process.stdout.readline()


class Session:
    def __init__(self, port, tenant):
        self.socket = socket.create_connection(("127.0.0.1", port))
        self.lines = self.socket.makefile("rb")
        self.say([f"hello T{tenant} word"])

    def say(self, lines):
        """Sends the lines, some at once, and reads a line of reply to each; what the last one was told."""
        lines, reply = list(lines), b""
        for begin in range(0, len(lines), 500):
            some = lines[begin : begin + 500]
            self.socket.sendall("".join(f"{line}\n" for line in some).encode("ascii"))
            for _ in some:
                reply = self.lines.readline()
                if reply.startswith(b"error") or not reply:
                    raise SystemExit(f"a line was refused: {reply}")
        return reply

    def leave(self):
        self.say(["quit"])
        self.lines.close()
        self.socket.close()


def row(what, count, all_bytes):
    print(f"| {what} | {count:,} | {all_bytes / count:,.0f} |", flush=True)


def tenants(count):
    with Service() as one, Service(count) as many:
        row("tenant of the roster", count, many.bytes() - one.bytes())

        def change():
            for at in range(count):
                peer = many.session(at)
                peer.say([f"put T{at}.doctors <- Ada"])
                peer.leave()

        row("tenant's first change", count, many.more(change))


def changes(what, count, line_of):
    """Changes that leave no more than a hundred credentials, or one grant."""
    with Service() as service:
        peer = service.session()
        peer.say(line_of(at) for at in range(200))
        row(what, count, service.more(lambda: peer.say(line_of(at) for at in range(count))))


def put_or_drop(role, entity):
    """Puts a hundred credentials, drops them, and so on."""
    return lambda at: f"{'drop' if at // 100 % 2 else 'put'} T0.{role} <- {entity}{at % 100:02}"


def credentials(what, count, body_of, shuffled=False):
    with Service() as service:
        peer, places = service.session(), list(range(count))
        if shuffled:
            random.Random(1).shuffle(places)
        row(what, count, service.more(lambda: peer.say(f"put T0.doctors <- {body_of(at)}" for at in places)))


def open_searches(what, tenants, lines_of, letters, each=64):
    """So many tenants, each of which says these lines and then asks for who is in `r0`, so often, and waits for each."""
    with Service(tenants) as service:
        peers = [service.session(at) for at in range(tenants)]
        for at, peer in enumerate(peers):
            peer.say(lines_of(f"T{at}"))

        def ask():
            for at, peer in enumerate(peers):
                peer.say(line for number in range(1, each + 1) for line in (f"who T{at}.r0", f"wait {number}"))

        taken = service.more(ask)
        row(f"open search of {what}", tenants * each, taken)
        if letters > 1:
            row("a letter of it", tenants * each * letters, taken)


def new_searches(tenants, each=64):
    """Searches of a script, which makes no step of one before it waits for it."""
    with Script(tenants) as script:
        taken = script.more(lambda: script.say(f"T{at}: who T{at}.r0" for at in range(tenants) for _ in range(each)))
        row("search as it is opened", tenants * each, taken)


def role_of(count):
    return lambda tenant: [f"put {tenant}.r0 <- E{at}" for at in range(count)]


def chain_of(count):
    return lambda tenant: [*(f"put {tenant}.r{at} <- {tenant}.r{at + 1}" for at in range(count)), f"put {tenant}.r{count} <- Ada"]


def public_vaults(count, searches=64):
    """Of two services: in one the other tenants' vaults are public."""
    taken = []
    for is_public in (False, True):
        with Service(count + 1) as service:
            for at in range(1, count + 1 if is_public else 1):
                other = service.session(at)
                other.say(["grant *"])
                other.leave()
            peer = service.session()
            taken.append(service.more(lambda: peer.say(line for number in range(searches) for line in ("who T0.r0", f"wait {number + 1}"))))
    row("vault that an open search reads", count * searches, taken[1] - taken[0])


def versions(rows, held=32):
    with Service() as service:
        peer = service.session()
        peer.say(f"put T0.doctors <- E{at}" for at in range(rows))
        lines = [line for at in range(held) for line in ("ask T0.r0 Ada", f"{'drop' if at % 2 else 'put'} T0.more <- Ada")]
        row(f"version of a vault of {rows:,} that an open search holds", held, service.more(lambda: peer.say(lines)))


def sessions(count):
    with Service(count, sessions=count) as service:
        peers = []
        row("session that has said hello", count, service.more(lambda: peers.extend(service.session(at) for at in range(count))))
    with Service(sessions=count) as many, Service(sessions=1) as one:
        row("session thread that waits", count - 1, many.bytes() - one.bytes())
    with Service(workers=count) as many, Service(workers=1) as one:
        row("worker", count - 1, many.bytes() - one.bytes())


def main():
    part = int(sys.argv[2])
    heads = ["Held by a service", "so many", "bytes for each"]
    print(f"| {' | '.join(heads)} |\n|{' --- |' * len(heads)}")
    tenants(1000 // part)
    changes("accepted change, names of 2 to 7 bytes", 100_000 // part, put_or_drop("doctors", "E"))
    changes("names of 64 bytes", 100_000 // part, put_or_drop(LONG, LONG[:62]))
    changes("grant or revocation", 100_000 // part, lambda at: f"{'revoke' if at % 2 else 'grant'} Archive")
    credentials("credential, put in the vault's order", 90_000 // part, lambda at: f"E{at:05}")
    credentials("in no order", 90_000 // part, lambda at: f"E{at:05}", shuffled=True)
    credentials("an intersection of 8 parts", 20_000 // part, lambda at: " & ".join(f"E{at:05}.r{place}" for place in range(8)))
    new_searches(8)
    open_searches("one letter", 8, lambda tenant: [], 1)
    open_searches("a role of 100", 8, role_of(100 // part), 200 // part + 1)
    open_searches("a chain of 1,000", 8, chain_of(1000 // part), 2000 // part + 3)
    open_searches("a role of 90,000, alone", 1, role_of(90_000 // part), 180_000 // part + 1, each=1)
    public_vaults(999 // part)
    versions(90_000 // part)
    sessions(64)


main()
