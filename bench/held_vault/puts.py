#!/usr/bin/env python3
"""The session of bench/held_vault.sh: puts into a vault of so many rows, which an open search holds, and withdrawals from it.

  puts.py PORT PID ROWS

Prints the microseconds of a change of the held vault at the 50th and at the 99th of 100, those of the end of its search, and of a
change of the vault while nobody holds it; then the bytes that a version takes for each row, of 32 that are held at once."""
import pathlib
import random
import re
import socket
import sys
import time

ROUNDS = 200
HELD = 32


class Session:
    def __init__(self, port):
        self.socket = socket.create_connection(("127.0.0.1", port))
        self.lines = self.socket.makefile("rb")

    def say(self, lines):
        """Sends the lines at once, and reads a line of reply to each; how many microseconds that took."""
        began = time.perf_counter()
        self.socket.sendall("".join(f"{line}\n" for line in lines).encode("ascii"))
        replies = [self.lines.readline() for _ in lines]
        if any(reply.startswith(b"error") or not reply for reply in replies):
            raise SystemExit(f"a line was refused: {replies}")
        return 1e6 * (time.perf_counter() - began)


def change(number, credential="Archive.more <- E"):
    return f"{'drop' if number % 2 else 'put'} {credential}"


def taken(pid):
    """The bytes of memory that the service has."""
    return 1024 * int(re.search(r"VmRSS:\s*(\d+)", pathlib.Path(f"/proc/{pid}/status").read_text()).group(1))


def at(times, hundredth):
    return f"{sorted(times)[len(times) * hundredth // 100]:.0f}"


def main(port, pid, rows):
    session = Session(port)
    session.say(["hello Archive word"])
    names = list(range(rows))
    random.Random(1).shuffle(names)
    for begin in range(0, rows, 1000):
        session.say([f"put Archive.all <- E{name}" for name in names[begin : begin + 1000]])
    held, ends, alone = [], [], []
    for number in range(ROUNDS):
        session.say(["ask Archive.none E", f"wait {number + 1}"])
        held.append(session.say([change(number)]))
        ends.append(session.say([f"end {number + 1}"]))
    for number in range(ROUNDS):
        alone.append(session.say([change(number)]))
    before = taken(pid)
    for number in range(HELD):
        session.say(["ask Archive.none E", change(number)])
    print(at(held, 50), at(held, 99), at(ends, 50), at(ends, 99), at(alone, 50), f"{(taken(pid) - before) / HELD / rows:.1f}")


if __name__ == "__main__":
    main(int(sys.argv[1]), int(sys.argv[2]), int(sys.argv[3]))
