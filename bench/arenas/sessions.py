#!/usr/bin/env python3
"""The sessions of bench/arenas.sh: one tenant has a vault, and its sessions take turns, four times round.

  sessions.py PORT versions SESSIONS ROWS      each opens 64 searches of two letters, a change before each, and ends them all
  sessions.py PORT letters SESSIONS ROWS       each opens one search, of two letters for each row, waits for it and ends it

Prints the kilobytes that docs/OPERATING.md reckons for all that is held at once."""
import socket
import sys

OPEN = 64  # the searches that a tenant may have open
ROUNDS = 4


class Session:
    def __init__(self, port):
        self.socket = socket.create_connection(("127.0.0.1", port))
        self.lines = self.socket.makefile("rb")
        self.say(["hello Archive word"])

    def say(self, lines):
        """Sends the lines at once, and reads a line of reply to each."""
        self.socket.sendall("".join(f"{line}\n" for line in lines).encode("ascii"))
        replies = [self.lines.readline() for _ in lines]
        if any(reply.startswith(b"error") or not reply for reply in replies):
            raise SystemExit(f"a line was refused: {replies}")


def hold_versions(session, opened):
    """Opens as many searches as may be open, and ends them. Each holds a version of the vault of its own."""
    numbers = range(opened + 1, opened + OPEN + 1)
    for number in numbers:
        session.say([f"{'put' if number % 2 else 'drop'} Archive.more <- E", "ask Archive.more E"])
    session.say([f"wait {number}" for number in numbers])
    session.say([f"end {number}" for number in numbers])
    return OPEN


def search_all(session, opened):
    """Opens one search that goes over all rows, waits for it and ends it."""
    session.say(["ask Archive.all E0", f"wait {opened + 1}", f"end {opened + 1}"])
    return 1


# of each case what a session does in its turn, and the bytes of its open searches
CASES = {
    "versions": (hold_versions, lambda rows: OPEN * (13_000 + 100 + 2 * 300 + 10_000 + rows // 8)),
    "letters": (search_all, lambda rows: 13_000 + 100 + 2 * 300 * rows),
}


def main(port, case, count, rows):
    turn, bytes_of_searches = CASES[case]
    sessions = [Session(port) for _ in range(count)]
    for begin in range(0, rows, 1000):
        sessions[0].say([f"put Archive.all <- E{row}" for row in range(begin, min(begin + 1000, rows))])
    opened = 0
    for session in sessions * ROUNDS:
        opened += turn(session, opened)
    changes = rows + (opened if case == "versions" else 0)
    reckoned = 2_000_000 + 1_500 + 70 * changes + 400 * rows + 40_000 * count + bytes_of_searches(rows)
    print(reckoned // 1000)


if __name__ == "__main__":
    main(int(sys.argv[1]), sys.argv[2], int(sys.argv[3]), int(sys.argv[4]))
