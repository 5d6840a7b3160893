"""What the program printed, compared with what it had to print."""
from collections import Counter

import rt0
from tenants import Proof


class Output:
    """The lines that were printed, read from the first on."""

    def __init__(self, lines):
        self.lines, self.at = lines, 0
        self.counts = Counter()

    def peek(self):
        return "(nothing more)" if self.is_read() else self.lines[self.at]

    def next(self):
        line = self.peek()
        self.at += 1
        return line

    def next_at(self, at):
        """The line at that place; the one behind it is the next."""
        self.at = at
        return self.next()

    def takes(self, expected, at):
        """Whether the lines from that place on are these replies; the one behind them is the next then."""
        self.at = at
        return self.first_wrong(expected) is None

    def is_read(self):
        return self.at >= len(self.lines)

    def has_proof(self, proof):
        name, _, count = self.next().partition(": proof ")
        if name != proof.asker or not count.isdecimal():
            return False
        steps = [self.next() for _ in range(int(count))]
        self.counts["steps"] += len(steps)
        lines = [line.removeprefix(f"{name}: ") for line in steps]
        return rt0.is_proof(lines, proof.who, proof.role, proof.credentials)

    def first_wrong(self, expected):
        """What is wrong with the next lines, where they aren't these replies."""
        for reply in expected:
            if isinstance(reply, Proof):
                self.counts["proofs"] += 1
                first = self.peek()
                if not self.has_proof(reply):
                    return f"no proof of {reply.who}: {first!r}"
            else:
                self.counts[kind(reply)] += 1
                printed = self.next()
                if printed != reply:
                    return f"{printed!r} in place of {reply!r}"
        return None


def kind(reply):
    words = reply.split(" ")
    if words[1] == "error":
        return f"error {words[2]}"
    return "rows" if "." in words[1] else words[1]
