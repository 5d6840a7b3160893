#!/usr/bin/env python3
"""Changes a vault of thousands of credentials in no order, so that its rows are parted in blocks, which grow, are made two and
go, and are gathered in one list again and again, where the rows are listed or opened. Compares what the program prints with
what the protocol wants, which comes from tenants.py, a second, plain reading of it.

  checks/late_changes.py [SEED..]          scripts drawn from these numbers in place of 1, 2 and 3

Prints a line for each script; the last line is `N passed, M failed`, a script each."""
import random
import subprocess
import sys

from cut_input import ROOT, first_wrong

ROSTER = ["tenant A word 100000 1 4 1000000 10000 100000", "begin"]
POOL = [f"A.r{role} <- E{member}" for role in range(10) for member in range(1000)]


class Script:
    def __init__(self, seed):
        self.draw = random.Random(seed)
        self.lines, self.openings = list(ROSTER), 0

    def say(self, command):
        self.lines.append(f"A: {command}")

    def change(self, word, credentials):
        for credential in self.draw.sample(credentials, len(credentials)):
            self.say(f"{word} {credential}")

    def open(self):
        """Asks for a role's members, and keeps the search, and with it the rows, for the changes that follow."""
        self.openings += 1
        self.say(f"who A.r{self.draw.randrange(10)}")
        if self.openings > 2:
            self.say(f"wait {self.openings - 2}")
            self.say(f"end {self.openings - 2}")

    def mix(self, count):
        """Changes of which half are refused: few credentials, put and dropped in turn, and all others."""
        few = self.draw.sample(POOL, 100)
        for number in range(count):
            credential = self.draw.choice(few if number % 2 else POOL)
            self.say(f"{self.draw.choice(['put', 'drop'])} {credential}")

    def text(self):
        self.change("put", POOL)
        self.say("vault")
        self.change("drop", self.draw.sample(POOL, 6000))
        self.say("vault")
        for _ in range(4):
            self.mix(2000)
            self.open()
            self.mix(20)
            self.open()
        self.say("vault")
        return "\n".join(self.lines).encode("ascii") + b"\n"


def is_right(seed):
    script = Script(seed).text()
    wrong = first_wrong(script)
    print(f"drawn from {seed}, {script.count(b'put') + script.count(b'drop')} changes: {wrong or 'as wanted'}")
    return not wrong


def main(seeds):
    subprocess.run([ROOT / "rtsearch", "--version"], stdout=subprocess.DEVNULL)  # builds the program where it isn't yet
    results = [is_right(seed) for seed in seeds or [1, 2, 3]]
    print(f"{results.count(True)} passed, {results.count(False)} failed")
    return 0 if all(results) else 1


if __name__ == "__main__":
    sys.exit(main([int(seed) for seed in sys.argv[1:]]))
