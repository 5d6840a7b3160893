#!/usr/bin/env python3
"""Runs random scripts through the proved program and compares every line that it prints with what a second, plain
reading of the protocol and of RT0's rules wants (tenants.py, rt0.py). Of a proof any is taken that is one, from
credentials that its tenant saw, with its steps in the promised order.

  checks/random_scripts.py [SCRIPTS [FIRST [LINES]]]     300 scripts, the first made of the number 1, of about 150 lines

Prints how much was compared and, for each script that is answered otherwise, its number and the first such line. The
status is 1 where there was one. It isn't part of ./check."""
import pathlib
import random
import subprocess
import sys
from collections import Counter

import rt0
from answers import Output
from tenants import Hall, lines_of

ROOT = pathlib.Path(__file__).resolve().parent.parent
PROGRAM = ROOT / "crates/rtsearch/out/rtsearch"
NAMES = ["A", "B", "C", "D", "a", "A-", "A_1", "Ab", "in", "by", "from", "x" * 64]
ROLES = ["r", "s", "t", "R-", "link"]
FAULTS = ["A", "A.r.s.t", "9", "a b", "A..r", "", ".", "x" * 65, "A.r <- B", "é", "\t", "-", "A-.r_", "<-", "&", "*"]
ALL = ["*", "*", "*", "*", "*", "*", "*", "*", "**", "* *", "*A", "A*"]


class Script:
    """A script that is made line by line, with the replies that it has to get."""

    def __init__(self, number, length):
        self.draw = random.Random(number)
        self.hall = Hall()
        self.lines, self.expected, self.length = [], [], length
        self.status = 0
        self.names = self.draw.sample(NAMES, self.draw.randint(2, 8))
        self.roles = self.draw.sample(ROLES, self.draw.randint(1, 3))

    def make(self):
        if not self.enroll():
            self.status, self.expected = 1, ["?: error 63 roster"]
            return
        while len(self.lines) < self.length:
            self.act()

    # rosters

    def limits(self):
        if self.draw.random() < 0.8:
            return ""
        ranges = [(4, 40), (2, 20), (1, 8), (12, 400), (6, 300), (self.draw.randint(1, 60), 100000)]
        numbers = [self.draw.choice(few_or_many) for few_or_many in ranges]
        if self.draw.random() < 0.02:
            numbers[self.draw.randrange(6)] = self.draw.choice([0, 10**6 + 1, "007", 10**10, "x"])
        return " " + " ".join(map(str, numbers))

    def enroll(self):
        tenants = self.draw.sample(self.names, self.draw.randint(1, min(6, len(self.names))))
        lines = [f"tenant {name} {self.draw.choice(['w', '~!', '*', 'p' * 64])}{self.limits()}" for name in tenants]
        if self.draw.random() < 0.03:
            lines.insert(self.draw.randrange(len(lines) + 1), self.draw.choice([lines[0], "tenant", "tenant * w", "begin now", "A: sees"]))
        return all(self.enrolled(line) for line in [*lines, "begin"]) and self.hall.begun

    def enrolled(self, line):
        self.lines.append(self.laid_out(line))
        return self.hall.enroll(self.read_back())

    # lines

    def laid_out(self, text):
        """The text as it may stand in a script: with more spaces, and now and then faulty."""
        if self.draw.random() < 0.03:
            text = self.spoiled(text)
        if self.draw.random() < 0.1:
            text = "  " * self.draw.randint(0, 2) + text + " " * self.draw.randint(0, 3)
        if self.draw.random() < 0.002:
            text += " " * self.draw.choice([4096 - len(text), 4097 - len(text), 5000])
        return text.encode("utf-8") + (b"\r" if self.draw.random() < 0.05 else b"")

    def spoiled(self, text):
        place = self.draw.randrange(len(text) + 1)
        put, cut = self.draw.choice([(self.draw.choice(FAULTS), 0), ("", 1), (" ", 0), (".", 1), ("", len(text))])
        return text[:place] + put + text[place + cut:]

    def read_back(self):
        (line,) = lines_of(self.lines[-1] + b"\n")
        return line

    def say(self, name, command):
        self.lines.append(self.laid_out(f"{name}:{self.draw.choice(['', ' ', '  '])}{command}"))
        replies = self.hall.reply(self.read_back())
        self.expected += replies or []

    # what tenants say

    def name(self):
        return self.draw.choice(self.names)

    def role(self, owner=None):
        return f"{owner or self.name()}.{self.draw.choice(self.roles)}"

    def part(self, issuer):
        kind = self.draw.random()
        if kind < 0.25:
            return self.name()
        base = issuer if self.draw.random() < 0.95 else self.name()
        return self.role() if kind < 0.7 else f"{self.role(base)}.{self.draw.choice(self.roles)}"

    def body(self, issuer):
        kind = self.draw.random()
        if kind < 0.45:
            return self.name()
        if kind < 0.8:
            return self.part(issuer)
        count = self.draw.choice([2, 2, 2, 3, 3, 4, 8, 9])
        return self.draw.choice([" & ", "&"]).join(self.part(issuer) for _ in range(count))

    def credential(self, tenant):
        issuer = tenant.name if self.draw.random() < 0.97 else self.name()
        return f"{self.role(issuer)}{self.draw.choice([' <- ', '<-'])}{self.body(issuer)}"

    def held(self, tenant):
        if tenant.vault and self.draw.random() < 0.9:
            return rt0.credential_text(self.draw.choice(sorted(tenant.vault)))
        return self.credential(tenant)

    def number(self, tenant):
        known = list(tenant.unended)
        return self.draw.choice(known) if known and self.draw.random() < 0.9 else self.draw.choice([0, 1, 2, 7, "x"])

    def act(self):
        tenant = self.draw.choice(list(self.hall.tenants.values()))
        acts = [(30, self.put), (4, self.drop), (10, self.grant), (3, self.revoke), (8, self.ask), (4, self.look_through),
                (4, self.search_on), (3, self.close), (2, self.show)]
        (act,) = self.draw.choices([act for _, act in acts], [weight for weight, _ in acts])
        act(tenant)

    def put(self, tenant):
        self.say(tenant.name, f"put {self.credential(tenant)}")

    def drop(self, tenant):
        self.say(tenant.name, f"drop {self.held(tenant)}")

    def reader(self):
        """A name, or what stands for all, or looks so."""
        return self.name() if self.draw.random() < 0.75 else self.draw.choice(ALL)

    def grant(self, tenant):
        self.say(tenant.name, f"grant {self.reader()}")

    def revoke(self, tenant):
        self.say(tenant.name, f"revoke {self.reader()}")

    def asked(self, tenant):
        """A role, mostly one that a credential gives members to."""
        heads = sorted({head for head, _ in self.hall.view(tenant)})
        return rt0.text_of(self.draw.choice(heads)) if heads and self.draw.random() < 0.9 else self.role()

    def ask(self, tenant):
        role = self.asked(tenant)
        self.say(tenant.name, f"ask {role} {self.name()}" if self.draw.random() < 0.6 else f"who {role}")

    def search_on(self, tenant):
        number = self.number(tenant)
        for command in ["poll", "wait", "poll"]:
            self.say(tenant.name, f"{command} {number}")
        self.say(tenant.name, f"proof {number} {self.name()}")

    def close(self, tenant):
        self.say(tenant.name, f"end {self.number(tenant)}")

    def show(self, tenant):
        self.say(tenant.name, self.draw.choice(["vault", "sees"]))

    def look_through(self, tenant):
        """Who is in a role, why is each of them, and why not the others; and the same asked one by one."""
        role = self.asked(tenant)
        self.say(tenant.name, f"who {role}")
        number = tenant.opened
        self.say(tenant.name, f"wait {number}")
        for name in self.names:
            self.say(tenant.name, f"proof {number} {name}")
        for name in self.draw.sample(self.names, 2):
            self.say(tenant.name, f"ask {role} {name}")
            self.say(tenant.name, f"wait {tenant.opened}")
            self.say(tenant.name, f"end {tenant.opened}")
        self.say(tenant.name, f"end {number}")

    def text(self):
        text = b"\n".join(self.lines)
        return text if self.draw.random() < 0.2 and not text.endswith(b"\r") else text + b"\n"


def compare(script):
    ran = subprocess.run([PROGRAM, "script"], input=script.text(), stdout=subprocess.PIPE)
    output = Output(ran.stdout.decode("ascii").splitlines())
    wrong = output.first_wrong(script.expected)
    if not wrong and not output.is_read():
        wrong = f"{output.next()!r} follows"
    if not wrong and ran.returncode != script.status:
        wrong = f"status {ran.returncode} in place of {script.status}"
    return wrong, output.counts


def main(scripts=300, first=1, length=150):
    sys.setrecursionlimit(100000)
    subprocess.run([ROOT / "rtsearch", "--version"], stdout=subprocess.DEVNULL)  # builds the program where it isn't yet
    total, bad = Counter(), 0
    for number in range(first, first + scripts):
        script = Script(number, length)
        script.make()
        wrong, counts = compare(script)
        total += counts
        total["lines"] += len(script.lines)
        if wrong:
            bad += 1
            print(f"script {number}: {wrong}")
    for name, count in sorted(total.items()):
        print(f"{name}: {count}")
    print(f"{scripts} scripts, {scripts - bad} as wanted, {bad} otherwise")
    return 1 if bad else 0


if __name__ == "__main__":
    sys.exit(main(*map(int, sys.argv[1:])))
