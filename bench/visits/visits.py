#!/usr/bin/env python3
"""visits.py PROGRAM SIZE QUESTIONS: instructions for a letter of six families of credentials, counted by callgrind."""
import re
import socket
import subprocess
import sys
import tempfile
from pathlib import Path

sys.path.insert(0, str(Path(__file__).resolve().parent.parent / "peers"))
from families import chain, circles, federation, meet, nested, wide  # noqa: E402

MOST = 1_000_000


def spelled(owner, body):
    """The text of a body of that owner's credential."""
    match body:
        case ("e", name):
            return name
        case ("r", base, role):
            return f"{base}.{role}"
        case ("l", first, second):
            return f"{owner}.{first}.{second}"
        case ("m", *parts):
            return " & ".join(spelled(owner, part) for part in parts)


def lines_of(credentials):
    """What each tenant says before anybody asks: its credentials, and that A may read them."""
    said = {"A": []}
    for owner, role, body in credentials:
        said.setdefault(owner, []).append(f"put {owner}.{role} <- {spelled(owner, body)}")
    for owner, lines in said.items():
        if owner != "A":
            lines.append("grant A")
    return said


def questions(role, count):
    """The same question over and over, each waited for and ended."""
    return [line for n in range(1, count + 1) for line in (f"who {'.'.join(role)}", f"wait {n}", f"end {n}")]


def roster(tenants, work):
    limits = f"100000 1000 64 {MOST} {MOST} {work}"
    return "".join(f"tenant {name} word {limits}\n" for name in tenants) + "begin\n"


def script(said, asked, work=MOST):
    loaded = [f"{who}: {line}" for who, lines in said.items() for line in lines]
    return roster(said, work) + "\n".join([*loaded, *(f"A: {line}" for line in asked)]) + "\n"


def counted(complaint):
    return int(re.search(r"Collected : (\d+)", complaint)[1])


class Service:
    """The service with one worker and one session, under callgrind, for so many connections."""

    def __init__(self, program, valgrind, tenants):
        command = [*valgrind, program, "serve", "--workers", "1", "--sessions", "1", "--accept", str(len(tenants))]
        self.held = tempfile.TemporaryFile("w+")
        self.held.write(roster(tenants, MOST))
        self.held.seek(0)
        pipe = subprocess.PIPE
        self.run = subprocess.Popen(command, stdin=self.held, stdout=pipe, stderr=pipe, text=True)
        self.port = int(self.run.stdout.readline().rsplit(":", 1)[1])

    def say(self, who, lines):
        """One connection of that tenant, which waits for each reply."""
        with socket.create_connection(("127.0.0.1", self.port)) as peer, peer.makefile("rw") as wire:
            for line in [f"hello {who} word", *lines, "quit"]:
                print(line, file=wire, flush=True)
                wire.readline()

    def instructions(self):
        return counted(self.run.communicate(timeout=600)[1])


class Measured:
    """A family, through the program."""

    def __init__(self, program, family, size):
        self.program = program
        credentials, roles = family(size)
        self.said, self.role = lines_of(credentials), roles[0]
        self.out = tempfile.NamedTemporaryFile()
        self.valgrind = ["valgrind", "--tool=callgrind", f"--callgrind-out-file={self.out.name}"]

    def is_spent(self, work):
        how = {"input": script(self.said, questions(self.role, 1), work), "capture_output": True, "text": True}
        return "A: spent" in subprocess.run([self.program, "script"], check=True, **how).stdout

    def letters(self):
        """The least limit of work under which the question is answered: so many letters it takes."""
        least, most = 1, MOST
        while least < most:
            middle = (least + most) // 2
            least, most = (middle + 1, most) if self.is_spent(middle) else (least, middle)
        return least

    def by_script(self, count):
        how = {"input": script(self.said, questions(self.role, count)), "capture_output": True, "text": True}
        return counted(subprocess.run([*self.valgrind, self.program, "script"], check=True, **how).stderr)

    def by_visits(self, count):
        others = [who for who in self.said if who != "A"]
        service = Service(self.program, self.valgrind, [*others, "A"])
        for who in others:
            service.say(who, self.said[who])
        service.say("A", [*self.said["A"], *questions(self.role, count)])
        return service.instructions()


def main():
    program, size, count = sys.argv[1], int(sys.argv[2]), int(sys.argv[3])
    heads = ["Instructions for a letter", "letters", "through a script", "in visits of one worker"]
    print(f"| {' | '.join(heads)} |\n|{' --- |' * len(heads)}")
    for family in (chain, wide, federation, meet, circles, nested):
        it = Measured(program, family, size)
        letters = it.letters()
        each = [(of(count + 2) - of(2)) / count / letters for of in (it.by_script, it.by_visits)]
        print(f"| {family.__name__} | {letters:,} | {each[0]:,.0f} | {each[1]:,.0f} |", flush=True)


if __name__ == "__main__":
    main()
