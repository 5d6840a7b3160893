"""The program as a server, peers that talk to it, and what a session is answered by the protocol's words."""
import contextlib
import pathlib
import socket
import subprocess
import threading

from rt0 import Refused
from tenants import lines_of, read_line, refusal

ROOT = pathlib.Path(__file__).resolve().parent.parent
PATIENCE = 60  # seconds, after which a peer has waited in vain


class Wrong(Exception):
    """Something else came than had to come."""


def want(came, wanted, where):
    if came != wanted:
        raise Wrong(f"{where}: {came!r} in place of {wanted!r}")


class Server:
    """`rtsearch serve` with this roster, which serves so many connections, and then has to end as it should."""

    def __init__(self, roster, accept, *words):
        self.accept = accept
        words = ["serve", "--accept", str(accept), *words]
        self.process = subprocess.Popen([ROOT / "rtsearch", *words], stdin=subprocess.PIPE, stdout=subprocess.PIPE)
        self.process.stdin.write(roster.encode("ascii"))
        self.process.stdin.close()
        self.first_line = self.process.stdout.readline().decode("ascii")
        if not self.first_line.startswith("listening 127.0.0.1:"):
            raise Wrong(f"the server begins with {self.first_line!r}")
        self.port = int(self.first_line.rpartition(":")[2])

    def __enter__(self):
        return self

    def __exit__(self, kind, *_):
        if kind is None:
            rest = self.process.stdout.read().decode("ascii")
            want((rest, self.process.wait(PATIENCE)), (f"served {self.accept}\n", 0), "the server's end")
        else:
            self.process.kill()
            self.process.wait()

    def peer(self):
        return Peer(self.port)

    def most_memory(self):
        """The most memory that the server has had so far, in kilobytes."""
        lines = pathlib.Path(f"/proc/{self.process.pid}/status").read_text().splitlines()
        return next(int(line.split()[1]) for line in lines if line.startswith("VmHWM:"))


class Peer:
    """One connection."""

    def __init__(self, port):
        self.socket = socket.create_connection(("127.0.0.1", port), PATIENCE)
        self.lines = self.socket.makefile("rb")

    def __enter__(self):
        return self

    def __exit__(self, *_):
        self.lines.close()
        self.socket.close()

    def send(self, data):
        self.socket.sendall(data)

    def say(self, line):
        self.send(line.encode("ascii") + b"\n")

    def line(self):
        line = self.lines.readline().decode("ascii")
        if not line.endswith("\n"):
            raise Wrong(f"a line ends early: {line!r}")
        return line[:-1]

    def reply(self):
        """The lines of the next reply: one, or as many more as it says."""
        first = self.line()
        word, _, count = first.partition(" ")
        more = int(count) if word in ("vault", "proof") else 0
        return [first, *[self.line() for _ in range(more)]]

    def ask(self, line):
        self.say(line)
        return self.reply()

    def rest(self):
        """All that still comes, after this side has said its last."""
        with contextlib.suppress(OSError):
            self.socket.shutdown(socket.SHUT_WR)
        return self.lines.read()

    def talk(self, lines, replies, where):
        """Says each line, and compares its reply."""
        for line, reply in zip(lines, replies, strict=True):
            want(self.ask(line), reply, f"{where}: {line}")

    def send_beside(self, data):
        """Sends while replies are read."""
        sender = threading.Thread(target=self.send, args=(data,))
        sender.start()
        return sender


def session_replies(hall, words, data):
    """The lines with which a session answers these bytes, over the tenants of the hall, where nobody else speaks."""
    tenant, replies = None, []
    for line in lines_of(data):
        try:
            text = read_line(line)
            words_said = text.split()
            if text == "":
                continue
            if words_said == ["quit"]:
                return [*replies, "bye"]
            if tenant is not None:
                replies += hall.command(tenant, text)
            elif words_said[0] != "hello":
                raise Refused(61)
            elif len(words_said) != 3:
                raise Refused(64)
            elif words.get(words_said[1]) != words_said[2]:
                raise Refused(62)
            else:
                tenant = hall.tenants[words_said[1]]
                replies.append(f"hello {tenant.name}")
        except Refused as refused:
            replies.append(refusal(refused.number))
    return replies
