#!/usr/bin/env python3
"""The command line of the proved program: what it asks for, how it is refused, and with which status it ends. In a second.

  checks/command_line.py

- A script that was answered ends with 0, one with a faulty roster with 1, and one whose output nobody takes with 1.
- Words that are no command line end with 2 and a text that is no reply, and nothing of the input was read; so do `--help`,
  `--version`, and a word that isn't UTF-8.
- A service that is told nothing has 4 workers and 8 sessions, at a free port. Each option has its own number, from the least
  to the greatest that it may have; one less or one more is refused.

It prints a line for each, and last `N passed, M failed`; the status is 1 where one failed. It is part of ./check."""
import os
import socket
import subprocess
import sys
import tempfile
import time

from peers import PATIENCE, ROOT, Wrong, want

PROGRAM = ROOT / "crates/rtsearch/out/rtsearch"
ROSTER = b"tenant A a\nbegin\n"
SCRIPT = ROSTER + b"A: put A.r <- D\nA: ask A.r D\nA: wait 1\n"
OWN_THREADS = 2  # one makes the others, and one accepts
HELP = "Answers membership questions over RT0 credentials\n"


def run(words, data, **streams):
    """The output and the status of the program on these words, and how much it read of the input."""
    with tempfile.TemporaryFile() as file:
        file.write(data)
        file.seek(0)
        streams = {"stdout": subprocess.PIPE, **streams}
        ran = subprocess.run([PROGRAM, *words], stdin=file, timeout=PATIENCE, **streams)
        return ran.stdout, ran.returncode, os.lseek(file.fileno(), 0, os.SEEK_CUR)


def scripts():
    want(run(["script"], SCRIPT), (b"A: ok 1\nA: search 1\nA: yes\n", 0, len(SCRIPT)), "a script")
    faulty = b"tenant A a\nA: wait 1\n"
    want(run(["script"], faulty)[:2], (b"?: error 63 roster\n", 1), "a faulty roster")
    with open("/dev/full", "wb") as full:
        want(run(["script"], SCRIPT, stdout=full)[1], 1, "output that nobody takes")
    return "how a script ends"


def refused(words, front):
    out, status, read = run(words, SCRIPT)
    want((out.decode("ascii").startswith(front), status, read), (True, 2, 0), f"{words}: {out!r}")


def refusals():
    lines = [[], ["serv"], ["script", "now"], ["script", "--port", "1"], ["--port", "1"], ["serve", "now"], ["serve", "--threads", "2"]]
    lines += [["serve", "--port"], ["serve", "--port", "x"], ["serve", "--accept", "1", "--accept", "1"]]
    for words in lines:
        refused(words, "error: ")
    refused(["--help"], HELP)
    refused(["--version"], "rtsearch 0.1.0\n")
    refused([b"\xff"], "error: a word of the command line is not UTF-8\n")
    return f"{len(lines) + 3} command lines that are refused"


class Service:
    """`rtsearch serve` with these words, before its first connection."""

    def __init__(self, *words):
        self.process = subprocess.Popen([PROGRAM, "serve", *words], stdin=subprocess.PIPE, stdout=subprocess.PIPE)
        self.process.stdin.write(ROSTER)
        self.process.stdin.close()
        self.port = int(self.process.stdout.readline().rpartition(b":")[2])

    def __enter__(self):
        return self

    def __exit__(self, *_):
        self.process.kill()
        self.process.wait()
        self.process.stdout.close()

    def answer(self):
        with socket.create_connection(("127.0.0.1", self.port), PATIENCE) as peer:
            peer.sendall(b"hello A a\nask A.r D\nwait 1\nquit\n")
            want(peer.makefile("rb").read(), b"hello A\nsearch 1\nno\nbye\n", "a session")

    def threads(self):
        return len(os.listdir(f"/proc/{self.process.pid}/task"))

    def threads_after(self, wanted):
        """How many threads it has, once there are as many as are wanted and it has answered a session since."""
        end = time.monotonic() + PATIENCE
        while self.threads() < wanted and time.monotonic() < end:
            time.sleep(0.01)
        self.answer()
        return self.threads()


def free_port():
    with socket.create_server(("127.0.0.1", 0)) as found:
        return found.getsockname()[1]


def options():
    for words, workers, sessions in [
        ([], 4, 8), (["--workers=64"], 64, 8), (["--sessions", "64"], 4, 64), (["--workers=1", "--sessions", "3"], 1, 3),
    ]:  # fmt: skip
        with Service(*words) as service:
            threads = workers + sessions + OWN_THREADS
            want(service.threads_after(threads), threads, f"the threads of serve {' '.join(words)}")
    port = free_port()
    with Service("--accept", "1000000", "--port", str(port), "--idle=86400") as service:
        want(service.port, port, "the port")
        service.answer()
    with Service("--idle", "1") as service, socket.create_connection(("127.0.0.1", service.port), PATIENCE) as peer:
        want(peer.recv(1), b"", "what a silent peer is told")
    with Service("--accept=1") as service:
        service.answer()
        want((service.process.stdout.read(), service.process.wait(PATIENCE)), (b"served 1\n", 0), "the end after one connection")
    bounds = {"port": (-1, 65536), "workers": (0, 65), "sessions": (0, 65), "accept": (0, 1_000_001), "idle": (0, 86_401)}
    for option, values in bounds.items():
        for value in values:
            refused(["serve", f"--{option}={value}"], "error: ")
    return "each option of a service, and one less and one more than it may be"


def main():
    failed = 0
    checks = [scripts, refusals, options]
    for check in checks:
        try:
            print(check())
        except Wrong as wrong:
            failed += 1
            print(f"{check.__name__}: {wrong}")
    print(f"{len(checks) - failed} passed, {failed} failed")
    return 1 if failed else 0


if __name__ == "__main__":
    sys.exit(main())
