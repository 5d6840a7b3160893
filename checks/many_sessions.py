"""Connections at the same time, each of a tenant of its own, whose replies have to be those of a script."""
import subprocess
import threading
import time
from collections import Counter

import rt0
from crowds import Crowd
from peers import ROOT, Peer, Server, Wrong, want
from tenants import Proof

BAD_HELLO = "error 62 bad hello"


def replies_of(lines):
    """The replies among these lines: each with the lines that it says it has."""
    replies = []
    while lines:
        word, _, count = lines[0].partition(" ")
        end = 1 + (int(count) if word in ("vault", "proof") else 0)
        replies.append(lines[:end])
        lines = lines[end:]
    return replies


def script_replies(crowd):
    """What `rtsearch script` answers to all lines of the crowd: the replies to each tenant."""
    ran = subprocess.run([ROOT / "rtsearch", "script"], input=crowd.script().encode("ascii"), stdout=subprocess.PIPE, check=True)
    lines = {name: [] for name in crowd.names}
    for line in ran.stdout.decode("ascii").splitlines():
        name, _, text = line.partition(": ")
        lines[name].append(text)
    return {name: replies_of(lines[name]) for name in crowd.names}


def check_reply(reply, wanted, in_script, where, counts):
    """Compares a reply with what the protocol wants, and with that of a script."""
    first = reply[0].split(" ")
    counts[" ".join(first[:2]) if first[0] == "error" else first[0]] += 1
    counts["reply lines"] += len(reply)
    if isinstance(wanted[0], Proof):
        proof = wanted[0]
        if first[0] != "proof" or not rt0.is_proof(reply[1:], proof.who, proof.role, proof.credentials):
            raise Wrong(f"{where}: no proof of {proof.who}: {reply}")
        counts["proofs that differ from the script's"] += reply != in_script
    else:
        want(reply, wanted, where)
        want(reply, in_script, f"{where}, by a script")


class Connection(threading.Thread):
    """A tenant's connection in a thread of its own, which keeps the replies and what went wrong."""

    def __init__(self, port, speaker, word, ahead):
        super().__init__()
        self.port, self.speaker, self.word, self.ahead = port, speaker, word, ahead
        self.replies, self.wrong = [], None

    def run(self):
        try:
            with Peer(self.port) as peer:
                self.say_all(peer)
        except (Wrong, OSError, ValueError) as wrong:
            self.wrong = wrong

    def say_all(self, peer):
        name = self.speaker.name
        want(peer.ask("sees"), ["error 61 no hello"], name)
        want(peer.ask(f"hello {name} {self.word}x"), [BAD_HELLO], name)
        want(peer.ask(f"hello {name} {self.word}"), [f"hello {name}"], name)
        if self.ahead:
            sender = peer.send_beside("".join(f"{text}\n\n" for text in self.speaker.said).encode("ascii"))
            self.replies = [peer.reply() for _ in self.speaker.said]
            sender.join()
        else:
            self.replies = [peer.ask(text) for text in self.speaker.said]
        want(peer.ask("quit"), ["bye"], name)
        want(peer.rest(), b"", f"{name} after bye")


def begin_all(server, crowd, told):
    """What stays is said by one session after the other."""
    for name, said, expected in crowd.beginnings:
        with server.peer() as peer:
            want(peer.ask(f"hello {name} {crowd.words[name]}"), [f"hello {name}"], name)
            peer.talk(said, expected, name)
            want(told[name][: len(said)], expected, f"{name}, by a script")


def many_at_once(size, count, first, sessions):
    crowd = Crowd(size, count, first)
    told = script_replies(crowd)
    counts = Counter()
    with Server(crowd.roster, 2 * size, "--sessions", str(sessions)) as server:
        begin_all(server, crowd, told)
        connections = [Connection(server.port, speaker, crowd.words[speaker.name], place % 2)
                       for place, speaker in enumerate(crowd.speakers)]  # fmt: skip
        began = time.monotonic()
        for connection in connections:
            connection.start()
        for connection in connections:
            connection.join()
        seconds = time.monotonic() - began
        wrong = [connection for connection in connections if connection.wrong]
        if wrong:
            raise Wrong(f"{len(wrong)} connections, {wrong[0].speaker.name} first: {wrong[0].wrong}")
        for connection in connections:
            speaker = connection.speaker
            in_script = told[speaker.name][-count:]
            for rows in zip(connection.replies, speaker.expected, in_script, speaker.said, strict=True):
                check_reply(*rows[:3], f"{speaker.name}: {rows[3]}", counts)
    requests = sum(len(connection.replies) for connection in connections)
    print(f"{size} connections at once over {sessions} sessions: {requests} requests in {seconds:.1f} s, each answered as in a script")
    for kind, number in sorted(counts.items()):
        print(f"  {kind}: {number}")
