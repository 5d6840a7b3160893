#!/usr/bin/env python3
"""Transcripts of sessions, each played against the proved program, `rtsearch serve`, over TCP.

  checks/transcripts.py [FILE..]

A file of `cases/`, NAME.session, begins with a roster, up to `begin`. Then each line begins with the number of a peer, who
connects where it first stands:

  1> put A.r <- D     the first peer says this line
  1< ok 1             and is told this one
  1| put A.r <- E     it says this without a newline, and no more
  1x put A.r <- E     it says this without a newline, and closes its connection

A service of a transcript in which somebody closes has one session, so the next peer's begins once the one before is over. At
the end no peer says more, and none is told more. It prints what went wrong, and last `N passed, M failed`; the status is 1
where one failed. It is part of ./check."""
import pathlib
import re
import socket
import sys

from peers import ROOT, Server, Wrong, want


def read(path):
    """The roster, and the lines behind it: a peer's number, what it does, and the text."""
    roster, begin, talk = path.read_text(encoding="ascii").partition("\nbegin\n")
    lines = [re.fullmatch(r"(\d+)([<>|x]) (.*)", line) for line in talk.splitlines()]
    if not lines or None in lines:
        raise Wrong(f"{path.name} has no talk, or a line of no peer")
    return roster + begin, [line.groups() for line in lines]


def play(path):
    roster, lines = read(path)
    closes = any(does == "x" for _, does, _ in lines)
    with Server(roster, len({number for number, _, _ in lines}), "--sessions", "1" if closes else "64") as server:
        peers = {}
        for number, does, text in lines:
            if number not in peers:
                peers[number] = server.peer()
            peer = peers[number]
            if does == "<":
                want(peer.line(), text, f"{path.name}: peer {number}")
            elif does == ">":
                peer.say(text)
            else:
                peer.send(text.encode("ascii"))
                peer.socket.shutdown(socket.SHUT_WR)
            if does == "x":
                peers.pop(number).__exit__()
        for number, peer in peers.items():
            want(peer.rest(), b"", f"{path.name}: what peer {number} is told at the end")


def main():
    paths = [pathlib.Path(word) for word in sys.argv[1:]] or sorted((ROOT / "cases").glob("*.session"))
    failed = 0
    for path in paths:
        try:
            play(path)
        except (Wrong, OSError) as wrong:
            failed += 1
            print(wrong)
    print(f"{len(paths) - failed} passed, {failed} failed")
    return 1 if failed else 0


if __name__ == "__main__":
    sys.exit(main())
