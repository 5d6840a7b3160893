#!/usr/bin/env python3
"""Whether the workers of the proved program as a server, `rtsearch serve`, go on with every search to its end. No contract
speaks of it: workers that all sleep while there are letters to take would meet theirs, as where one that goes to stand in line
wakes nobody.

  checks/long_searches.py [ROUNDS]        100 rounds

In each round one session, or three of a tenant each, open a search, of some 480 to 2,000 letters, and wait for it. Nobody says
anything more until all have their answers, so a worker that sleeps is woken by another one or by none. The members of some
roles are far away and few, so that one worker holds all letters that there are, and the others go to sleep. The rounds are
made by 1, 2, 4 and 8 workers. Each answer has to be whole, and to come within a minute.

It prints what went wrong, and last `N passed, M failed`; the status is 1 where one failed. It is part of ./check."""
import sys

from peers import Server, Wrong, want

ROLES = [(8, 30), (1000, 1), (16, 30), (300, 1), (24, 30), (31, 20)]  # how many members, and how far away each is
TENANTS = "ABC"


def found(members):
    return " ".join(["members", *sorted(f"E{member}" for member in range(members))])


def fill(peer, tenant):
    """The tenant's roles `r0`, `r1` and so on: a chain of roles of its own leads to each member."""
    lines = [f"hello {tenant} w"]
    for role, (members, far) in enumerate(ROLES):
        for member in range(members):
            chain = [f"{tenant}.r{role}", *(f"{tenant}.r{role}-{member}-{step}" for step in range(1, far)), f"E{member}"]
            lines += [f"put {head} <- {body}" for head, body in zip(chain, chain[1:])]
    sender = peer.send_beside("".join(f"{line}\n" for line in lines).encode("ascii"))
    want(peer.reply(), [f"hello {tenant}"], "a hello")
    for count in range(1, len(lines)):
        want(peer.reply(), [f"ok {count}"], "what is put")
    sender.join()


def play(workers, sessions, rounds):
    roster = "".join(f"tenant {tenant} w 10000 1 1 100000 100000 100000000\n" for tenant in TENANTS) + "begin\n"
    with Server(roster, sessions, "--workers", str(workers)) as server:
        peers = [(tenant, server.peer()) for tenant in TENANTS[:sessions]]
        for tenant, peer in peers:
            fill(peer, tenant)
        for number in range(1, rounds + 1):
            roles = [(number + place) % len(ROLES) for place in range(sessions)]
            for (tenant, peer), role in zip(peers, roles):
                peer.send(f"who {tenant}.r{role}\nwait {number}\nend {number}\n".encode("ascii"))
            for (_, peer), role in zip(peers, roles):
                for reply in (f"search {number}", found(ROLES[role][0]), "ended"):
                    want(peer.line(), reply, f"round {number}")
        for _, peer in peers:
            peer.__exit__()


def main():
    rounds = int(sys.argv[1]) if len(sys.argv) > 1 else 100
    plays = [(workers, sessions) for workers in (1, 2, 4, 8) for sessions in (1, 3)]
    failed = 0
    for workers, sessions in plays:
        try:
            play(workers, sessions, rounds)
        except (Wrong, OSError) as wrong:
            failed += 1
            print(f"{workers} workers, {sessions} sessions: {wrong}")
    print(f"{len(plays) - failed} passed, {failed} failed")
    return 1 if failed else 0


if __name__ == "__main__":
    sys.exit(main())
