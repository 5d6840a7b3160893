#!/usr/bin/env python3
"""Draws what bench/trace.sh prints as a diffusing computation: a column for each node, time downwards.

  bench/trace/draw.py < bench/trace/clinic.trace > docs/pictures/search.svg

An arrow is a letter, with its number: an ask, or a tell. A dotted arrow is a signal. A node is engaged, and its column
thick, from the letter that engages it to the signal that it sends when it is owed nothing more. The trace has no names. So
the letters are followed here by the table of letters, over the two credentials of that search, and after each step the
letters that wait and the signals under way have to be as many as the trace says."""
import sys
from collections import deque

ENVIRONMENT, STAFF, DOCTORS, ADA = "who asks", "Archive.staff", "Clinic.doctors", "Ada"
BODIES = {STAFF: [DOCTORS], DOCTORS: [ADA]}
COLUMN, TOP, STEP, LEFT = 190, 62, 34, 90  # pixels


class Search:
    """The search, with all that was drawn: arrows as (step, kind, from, to, word), and stretches of engagement."""

    def __init__(self):
        self.letters, self.signals = deque([(1, ENVIRONMENT, STAFF, "ask")]), deque()
        self.sent, self.parent, self.owed = 1, {}, {ENVIRONMENT: 1}
        self.listeners, self.solved, self.asked = {}, {}, set()
        self.arrows, self.begun, self.stretches = [], {}, []

    def send(self, sender, receiver, kind):
        self.sent += 1
        self.owed[sender] = self.owed.get(sender, 0) + 1
        self.letters.append((self.sent, sender, receiver, kind))

    def solve(self, node):
        """The node has Ada as a new solution, and tells each listener."""
        if not self.solved.get(node):
            self.solved[node] = True
            for listener in self.listeners.get(node, []):
                self.send(node, listener, "tell")

    def receive(self, node, sender, kind):
        if kind == "tell":
            return self.solve(node)
        if sender != ENVIRONMENT:
            self.listeners.setdefault(node, []).append(sender)
            if self.solved.get(node):
                self.send(node, sender, "tell")
        if node not in self.asked:
            self.asked.add(node)
            if node == ADA:
                self.solve(node)
            for body in BODIES.get(node, []):
                self.send(node, body, "ask")

    def finish(self, step, number):
        found, sender, node, kind = self.letters.popleft()
        assert found == number, f"letter {found} in place of {number}"
        self.arrows.append((step, kind, sender, node, f"{kind} {number}"))
        if node in self.parent:
            self.signals.append((node, sender))
        else:
            self.parent[node], self.begun[node] = sender, step
        self.receive(node, sender, kind)
        self.rest(step, node)

    def signal(self, step):
        sender, node = self.signals.popleft()
        self.arrows.append((step, "signal", sender, node, ""))
        self.owed[node] -= 1
        self.rest(step, node)

    def rest(self, step, node):
        """A node that is owed nothing more becomes neutral, and signals to the one that engaged it."""
        if node != ENVIRONMENT and node in self.parent and not self.owed.get(node):
            self.signals.append((node, self.parent.pop(node)))
            self.stretches.append((node, self.begun.pop(node), step))


def follow(lines):
    search = Search()
    for step, line in enumerate(lines):
        number, needs, waiting, signals = line.split()
        if number == "0":
            search.signal(step)
        else:
            assert (needs == "rows") == (search.letters[0][3] == "ask" and "." in search.letters[0][2]), line
            search.finish(step, int(number))
        assert (len(search.letters), len(search.signals)) == (int(waiting), int(signals)), line
    assert not search.parent and not search.owed[ENVIRONMENT], "the search isn't complete"
    return search


def across(node):
    return LEFT + COLUMN * [ENVIRONMENT, STAFF, DOCTORS, ADA].index(node)


def down(step):
    return TOP + STEP * (step + 0.5)


def style_of():
    yield "text{font:12px 'DejaVu Sans',Verdana,sans-serif;text-anchor:middle} .word{font-size:11px} .ask,.tell,.signal{fill:none;stroke-width:1.8}"
    yield ".signal{stroke-dasharray:2 4} .life{stroke-width:1} .node{font-weight:bold}"
    for media, paper, ink, life, engaged, ask, tell, signal in (
        ("", "#ffffff", "#111827", "#cbd5e1", "#dbe4f0", "#1d4ed8", "#047857", "#b45309"),
        ("@media (prefers-color-scheme: dark){", "#0d1117", "#e6edf3", "#3b4657", "#263548", "#7db2ff", "#4fd1a1", "#f5b553"),
    ):
        yield f"{media}.paper{{fill:{paper}}} text{{fill:{ink}}} .life{{stroke:{life}}} .engaged{{fill:{engaged};stroke:{life}}}"
        yield f".ask{{stroke:{ask}}} .tell{{stroke:{tell}}} .signal{{stroke:{signal}}} .head.ask{{fill:{ask}}} .head.tell{{fill:{tell}}} .head.signal{{fill:{signal}}} .head{{stroke:none}}"
        yield "}" if media else ""


def draw_arrow(step, kind, sender, node, word):
    y, start, end = down(step), across(sender), across(node)
    toward = 1 if end > start else -1
    start, end = start + toward * 9, end - toward * 9
    yield f'<path class="{kind}" d="M{start} {y}H{end - toward * 6}"/><path class="head {kind}" d="M{end} {y}l{-toward * 9} -4.5v9z"/>'
    if word:
        yield f'<text class="word" x="{(start + end) / 2}" y="{y - 5}">{word}</text>'


def main():
    lines = sys.stdin.read().splitlines()
    search = follow(lines)
    width, height = 2 * LEFT + 3 * COLUMN, TOP + STEP * len(lines) + 20
    print(f'<svg xmlns="http://www.w3.org/2000/svg" width="{width}" height="{height}" viewBox="0 0 {width} {height}" role="img">')
    print("<title>A search as letters and signals between nodes, from its first letter to its last signal</title>")
    print("\n".join(["<style>", *style_of(), "</style>", '<rect class="paper" width="100%" height="100%"/>']))
    for node in (ENVIRONMENT, STAFF, DOCTORS, ADA):
        print(f'<path class="life" d="M{across(node)} {TOP - 14}V{height - 10}"/><text class="node" x="{across(node)}" y="{TOP - 24}">{node}</text>')
    for node, begin, end in search.stretches:
        print(f'<rect class="engaged" x="{across(node) - 7}" y="{down(begin) - 4}" width="14" height="{down(end) - down(begin) + 8}" rx="3"/>')
    for arrow in search.arrows:
        print("\n".join(draw_arrow(*arrow)))
    print("</svg>")


main()
