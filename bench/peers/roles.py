"""RT0's four rules in plain Python, for PyPy: a question finds the members of what it needs, each new member going once along
each use of it.

  roles.py FACTS          prints each question's number with each member"""
import re
import sys


def load(path):
    """What each role has as bodies, the parts of each intersection, and the questions. A role is a pair, a linked role a triple
    of its owner, its base and its last name, an intersection a number, and an entity a text."""
    bodies, parts, questions = {}, {}, []
    for line in open(path):
        kind, _, rest = line.partition("(")
        words = [word.strip('"') if word[0] == '"' else int(word) for word in re.findall(r'"[^"]*"|[0-9]+', rest)]
        if kind == "question":
            questions.append(tuple(words))
        elif kind.startswith("part"):
            parts.setdefault(words[0], []).append((words[1], body_of(kind, words[2:])))
        else:
            body = words[2] if kind == "meet" else body_of(kind, words[2:] if kind != "linked" else [words[0], *words[2:]])
            bodies.setdefault((words[0], words[1]), []).append(body)
    return bodies, {number: [part for _, part in sorted(some, key=lambda one: one[0])] for number, some in parts.items()}, questions


def body_of(kind, words):
    return words[0] if kind in ("member", "part_entity") else tuple(words)


class Search:
    """What was found so far: of each expression its members and its uses, each an expression and a place."""

    def __init__(self, bodies, parts):
        self.bodies, self.parts = bodies, parts
        self.members, self.uses, self.told = {}, {}, {}
        self.unopened, self.news = [], []

    def need(self, what):
        if what not in self.members:
            self.members[what], self.uses[what] = {}, []
            self.unopened.append(what)

    def use(self, what, user, place):
        self.need(what)
        self.uses[what].append((user, place))
        for member in list(self.members[what]):
            self.tell(user, place, member)

    def open(self, what):
        if isinstance(what, str):
            self.add(what, what)
        elif isinstance(what, int):
            for place, part in enumerate(self.parts[what]):
                self.use(part, what, place)
        elif len(what) == 3:
            self.use(what[:2], what, what[2])
        else:
            for body in self.bodies.get(what, ()):
                self.use(body, what, None)

    def add(self, what, member):
        if member not in self.members[what]:
            self.members[what][member] = True
            self.news.append((what, member))

    def tell(self, user, place, member):
        if place is None:
            self.add(user, member)
        elif isinstance(place, str):
            if (user, member) not in self.told:
                self.told[user, member] = True
                self.use((member, place), user, None)
        else:
            places = self.told.setdefault((user, member), set())
            places.add(place)
            if len(places) == len(self.parts[user]):
                self.add(user, member)

    def members_of(self, role):
        self.need(role)
        while self.unopened or self.news:
            if self.unopened:
                self.open(self.unopened.pop())
                continue
            what, member = self.news.pop()
            for user, place in list(self.uses[what]):
                self.tell(user, place, member)
        return self.members[role]


def main():
    bodies, parts, questions = load(sys.argv[1])
    for number, owner, role in questions:
        for member in Search(bodies, parts).members_of((owner, role)):
            print(number, member)


main()
