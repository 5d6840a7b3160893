"""A crowd of tenants who may all speak at once: each reads the vault of the next one, of which only roles matter to it that
stay as they are. One in eight lets all read its vault from the start, and goes on so. So what a tenant is told depends on its
own lines alone, whenever the others say theirs."""
import random

import rt0
from rt0 import Refused
from tenants import Hall, refusal

USUAL = "1000 100 64 1000000 1000000"
ROLES = ["r", "s", "t", "R-", "link"]
FAULTS = ["look", "hello T01 word", "quit now", "ask A.r", "ask A D", "who 9.r", "wait x", "wait 999", "end 0", "proof 1",
          "put A.r = D", "put Z.r <- D", "put A.r <- Z.s.t", "drop Z.r <- D", "grant 9", "grant A_", "grant **",
          "grant * *", "vault all", "T01: sees"]  # fmt: skip


class Speaker:
    """A tenant, with the lines that it says and what each has to be answered."""

    def __init__(self, crowd, place):
        self.draw = random.Random(crowd.first * 1000 + place)
        self.hall, self.name, self.next = crowd.hall, crowd.names[place], crowd.names[(place + 1) % len(crowd.names)]
        self.tenant = self.hall.tenants[self.name]
        self.said, self.expected = [], []

    def say(self, text):
        try:
            told = self.hall.command(self.tenant, text)
        except Refused as refused:
            told = [refusal(refused.number)]
        self.said.append(text)
        self.expected.append(told)
        return told[0]

    # what stays

    def begin(self, place, reader):
        """What the tenant has from the start, and that the one before it reads."""
        name, other = self.name, self.next
        for text in [f"{name}.open <- D{place % 9}", f"{name}.open <- D{(place + 1) % 9}", f"{name}.friends <- {other}",
                     f"{name}.all <- {name}.friends.open", f"{name}.both <- {name}.open & {other}.open"]:  # fmt: skip
            self.say(f"put {text}")
        self.say(f"grant {reader}")
        if place % 8 == 3:
            self.say("grant *")

    # what changes

    def member(self):
        return f"D{self.draw.randrange(9)}"

    def role(self):
        return f"{self.name}.{self.draw.choice(ROLES)}"

    def part(self):
        name = self.name
        parts = [self.member(), self.role(), f"{name}.all", f"{name}.both", f"{self.next}.open",
                 f"{self.role()}.open", f"{name}.friends.open", name]  # fmt: skip
        return self.draw.choice(parts)

    def credential(self):
        count = self.draw.choice([1, 1, 1, 1, 2, 3])
        return f"{self.role()} <- {' & '.join(self.part() for _ in range(count))}"

    def changing(self):
        return [each for each in sorted(self.tenant.vault) if each[0][2] in ROLES]

    def put_or_drop(self):
        held = self.changing()
        if len(held) > 6 and self.draw.random() < 0.6:
            self.say(f"drop {rt0.credential_text(self.draw.choice(held))}")
        else:
            self.say(f"put {self.credential()}")

    def search(self):
        """A search from its opening on; it may stay open."""
        role = self.draw.choice([self.role(), self.role(), f"{self.name}.all", f"{self.name}.both", f"{self.next}.open"])
        member = self.member()
        told = self.say(f"who {role}" if self.draw.random() < 0.5 else f"ask {role} {member}")
        if told.startswith("search"):
            number = self.tenant.opened
            self.say(f"wait {number}")
            if self.draw.random() < 0.5:
                self.say(f"proof {number} {member}")
            if self.draw.random() < 0.9:
                self.say(f"end {number}")

    def look_back(self):
        for number in self.draw.sample(sorted(self.tenant.unended), min(2, len(self.tenant.unended))):
            self.say(self.draw.choice([f"wait {number}", f"poll {number}", f"end {number}", f"proof {number} {self.member()}"]))

    def show(self):
        self.say(self.draw.choice(["vault", "sees"]))

    def grant(self):
        if self.draw.random() < 0.2:
            self.say("grant *" if self.tenant.is_public else "revoke *")
        else:
            self.say(f"{self.draw.choice(['grant', 'revoke'])} Outside{self.draw.randrange(3)}")

    def stumble(self):
        self.say(self.draw.choice(FAULTS))

    def speak(self, count):
        """So many lines."""
        self.said, self.expected = [], []
        acts = [(30, self.put_or_drop), (20, self.search), (8, self.look_back), (8, self.show), (6, self.grant), (6, self.stumble)]
        while len(self.said) < count:
            (act,) = self.draw.choices([act for _, act in acts], [weight for weight, _ in acts])
            act()
        del self.said[count:], self.expected[count:]


class Crowd:
    """So many tenants, one in eight with a small limit of work; first all that stays, then so many lines of each."""

    def __init__(self, size, count, first=1):
        self.first = first
        self.names = [f"T{place:02}" for place in range(1, size + 1)]
        self.words = {name: f"word-{name}" for name in self.names}
        self.hall = Hall()
        self.roster = "".join(self.roster_line(place) for place in range(size)) + "begin\n"
        for line in self.roster.encode("ascii").splitlines():
            assert self.hall.enroll(line)
        self.speakers = [Speaker(self, place) for place in range(size)]
        for place, speaker in enumerate(self.speakers):
            speaker.begin(place, self.names[place - 1])
        self.beginnings = [(speaker.name, speaker.said, speaker.expected) for speaker in self.speakers]
        for speaker in self.speakers:
            speaker.speak(count)

    def roster_line(self, place):
        name = self.names[place]
        return f"tenant {name} {self.words[name]} {USUAL} {25 if place % 8 == 7 else 1000000}\n"

    def script(self):
        """All lines in one script: what stays, and then the tenants in turn."""
        lines = [f"{name}: {text}\n" for name, said, _ in self.beginnings for text in said]
        for texts in zip(*[speaker.said for speaker in self.speakers]):
            lines += [f"{speaker.name}: {text}\n" for speaker, text in zip(self.speakers, texts)]
        return self.roster + "".join(lines)
