"""What a script's lines are answered, by the protocol's words: rosters, lines, commands, limits, accounts. Written from
docs/PROTOCOL.md alone; who is in a role is asked of rt0."""
import re

import rt0
from rt0 import Refused

TEXTS = {
    11: "empty name", 12: "name start", 13: "name byte", 14: "name too long", 15: "not a role", 21: "no arrow",
    22: "head", 23: "empty body", 24: "too many dots", 25: "link base", 26: "parts", 27: "credential too long",
    31: "not issuer", 32: "already held", 33: "not held", 34: "already granted", 35: "not granted", 36: "grant self",
    41: "creds limit", 42: "grants limit", 43: "searches limit", 44: "changes limit", 45: "opens limit",
    51: "no such search", 52: "not done", 53: "no proof", 61: "no hello", 62: "bad hello", 63: "roster", 64: "command",
    65: "line too long", 66: "not ascii",
}  # fmt: skip
USUAL = [1000, 100, 16, 10000, 10000, 1000000]
MOST = [100000, 1000, 64, 1000000, 1000000000, 4294967296]
WORDS = {"grant": 1, "revoke": 1, "ask": 2, "who": 1, "poll": 1, "wait": 1, "proof": 2, "end": 1, "vault": 0, "sees": 0}


def refusal(number):
    return f"error {number} {TEXTS[number]}"


class Proof:
    """A reply to this asker that is any proof that the entity is in the role, from these credentials."""

    def __init__(self, asker, who, role, credentials):
        self.asker, self.who, self.role, self.credentials = asker, who, role, credentials


class Search:
    """A search that isn't ended: what its tenant saw at its opening, whether it was waited for, and whether memory was
    refused to it."""

    def __init__(self, role, who, credentials):
        self.role, self.who, self.credentials = role, who, credentials
        self.waited = self.broken = False
        self.members = None
        self.work = None

    def settle(self):
        if not self.waited:
            roles = rt0.all_members(self.credentials)
            self.members = roles.get(self.role, set())
            self.work = rt0.work(self.role, self.credentials, roles)
            self.waited = True

    def answer(self, limit):
        if self.broken:
            return "broken"
        if not self.waited:
            return "working"
        if self.work > limit:
            return "spent"
        if self.who is None:
            return " ".join(["members", *sorted(self.members)])
        return "yes" if self.who in self.members else "no"


class Tenant:
    def __init__(self, name, limits):
        self.name = name
        self.creds, self.grants, self.searches, self.changes, self.opens, self.work = limits
        self.vault, self.readers, self.unended = set(), set(), {}
        self.is_public = False
        self.changed = self.opened = 0

    def granted(self):
        """How many grants stand: one for each reader, and one to all."""
        return len(self.readers) + self.is_public

    def seen(self):
        """The tenant's name as it is shown to those who read its vault."""
        return self.name + "*" * self.is_public


def read_number(word):
    if not re.fullmatch(r"[1-9][0-9]{0,9}", word):
        raise Refused(64)
    return int(word)


def read_tenant(words):
    """The tenant of a roster's line, or None."""
    if words[0] != "tenant" or len(words) not in (3, 9) or not re.fullmatch(r"[!-~]{1,64}", words[2]):
        return None
    try:
        name = rt0.read_name(words[1])
        limits = [read_number(word) for word in words[3:]] or USUAL
    except Refused:
        return None
    return Tenant(name, limits) if all(limit <= most for limit, most in zip(limits, MOST)) else None


def read_line(line):
    """The line's text without the spaces at its ends, or its refusal."""
    if len(line) > 4096:
        raise Refused(65)
    if any(byte < 32 or byte > 126 for byte in line):
        raise Refused(66)
    return line.decode("ascii").strip(" ")


def lines_of(script):
    """The lines: what stands up to each newline, less one carriage return before it, and the rest, if there is any."""
    *ended, rest = script.split(b"\n")
    return [line[:-1] if line.endswith(b"\r") else line for line in ended] + ([rest] if rest else [])


class Hall:
    """All tenants. `reply` answers one line: None for a blank one, else its reply lines; the last is a Proof where any
    proof will do."""

    def __init__(self):
        self.tenants = {}
        self.begun = False

    def enroll(self, line):
        """Takes a line of the roster; whether it may stand there."""
        try:
            text = read_line(line)
        except Refused:
            return False
        if text == "begin":
            self.begun = True
            return bool(self.tenants)
        if text == "":
            return True
        tenant = read_tenant(text.split())
        if tenant is None or tenant.name in self.tenants or len(self.tenants) == 1000:
            return False
        self.tenants[tenant.name] = tenant
        return True

    def reply(self, line):
        try:
            text = read_line(line)
            if text == "":
                return None
            name, colon, command = text.partition(":")
            if not colon:
                raise Refused(64)
            if name not in self.tenants:
                raise Refused(62)
        except Refused as refused:
            return ["?: " + refusal(refused.number)]
        try:
            told = self.command(self.tenants[name], command.strip(" "))
        except Refused as refused:
            told = [refusal(refused.number)]
        return [each if isinstance(each, Proof) else f"{name}: {each}" for each in told]

    def command(self, tenant, text):
        verb, _, rest = text.partition(" ")
        if verb in ("put", "drop"):
            credential = rt0.read_credential(rest.strip(" "))
            return self.put(tenant, credential) if verb == "put" else self.drop(tenant, credential)
        words = rest.split()
        if verb not in WORDS or len(words) != WORDS[verb]:
            raise Refused(64)
        return getattr(self, verb)(tenant, *words)

    def break_off(self, line):
        """The search that the line waits for is broken."""
        name, _, command = read_line(line).partition(":")
        unended(self.tenants[name], int(command.split()[1])).broken = True

    def sees(self, tenant):
        return [" ".join(["sees", *(owner.seen() for owner in sorted(self.read_by(tenant), key=lambda owner: owner.name))])]

    def read_by(self, tenant):
        return [owner for owner in self.tenants.values() if owner is tenant or owner.is_public or tenant.name in owner.readers]

    def view(self, tenant):
        return {credential for owner in self.read_by(tenant) for credential in owner.vault}

    def vault(self, tenant):
        rows = sorted(tenant.vault)
        return [f"vault {len(rows)}", *map(rt0.credential_text, rows)]

    def accept(self, tenant):
        tenant.changed += 1
        return [f"ok {tenant.changed}"]

    def put(self, tenant, credential):
        refuse(44, tenant.changed >= tenant.changes)
        refuse(41, len(tenant.vault) >= tenant.creds)
        refuse(31, credential[0][1] != tenant.name)
        refuse(32, credential in tenant.vault)
        tenant.vault.add(credential)
        return self.accept(tenant)

    def drop(self, tenant, credential):
        refuse(44, tenant.changed >= tenant.changes)
        refuse(31, credential[0][1] != tenant.name)
        refuse(33, credential not in tenant.vault)
        tenant.vault.remove(credential)
        return self.accept(tenant)

    def grant(self, tenant, word):
        if word == "*":
            return self.grant_to_all(tenant)
        name = rt0.read_name(word)
        refuse(44, tenant.changed >= tenant.changes)
        refuse(42, tenant.granted() >= tenant.grants)
        refuse(36, name == tenant.name)
        refuse(34, name in tenant.readers)
        tenant.readers.add(name)
        return self.accept(tenant)

    def grant_to_all(self, tenant):
        refuse(44, tenant.changed >= tenant.changes)
        refuse(42, tenant.granted() >= tenant.grants)
        refuse(34, tenant.is_public)
        tenant.is_public = True
        return self.accept(tenant)

    def revoke(self, tenant, word):
        if word == "*":
            return self.revoke_from_all(tenant)
        name = rt0.read_name(word)
        refuse(44, tenant.changed >= tenant.changes)
        refuse(35, name not in tenant.readers)
        tenant.readers.remove(name)
        return self.accept(tenant)

    def revoke_from_all(self, tenant):
        refuse(44, tenant.changed >= tenant.changes)
        refuse(35, not tenant.is_public)
        tenant.is_public = False
        return self.accept(tenant)

    def ask(self, tenant, role, who):
        return self.open(tenant, rt0.read_role(role), rt0.read_name(who))

    def who(self, tenant, role):
        return self.open(tenant, rt0.read_role(role), None)

    def open(self, tenant, role, who):
        refuse(43, len(tenant.unended) >= tenant.searches)
        refuse(45, tenant.opened >= tenant.opens)
        tenant.opened += 1
        tenant.unended[tenant.opened] = Search(role, who, self.view(tenant))
        return [f"search {tenant.opened}"]

    def poll(self, tenant, word):
        return [unended(tenant, read_number(word)).answer(tenant.work)]

    def wait(self, tenant, word):
        search = unended(tenant, read_number(word))
        search.settle()
        return [search.answer(tenant.work)]

    def end(self, tenant, word):
        number = read_number(word)
        unended(tenant, number)
        del tenant.unended[number]
        return ["ended"]

    def proof(self, tenant, word, name):
        number, who = read_number(word), rt0.read_name(name)
        search = unended(tenant, number)
        refuse(52, search.answer(tenant.work) in ("working", "spent", "broken"))
        refuse(53, who not in search.members)
        return [Proof(tenant.name, who, search.role, search.credentials)]


def refuse(number, holds):
    if holds:
        raise Refused(number)


def unended(tenant, number):
    refuse(51, number not in tenant.unended)
    return tenant.unended[number]
