"""RT0 as its definition has it: the text and the order of credentials, who is in a role, the work of a search, and what
is a proof. Written from the rules alone, and slow on purpose: nothing of the program is used.

An expression is a tuple: ('0', name) an entity, ('1', owner, role), ('2', owner, base, role) a linked role, and
('3', part, ..) an intersection. So tuples are ordered as expressions are: by kind, then name by name, a prefix first.
A role is such an expression of kind '1', and a credential a pair of its head and its body."""
import re

NAME = r"[A-Za-z][A-Za-z0-9_-]{0,63}"
PART = rf"{NAME}(?:\.{NAME}){{0,2}}"
EXPR = rf"{PART}(?: & {PART})*"
STEP = re.compile(
    rf"([1-9][0-9]*) ({NAME}) in ({EXPR}) by "
    rf"(?:(itself)|({NAME}\.{NAME} <- {EXPR}) from ([0-9]+)|link from ([0-9]+) ([0-9]+)|parts from ([0-9]+(?: [0-9]+)*))"
)


class Refused(Exception):
    """What a line is refused for, by its number."""

    def __init__(self, number):
        super().__init__(number)
        self.number = number


def read_name(text):
    """The name, or the first fault of a text that is none."""
    if text == "":
        raise Refused(11)
    if not re.match(r"[A-Za-z]", text):
        raise Refused(12)
    if not re.fullmatch(r"[A-Za-z0-9_-]+", text):
        raise Refused(13)
    if len(text) > 64:
        raise Refused(14)
    return text


def read_role(text, fault=15):
    """The role; a text that hasn't exactly one dot has this fault."""
    names = text.split(".")
    if len(names) != 2:
        raise Refused(fault)
    return ("1", read_name(names[0]), read_name(names[1]))


def read_part(text, issuer):
    """A part of the body of a credential with this issuer."""
    names = text.split(".")
    if len(names) > 3:
        raise Refused(24)
    part = (str(len(names) - 1), *[read_name(name) for name in names])
    if len(names) == 3 and names[0] != issuer:
        raise Refused(25)
    return part


def read_credential(text):
    """The credential that the text spells, or the first fault of one that spells none."""
    if len(text) > 4096:
        raise Refused(27)
    head_text, arrow, body_text = text.partition("<-")
    if not arrow:
        raise Refused(21)
    head = read_role(head_text.strip(" "), 22)
    if body_text.strip(" ") == "":
        raise Refused(23)
    texts = [part.strip(" ") for part in body_text.split("&")]
    if len(texts) > 8 or "" in texts:
        raise Refused(26)
    parts = [read_part(part, head[1]) for part in texts]
    return (head, parts[0] if len(parts) == 1 else ("3", *parts))


def text_of(expr):
    """The canonical text of an expression."""
    return " & ".join(map(text_of, expr[1:])) if expr[0] == "3" else ".".join(expr[1:])


def credential_text(credential):
    head, body = credential
    return f"{text_of(head)} <- {text_of(body)}"


def in_expr(expr, roles):
    """Who is in the expression, where the roles have these members."""
    if expr[0] == "0":
        return {expr[1]}
    if expr[0] == "1":
        return roles.get(expr, set())
    if expr[0] == "2":
        owners = roles.get(("1", expr[1], expr[2]), set())
        return {who for owner in owners for who in roles.get(("1", owner, expr[3]), set())}
    return set.intersection(*[in_expr(part, roles) for part in expr[1:]])


def all_members(credentials):
    """The members of each role: the least sets that each credential's body adds nothing to."""
    roles = {}
    grown = True
    while grown:
        grown = False
        for head, body in credentials:
            members = roles.setdefault(head, set())
            more = in_expr(body, roles) - members
            members |= more
            grown = grown or bool(more)
    return roles


def asks_of(expr, credentials, roles):
    """What the expression has to ask: each time the port and the expression asked."""
    if expr[0] == "1":
        return [(("body",), body) for head, body in credentials if head == expr]
    if expr[0] == "2":
        base = ("1", expr[1], expr[2])
        return [(("base",), base)] + [(("via", who), ("1", who, expr[3])) for who in in_expr(base, roles)]
    if expr[0] == "3":
        return [(("part", place), part) for place, part in enumerate(expr[1:])]
    return []


def work(role, credentials, roles):
    """One for the first letter, one for each ask that the role leads to, and one for each member told to an asker."""
    total, seen, waiting = 1, {role}, [role]
    while waiting:
        expr = waiting.pop()
        for _, asked in set(asks_of(expr, credentials, roles)):
            total += 1 + len(in_expr(asked, roles))
            if asked not in seen:
                seen.add(asked)
                waiting.append(asked)
    return total


def read_body(text):
    parts = [(str(part.count(".")), *part.split(".")) for part in text.split(" & ")]
    return parts[0] if len(parts) == 1 else ("3", *parts)


def read_step(line, place):
    """A step of a proof: who, claim, and its rule with the steps that it cites, counted from 0; or None."""
    match = STEP.fullmatch(line)
    if not match or int(match[1]) != place + 1:
        return None
    who, claim = match[2], read_body(match[3])
    if match[4]:
        return who, claim, None, []
    if match[5]:
        head, _, body = match[5].partition(" <- ")
        return who, claim, (read_body(head), read_body(body)), [int(match[6]) - 1]
    cited = match[9].split(" ") if match[9] else [match[7], match[8]]
    return who, claim, "parts" if match[9] else "link", [int(number) - 1 for number in cited]


def follows(step, premises, credentials):
    """Whether the step is by one of the four rules from these premises, each a pair of who and claim."""
    who, claim, rule, _ = step
    if rule is None:
        return claim == ("0", who)
    if rule == "parts":
        return claim[0] == "3" and premises == [(who, part) for part in claim[1:]]
    if rule == "link":
        base = ("1", claim[1], claim[2]) if claim[0] == "2" else None
        return base is not None and premises[0][1] == base and premises[1] == (who, ("1", premises[0][0], claim[3]))
    return rule in credentials and rule[0] == claim and premises == [(who, rule[1])]


def in_order(steps):
    """Whether the premises of the last step come from left to right, each with its own before it, each claim once."""
    order = []

    def list_from(place):
        for cited in steps[place][3]:
            if cited not in order:
                list_from(cited)
        order.append(place)

    list_from(len(steps) - 1)
    return order == list(range(len(steps))) and len({step[:2] for step in steps}) == len(steps)


def is_proof(lines, who, role, credentials):
    """Whether the lines are a proof from the credentials that this entity is in this role, in the promised order."""
    steps = [read_step(line, place) for place, line in enumerate(lines)]
    if not steps or None in steps or steps[-1][:2] != (who, role):
        return False
    for place, step in enumerate(steps):
        if any(cited < 0 or cited >= place for cited in step[3]):
            return False
        if not follows(step, [steps[cited][:2] for cited in step[3]], credentials):
            return False
    return in_order(steps)
