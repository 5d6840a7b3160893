"""Nine families of credentials, each of about so many, with questions: who is in these roles?

A credential is its owner, its role name and its body. A body is an entity ('e', D), a role ('r', B, s), a linked role
('l', s, t) of the owner's, or an intersection ('m', part, ..)."""


def entity(number):
    return f"N{number:06d}"


def chain(size):
    """One inclusion after another, and one member at the end."""
    links = [("A", f"r{i:06d}", ("r", "A", f"r{i + 1:06d}")) for i in range(size - 1)]
    return [*links, ("A", f"r{size - 1:06d}", ("e", "D"))], [("A", "r000000")]


def wide(size):
    """One role with many members, behind one inclusion."""
    return [("A", "all", ("r", "A", "r")), *[("A", "r", ("e", entity(i))) for i in range(size - 1)]], [("A", "all")]


def federation(size):
    """A linked role over a base of organisations, each with members of its own, half of them shared with the next."""
    count = min(900, size // 11)
    each = size // count - 1
    return [
        ("A", "guests", ("l", "partners", "members")),
        *[("A", "partners", ("e", f"P{i:06d}")) for i in range(count)],
        *[(f"P{i:06d}", "members", ("e", entity(each // 2 * i + j))) for i in range(count) for j in range(each)],
    ], [("A", "guests")]


def meet(size):
    """An intersection of two wide roles, of which a third is in both."""
    count = size // 2
    return [
        ("A", "both", ("m", ("r", "A", "left"), ("r", "A", "right"))),
        *[("A", "left", ("e", entity(i))) for i in range(count)],
        *[("A", "right", ("e", entity(2 * count // 3 + i))) for i in range(count)],
    ], [("A", "both")]


def circles(size):
    """Roles that each include eight others in a ring, and some members: everybody is in each."""
    count = size // 9
    links = [("A", f"r{i:06d}", ("r", "A", f"r{(i + step * step) % count:06d}")) for i in range(count) for step in range(1, 9)]
    return [*sorted(set(links)), *[("A", f"r{(i * 7) % count:06d}", ("e", entity(i))) for i in range(10)]], [("A", "r000000")]


def nested(size):
    """Linked roles over linked roles: each base is the linked role before. Most credentials lead nowhere."""
    depth, count = 20, min(900, size // 21)
    links = [("A", f"r{i:02d}", ("l", f"r{i + 1:02d}", "next")) for i in range(depth)]
    hops = [(f"P{i:06d}", "next", ("e", f"P{(3 * i + 1) % count:06d}")) for i in range(count)]
    more = [(f"P{i:06d}", "others", ("e", entity(j))) for i in range(count) for j in range(size // count - 1)]
    return [*links, *[("A", f"r{depth:02d}", ("e", f"P{i:06d}")) for i in range(10)], *hops, *more], [("A", "r00")]


def tenants(size):
    """A chain through the vaults of many tenants, each of whom has members."""
    count, each = min(900, size // 10), size // min(900, size // 10) - 1
    return [
        row
        for i in range(count)
        for row in [
            (f"T{i:04d}", "all", ("r", f"T{(i + 1) % count:04d}", "all")),
            *[(f"T{i:04d}", "all", ("e", entity(20 * i % 100 + j))) for j in range(each)],
        ]
    ], [("T0000", "all")]


def mixture(size):
    """All four forms in turn, in groups of twenty credentials that lead on to the next group."""
    rows = []
    for i in range(size // 20):
        here, after = f"g{i:06d}", f"g{i + 1:06d}"
        rows += [("A", here, ("r", "A", after)), ("A", here, ("l", f"b{i:06d}", "staff")), ("A", here, ("m", ("r", "A", after), ("l", f"b{i:06d}", "staff")))]
        rows += [("A", f"b{i:06d}", ("e", f"P{(i + j) % 50:06d}")) for j in range(5)]
        rows += [("A", here, ("e", entity((7 * i + j) % 40))) for j in range(12)]
    return [*rows, *[(f"P{i:06d}", "staff", ("e", entity(100 + i % 9))) for i in range(50)]], [("A", "g000000")]


def held(size):
    """Many questions over one view: fifty roles of twenty members, each asked four times."""
    count = size // 20
    rows = [("A", f"r{i:06d}", ("e", entity(20 * i + j))) for i in range(count) for j in range(20)]
    return rows, [("A", f"r{i % count:06d}") for i in range(200)]


FAMILIES = [chain, wide, federation, meet, circles, nested, tenants, mixture, held]
