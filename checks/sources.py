"""The code of a Rattle source as tokens, each with the items that it stands in: without comments, contracts and ghost items."""
import dataclasses
import re

TOKEN = re.compile(
    r"""//[^\n]*|/\*.*?\*/|(?P<string>b?r?\#*"(?:\\.|[^"\\])*"\#*)|(?P<char>b?'(?:\\.[^']*|[^'\\])')|(?P<life>'\w+)"""
    r"""|(?P<word>[^\W\d]\w*)|(?P<number>\d[\w]*)|(?P<mark>::|=>|==|!=|->|<=|>=|&&|\|\||\.\.=?|[^\s\w])""",
    re.DOTALL,
)


@dataclasses.dataclass
class Token:
    text: str
    line: int
    mate: int = -1  # of a bracket the place of the other one
    inside: tuple = ()  # the items around it, as ("fn", name)

    def __eq__(self, text):
        return self.text == text


def is_clause(tokens, at):
    """Whether a contract's clause, or a ghost item, begins at the place."""
    word = tokens[at].text
    return word == "ghost" or (word in ("ensures", "requires") and at + 1 < len(tokens) and tokens[at + 1].text != "=")


def end_of_clause(tokens, at):
    """Behind the clause: its braces, or a ghost item's `;` or `,`."""
    is_ghost = tokens[at].text == "ghost"
    depth = 0
    for place in range(at, len(tokens)):
        depth += {"{": 1, "}": -1}.get(tokens[place].text, 0)
        if depth == 0 and (tokens[place].text == ";" or (tokens[place].text == "}" and not is_ghost)):
            return place + 1
        if is_ghost and depth == 0 and tokens[place].text == "," and tokens[place - 1].text == "}":
            return place + 1
        if depth < 0:
            return place
    return len(tokens)


def without_clauses(tokens):
    kept, at = [], 0
    while at < len(tokens):
        if is_clause(tokens, at):
            at = end_of_clause(tokens, at)
        else:
            kept.append(tokens[at])
            at += 1
    return kept


def lex(text):
    """The tokens of code, without comments, contracts and ghost items."""
    tokens, line, before = [], 1, 0
    for match in TOKEN.finditer(text):
        line += text.count("\n", before, match.start())
        before = match.start()
        if match.lastgroup:
            tokens.append(Token(match[0] if match.lastgroup not in ("string", "char") else '""', line))
    return without_clauses(tokens)


def pair(tokens):
    """Gives each bracket its mate."""
    waiting = []
    for at, token in enumerate(tokens):
        if token.text in "([{":
            waiting.append(at)
        elif token.text in ")]}" and waiting:
            token.mate = waiting.pop()
            tokens[token.mate].mate = at


def place_items(tokens):
    """Says of each token in which items it stands: functions, impls, types, uses and attributes."""
    around, at = [], 0
    for at, token in enumerate(tokens):
        while around and around[-1][0] <= at:
            around.pop()
        item = item_at(tokens, at)
        if item is not None:
            around.append(item)
        elif token.text == "{" and around and around[-1][1] == "fn" and token.mate + 1 == around[-1][0]:
            around.append((token.mate, "body", around[-1][2]))
        token.inside = tuple((kind, name) for _, kind, name in around)


def item_at(tokens, at):
    """The end, the kind and the name of the item that begins here, if one does."""
    word, before = tokens[at].text, tokens[at - 1].text if at else ""
    if word == "#" and at + 1 < len(tokens):
        bracket = at + 1 if tokens[at + 1].text == "[" else at + 2
        return (tokens[bracket].mate + 1, "attribute", "") if tokens[bracket].text == "[" else None
    if word == "use":
        return next(place for place in range(at, len(tokens)) if tokens[place].text == ";"), "use", ""
    if word in ("fn", "struct", "enum", "trait", "type", "static", "const", "mod", "union") and re.match(r"\w", tokens[at + 1].text):
        return body_end(tokens, at), word, tokens[at + 1].text
    if word == "impl" and before not in ("(", ",", "->", "&", ":", "<"):
        return body_end(tokens, at), "impl", impl_name(tokens, at)
    return None


def body_end(tokens, at):
    """Behind the item's braces, or its `;`."""
    place = at
    while place < len(tokens):
        if tokens[place].text == "{":
            return tokens[place].mate + 1
        if tokens[place].text == ";":
            return place + 1
        place = tokens[place].mate + 1 if tokens[place].text in "([" and tokens[place].mate > place else place + 1
    return place


def impl_name(tokens, at):
    """The type of an impl, and behind `From` what it is made of."""
    words, place = [], at + 1
    while tokens[place].text not in ("{", "where"):
        words.append(tokens[place].text)
        place += 1
    head = re.sub(r"^<.*?>\s*(?=\w+\s*[<{]|\w)", "", " ".join(words)) if words and words[0] == "<" else " ".join(words)
    made_of = re.search(r"From < (\w+)", head)
    owner = re.match(r"(\w+)", head.rpartition(" for ")[2].strip(" &'_"))
    name = owner[1] if owner else head
    return f"{name} from {made_of[1]}" if made_of else name


@dataclasses.dataclass
class Source:
    name: str
    tokens: list

    def function(self, at):
        """The item that the token stands in, with the type that it is of."""
        kinds = ("impl", "trait", "fn", "const", "static", "enum", "struct", "type")
        return "::".join(name for kind, name in self.tokens[at].inside if kind in kinds) or "no item"

    def is_in(self, at, *kinds):
        return any(kind in kinds for kind, _ in self.tokens[at].inside)

    def is_body(self, at):
        """Whether the token stands in a function's braces."""
        return any(kind == "body" for kind, _ in self.tokens[at].inside)

    def words(self, begin, end):
        return [self.tokens[at].text if 0 <= at < len(self.tokens) else "" for at in range(begin, end)]

    def text(self, begin, end):
        """The code as it is written, on one line."""
        joined = re.sub(r"(\(|\[|\.|::|&) ", r"\1", " ".join(self.words(begin, end)))
        joined = re.sub(r" (\)|\]|\.|,|\?|::)", r"\1", re.sub(r"(\w|>) \(", r"\1(", joined))
        return re.sub(r"::< (\w+) >", r"::<\1>", re.sub(r",\)", ")", joined)).replace("< <", "<<")

    def opener(self, at):
        """The bracket that the token stands in, by its place; -1 outside of all."""
        at -= 1
        while at >= 0 and self.tokens[at].text not in ("(", "[", "{"):
            at = self.tokens[at].mate - 1 if self.tokens[at].text in (")", "]", "}") else at - 1
        return at

    def is_case(self, at):
        """Whether the token stands in an enum's own braces, as the name of a case."""
        brace = self.opener(at)
        outer = self.opener(brace)
        item = self.tokens[brace].inside[-1:] if brace >= 0 else ()
        return bool(item) and item[0][0] == "enum" and (outer < 0 or item[0] not in self.tokens[outer].inside)

    def enum_of(self, at):
        """The enum that the attribute at this place stands before, or in, if it is one's."""
        kinds = ("struct", "enum", "fn", "union", "mod", "impl", "use", "const", "static")
        inside = [name for kind, name in self.tokens[at].inside if kind == "enum"]
        kind, name = next((self.words(place, place + 2) for place in range(at, len(self.tokens)) if self.tokens[place].text in kinds), ("", ""))
        return inside[-1] if inside else name if kind == "enum" else None


def read(name, text):
    tokens = lex(text)
    pair(tokens)
    place_items(tokens)
    return Source(name, tokens)


def code_files(crate):
    """The crate's files of code, less the modules that stand behind `#[cfg(test)]`."""
    files = sorted((crate / "src").rglob("*.rt"))
    tests = set()
    for path in files:
        for name in re.findall(r"#\[cfg\(test\)\]\s*mod (\w+);", path.read_text()):
            folder = path.parent if path.stem in ("lib", "main") else path.parent / path.stem
            tests |= {folder / f"{name}.rt", folder / name}
    return [path for path in files if path not in tests and not any(folder in tests for folder in path.parents)]
