#!/usr/bin/env python3
"""What no clause refuses of a body, told by its text. Tests aren't read.

- Want of memory, `broken`, and an error of the system's for memory are made at the places of PLACES alone, each with its reason:
  a growth that was refused, or a bound of the design. A body that hands on what it received makes none: by `?`, by a name, or by an
  arm that gives the case that its pattern has. Nor does one that compares.
- Room for many at once is asked for at the places of ROOMS alone, for so many as stand there: a growth that no memory could hold
  would be refused for nothing.
- A fault is kept in no value: HOLDERS are the types that have one in them, and each is what a call tells, or a part of that.
- The number of an error line is a fault's, and 90 is spelled where faults have their numbers.
- The functions that check a span call what CALLS lists alone, and have no loop. So whoever compares there is a method of `Steps`,
  which counts. Those that share a search do so where memory allows it, and ask for nothing else.
- A function calls itself where RECURSIVE says it, by a bound of its depth: else a long reply would take all of the stack.
- Nothing hides from this reading: no import of a fault's cases or of all names, no other name for `AllocError`, no conversion that a
  derive writes, no default, no macro, no code from elsewhere, no unsafe code.

  checks/bodies.py            compares the sources with the tables
  checks/bodies.py --list     prints what stands in the sources, as rows of the tables

It also reads small wrong bodies, each of which has to be refused, and right ones, of which none may be. It prints what is
otherwise, and last `N passed, M failed`: one for each table, for all else in the sources, and for each small body."""
import collections
import pathlib
import re
import sys

from sources import code_files, read

ROOT = pathlib.Path(__file__).resolve().parent.parent

GROWTH = "a growth was refused here"
SHARED = "a growth was refused: that of a count for who shares it, or of the place where it is shared"
SAYS = "a conversion: it says what it is given"
TOLD = "told by the call before, which lacked memory"
NODES = "a bound of the design: 2^32 nodes have a number"
ROWS = "a bound of the design: fewer than 2^64 rows are counted"
PASSES = "a bound of the design: 2^32 passes may be out"
WORKERS = "a bound of the design: a desk hires fewer than 2^64 workers in its life"

# Where want of memory or `broken` is made: the file, the function, what, what leads there, and why it may be.
PLACES = [
    ("cred_graph/nodes.rt", "Nodes::add", "AllocError", "if number >= MOST", NODES),
    ("credential_text/faults.rt", "CredFault from AllocError::from", "CredFault::Memory", "", SAYS),
    ("hall/lendable_searches.rt", "LendableSearch::lend", "AllocError", "match self: _", SHARED),
    ("hall/faults.rt", "Fault from AllocError::from", "Fault::Memory", "", SAYS),
    ("hall/faults.rt", "Fault from AllocFailed::from", "Fault::Memory", "", SAYS),
    ("hall/halls.rt", "Hall::take", "Fault::Memory", "match taken: Err(AllocError)", TOLD),
    ("hall/working.rt", "go_on", "Next::NoMemory", "let Ok(snapshot) = search.snapshot().clone() else", SHARED),
    ("pool/desks.rt", "Desk::release", "AllocError", "let(end, is_left) = match next: Next::NoMemory", TOLD),
    ("pool/rooms.rt", "Room::admit", "Fault::Memory", "if self.out == MOST_OUT", PASSES),
    ("pool/workers.rt", "run_all", "Fault::Memory", "let Ok(mut handles) = Vec::with_capacity(desk.alloc, n as usize) else", GROWTH),
    ("pool/workers.rt", "run_all", "Fault::Memory", "let Some(tally) = desk.hire(rt, n) else", WORKERS),
    ("pool/workers.rt", "run_all", "Fault::Memory", "match join_all(rt, handles): Err(AllocError)", TOLD),
    ("proof_trees/faults.rt", "ProofFault from AllocError::from", "ProofFault::Memory", "", SAYS),
    ("search/findings.rt", "Findings::send", "AllocError", "let Ok(()) = self.outs.push_back((to, load)) else", GROWTH),
    ("search/searches.rt", "Search::receive_held", "Finished::Broken", "match receive(&mut self.found, snapshot, held, looked_up): Err(refusal)", TOLD),
    ("search/stages.rt", "break_off", "AllocError", "", SAYS),
    ("search/stages.rt", "break_off", "Stage::Broken", "* stage =", SAYS),
    ("search/stages.rt", "send", "Stage::Broken", "let Ok(()) = running.finish_with(number, &mut found.outs) else", TOLD),
    ("search/stages.rt", "send", "Finished::Broken", "let Ok(()) = running.finish_with(number, &mut found.outs) else", TOLD),
    ("service/arrivals.rt", "arrivals_at", "ServeFault::Memory", "let(Ok((sender, queue)), Ok(places)) = (bounded(alloc, QUEUED), free_places(alloc, options.sessions)) else", GROWTH),
    ("service/connections.rt", "accept_all", "ServeFault::Memory", "let Ok(()) = queue.send(rt, next_connection(rt, listener)?) else", "the queue can't be sent to: no session is left to receive"),
    ("service/faults.rt", "ScriptFault from AllocError::from", "ScriptFault::Memory", "", SAYS),
    ("service/lines.rt", "LineReader::make", "AllocError", "let Ok(ahead) = BufReader::new(alloc, Limited { inner, left }) else", GROWTH),
    ("service/replies.rt", "fill_reply", "Fault::Memory", "if write_reply_lines(buffer, who, reply).is_err()", "the buffer couldn't grow"),
    ("service/rosters.rt", "add_row", "ScriptFault::Memory", "rows.push(row).or(Err(", GROWTH),
    ("service/scripts.rt", "run_lines", "ScriptFault::Memory", "let Ok(mut hall) = take_roster(alloc, lines, writer)?.hall(alloc) else", TOLD),
    ("service/serving.rt", "serve", "ServeFault::Memory", "let Ok(mut line) = ReplyBuffer::make(alloc) else", TOLD),
    ("service/serving.rt", "serve", "ServeFault::Memory", "let Ok(unnamed) = Unnamed::make(alloc) else", TOLD),
    ("service/serving.rt", "serve_with", "ServeFault::Memory", "let Ok((desk, authority)) = roster.desk::<L>(line.alloc(), unnamed) else", TOLD),
    ("service/serving.rt", "worked_well", "ServeFault::Memory", "match worked: Err(_fault)", TOLD),
    ("service/sessions.rt", "answer_session", "SessionEnd::Memory", "let Ok((mut lines, mut reply, mut out)) = room_for(alloc, reader) else", TOLD),
    ("service/sessions.rt", "Session::let_in", "Refusal::Memory", "match door.let_in(self.rt, who): Err((door, _fault))", "a pass is refused to a known name at the bound of passes alone"),
    ("vaults/books.rt", "keep_on_page", "AllocError", "match pages.insert(who, page): Err(refused)", GROWTH),
    ("vaults/entries.rt", "read_entry", "AllocError", "let Ok(credential) = read_credential(alloc, subject) else", TOLD + ": the text is the one that was written"),
    ("vaults/faults.rt", "VaultFault from AllocError::from", "VaultFault::Memory", "", SAYS),
    ("vaults/own_rows.rt", "OwnRows::put", "AllocError", "else", ROWS),
    ("vaults/shared_rows.rt", "part", "AllocError", "match Arc::new(alloc, rest): Err(refused)", SHARED),
]  # fmt: skip

# Where room is asked for at once: the file, the function, the call and for how many.
ROOMS = [
    ("cred_graph/graphs.rt", "Graph::reserve", "reserve(count)"),
    ("cred_graph/graphs.rt", "Graph::reserve", "reserve(self.nodes.count().saturating_add(count))"),
    ("cred_graph/nodes.rt", "Nodes::reserve", "reserve(count as usize)"),
    ("cred_graph/tables.rt", "Tables::reserve", "reserve(more)"),
    ("cred_graph/tables.rt", "Tables::add_listener", "reserve(1)"),
    ("cred_graph/tables.rt", "Tables::add_solution", "reserve(room)"),
    ("hall/batches.rt", "Batch::make", "with_capacity(alloc, room)"),
    ("hall/running.rt", "Hall::run", "with_capacity(self.alloc, events.len())"),
    ("pool/workers.rt", "run_all", "with_capacity(desk.alloc, n as usize)"),
    ("scholten_core/diffusions.rt", "Diffusion::finish_with", "reserve(outs.len())"),
    ("scholten_core/diffusions.rt", "Diffusion::finish_with", "reserve(1)"),
    ("scholten_core/diffusions.rt", "Diffusion::restart", "reserve(1)"),
    ("scholten_core/engagement.rt", "make_place", "reserve((count - nodes.len()).max(FEW))"),
    ("scholten_core/engagement.rt", "make_place", "resize(count, None)"),
    ("scholten_core/letter_tables.rt", "LetterTable::new", "with_capacity(alloc, FIRST_ROOM)"),
    ("scholten_core/letter_tables.rt", "LetterTable::reserve", "reserve(count)"),
    ("search/answers.rt", "node_for", "reserve(1)"),
    ("search/answers.rt", "ask_rows", "reserve(count)"),
    ("search/stages.rt", "Stage::begin", "reserve(FIRST_NODES)"),
    ("search/findings.rt", "Findings::reserve", "reserve(count)"),
    ("search/findings.rt", "Findings::reserve", "reserve(count as usize)"),
    ("search/findings.rt", "Findings::reserve", "reserve(count as usize)"),
    ("search/members.rt", "solutions_in_order", "with_capacity(alloc, count as usize)"),
    ("service/lines.rt", "LineReader::make", "with_capacity(alloc, KEPT)"),
    ("service/outboxes.rt", "Outbox::make", "with_capacity(alloc, OUTBOX)"),
    ("service/reply_buffers.rt", "ReplyBuffer::make", "with_capacity(alloc, SHORT_REPLY)"),
    ("vaults/journals.rt", "Journal::prepare", "try_reserve(self.room + 2 * row)"),
    ("vaults/parted_rows.rt", "halve_full", "try_reserve(1)"),
    ("vaults/versions.rt", "starts_in", "with_capacity(alloc, blocks.len())"),
]  # fmt: skip

# What the bounds are, and the sizes that are named among the places and rooms: the file, the constant and its value.
BOUNDS = [
    ("cred_graph/nodes.rt", "MOST", "1 << 32"),
    ("pool/rooms.rt", "MOST_OUT", "1 << 32"),
    ("scholten_core/engagement.rt", "FEW", "32"),
    ("scholten_core/letter_tables.rt", "FIRST_ROOM", "36"),
    ("search/findings.rt", "FIRST_NODES", "36"),
    ("service/arrivals.rt", "QUEUED", "1"),
    ("service/lines.rt", "KEPT", "4098"),
    ("service/reply_buffers.rt", "SHORT_REPLY", "128"),
]  # fmt: skip

# Which types have a fault of memory in them, beside results: the file, the type and the fault.
HOLDERS = [
    ("hall/calls/replies.rt", "Reply", "Fault"),
    ("pool/faults.rt", "DeskFault", "Fault"),
    ("pool/faults.rt", "DeskResult", "DeskFault"),
    ("pool/turns.rt", "Noted", "Fault"),
    ("service/refusals.rt", "Refusal", "CredFault"),
]  # fmt: skip

# The functions that check a span, and those that share a completed search, where not to share it is want of memory: the file,
# the function, and what it calls and compares with a mark, in this order.
CALLS = [
    ("hall/lendable_searches.rt", "LendableSearch::lend", "replace into_shared clone"),
    ("hall/lendable_searches.rt", "LendableSearch::into_shared", "new"),
    ("snapshots/snapshots.rt", "Snapshot::span_is", "is_vaults_below rows_at is_rows_until is_rows_until both"),
    ("snapshots/snapshots.rt", "is_vaults_below", "> len owner_passes_below owner_fails_at both"),
    ("snapshots/snapshots.rt", "owner_passes_below", "== is_below"),
    ("snapshots/snapshots.rt", "owner_fails_at", "== len is_below"),
    ("snapshots/snapshots.rt", "rows_at", "get none owner == rows none"),
    ("snapshots/spans.rt", "is_rows_until", "> len passes_below fails_at both"),
    ("snapshots/spans.rt", "passes_below", "== passes row"),
    ("snapshots/spans.rt", "fails_at", "== len passes row"),
    ("snapshots/spans.rt", "both", ""),
    ("snapshots/spans.rt", "Cut::passes", "is_behind compare_head"),
    ("snapshots/spans.rt", "Cut::is_behind", "is_lt is_le"),
    ("snapshots/steps.rt", "Steps::tick", "add"),
    ("snapshots/steps.rt", "Steps::passes", "tick passes"),
    ("snapshots/steps.rt", "Steps::is_below", "tick owner compare is_lt"),
    ("snapshots/steps.rt", "Steps::rows_at", "tick rows_at"),
    ("snapshots/uncounted.rt", "Snapshot::finds", "compares < > new"),
    ("snapshots/uncounted.rt", "compares", "open < > span_is new"),
]  # fmt: skip

# The functions that call themselves: the file, the function, and how deep it goes.
RECURSIVE = [
    ("service/reply_buffers.rt", "append_digits", "as deep as a number has digits"),
]

TYPES = {"AllocError", "AllocFailed", "TryReserveError", "Layout"}
CASES = {"Memory", "NoMemory", "Broken", "OutOfMemory"}
ASKS = re.compile(r"with_capacity\w*|(try_)?reserve\w*|resize\w*|from_elem|repeat\w*|allocate\w*|grow\w*")
FORBIDDEN = {"unsafe", "transmute", "macro_rules", "default", "unwrap_or_default", "include", "include_str", "zeroed"}
WORD = re.compile(r"[^\W\d]\w*")
MARKS = {"for", "while", "loop", "==", "!=", "<", ">", "<=", ">="}


# How a place is told from a pattern, a comparison, a type, and what hands on


def begin_of_path(tokens, at):
    while at >= 2 and tokens[at - 1].text == "::":
        at -= 2
    return at


def with_calls(tokens, begin, end):
    """From where to where the calls go whose only argument the path is, as in `Err(DeskFault::Hall(Fault::Memory))`."""
    while tokens[begin - 1].text == "(" and tokens[end].text == ")" and tokens[begin - 2].text[0].isupper():
        begin, end = begin_of_path(tokens, begin - 2), end + 1
    return begin, end


def is_of_patterns(token):
    return token.text in ("(", ")", "|", "::", "&") or bool(WORD.fullmatch(token.text))


def is_pattern(source, begin, end):
    """Whether the path stands in a pattern: from the arm's beginning, or from `let`, up to the arm's `=>` or guard, or to `=`,
    there is nothing but what patterns have."""
    tokens = source.tokens
    while is_of_patterns(tokens[end]) and tokens[end].text != "if":
        end += 1
    begin -= 1
    while is_of_patterns(tokens[begin]) and tokens[begin].text not in ("let", "if", "return", "break", "else", "in", "match"):
        begin -= 1
    if tokens[begin].text == "let":
        return tokens[end].text == "="
    before = tokens[begin].mate if tokens[begin].text == "}" else begin
    is_beginning = begin == source.opener(end) or (tokens[begin].text in (",", "}") and source.opener(before) == source.opener(end))
    return tokens[end].text in ("=>", "if") and is_beginning


def case_of(tokens):
    """The case of a pattern that is a path to it, alone or in calls."""
    text = re.sub(r"^(?:[\w: ]+ \( )*|(?: \))*$", "", " ".join(token.text for token in tokens))
    return text.rpartition(" :: ")[2] if re.fullmatch(r"\w+(?: :: \w+)+", text) else None


def is_handed_on(tokens, begin, end, case):
    """Whether the path is all that an arm gives, and each alternative of the arm's pattern is the same case of some fault."""
    begin, end = with_calls(tokens, begin, end)
    arrow = place = begin - 1
    if tokens[arrow].text != "=>" or tokens[end].text not in (",", "}"):
        return False
    alternatives = [[]]
    while tokens[place - 1].text not in ("{", ",", "}"):
        place -= 1
        if tokens[place].text == "|":
            alternatives.append([])
        else:
            alternatives[-1].insert(0, tokens[place])
    return all(case_of(alternative) == case for alternative in alternatives)


def is_type(source, at):
    """Whether `AllocError` or `AllocFailed` is the error of a result, or what a conversion is made of or given."""
    before, behind = source.words(at - 2, at), source.words(at + 1, at + 2)
    if behind == [">"] and before[1] == ",":
        return not source.is_in(at, "struct", "enum", "type", "static", "const")
    return before == ["From", "<"] or (before[0].startswith("_") and before[1] == ":" and source.function(at).endswith("::from"))


def begin_of_statement(source, at, ends):
    """Where the statement or the arm begins that the token stands in: behind the last of these marks beside it."""
    tokens, block = source.tokens, source.opener(at)
    while at - 1 > block:
        before = tokens[at - 1].mate if tokens[at - 1].text in (")", "]", "}") else at - 1
        if tokens[at - 1].text in ends and source.opener(before) == block:
            break
        at -= 1
    return at


def cause(source, at):
    """What leads to the place: the head of the block that it stands in; in an arm the match, and the arm's pattern; and where the
    block is a function's own, what stands before the place in its statement."""
    tokens, inner = source.tokens, at
    while source.opener(inner) >= 0 and tokens[source.opener(inner)].text != "{":
        inner = source.opener(inner)
    block = source.opener(inner)
    if block < 0 or not source.is_body(at):
        return ""
    if not source.is_body(block - 1):
        return source.text(begin_of_statement(source, inner, (";", "}")), at)
    head = begin_of_statement(source, block, (";", "}", ","))
    if tokens[block - 1].text == "=>":
        return cause(source, block - 1)
    if "match" in source.words(head, block):
        arm = begin_of_statement(source, inner, ("}", ","))
        pattern = source.words(arm, inner + 1)
        end = arm + pattern.index("=>") if "=>" in pattern else begin_of_path(tokens, at)
        return f"{source.text(head, block)}: {source.text(arm, end)}"
    return source.text(head, block)


def places(source):
    """Where want of memory, or `broken`, is made, and what leads to it."""
    tokens = source.tokens
    for at, token in enumerate(tokens):
        case = token.text
        if case not in TYPES | CASES or source.is_in(at, "use", "attribute"):
            continue
        begin, end = begin_of_path(tokens, at), at + 1
        is_declared = begin == at and source.is_case(at)
        if is_declared or (case in TYPES and is_type(source, at)):
            continue
        if (begin != at or case in TYPES) and (is_pattern(source, begin, end) or tokens[begin - 1].text in ("==", "!=")):
            continue
        if not (case in CASES and begin != at and is_handed_on(tokens, begin, end, case)):
            yield source.name, source.function(at), source.text(begin, end), cause(source, begin)


def rooms(source):
    """Where room is asked for at once."""
    for at, token in enumerate(source.tokens[:-1]):
        if ASKS.fullmatch(token.text) and source.words(at + 1, at + 2) == ["("] and source.words(at - 1, at)[0] in (".", "::"):
            yield source.name, source.function(at), source.text(at, source.tokens[at + 1].mate + 1)


def bounds(source):
    """What each constant is."""
    for at, token in enumerate(source.tokens):
        if token.text == "const" and source.words(at + 2, at + 3) == [":"]:
            end = next(place for place in range(at, len(source.tokens)) if source.tokens[place].text == ";")
            if "=" in source.words(at, end):
                yield source.name, source.tokens[at + 1].text, source.text(at + 1 + source.words(at, end).index("="), end)


def faults_of(sources):
    """The faults that memory may be one of, and what holds one of these."""
    faults = {source.function(at) for source in sources for at, token in enumerate(source.tokens) if token.text == "Memory" and source.is_in(at, "enum")}
    return faults | {"DeskFault"} | TYPES


def holders(source, faults):
    """Which types have a fault in them."""
    for at, token in enumerate(source.tokens):
        is_within = source.is_in(at, "struct", "enum", "static", "const", "type") and not source.is_in(at, "fn", "attribute")
        is_name = source.words(at - 1, at)[0] in ("enum", "struct", "type") or source.is_case(at)
        if token.text in faults and is_within and not is_name:
            yield source.name, source.function(at), token.text


def is_call(source, at):
    """Whether a function, a method or a macro is called by this name."""
    behind = source.words(at + 1, at + 3)
    return (behind[0] in ("(", "!") or behind == ["::", "<"]) and re.fullmatch(r"(?!(if|let|match|return|in|else|while)$)[a-z_]\w*", source.tokens[at].text)


def calls(source):
    """What each function calls and compares with a mark, in this order. A loop counts as one."""
    told = {}
    for at, token in enumerate(source.tokens):
        if source.is_body(at):
            called = told.setdefault((source.name, source.function(at)), [])
            if token.text in MARKS or is_call(source, at):
                called.append(token.text)
    return {(*function, " ".join(called)) for function, called in told.items()}


def recursive(source):
    """Which functions call themselves, by name or as a method of theirs."""
    for at, token in enumerate(source.tokens):
        function = source.function(at)
        is_own = source.words(at - 2, at) in (["self", "."], ["Self", "::"]) if "::" in function else source.words(at - 1, at)[0] not in (".", "::", "fn")
        if source.is_body(at) and is_own and token.text == function.rpartition("::")[2] and is_call(source, at):
            yield source.name, function


def has_fault(source, enum):
    return any(token.text in CASES and ("enum", enum) in token.inside for token in source.tokens)


def hidden(source):
    """What would hide something from this reading."""
    tokens = source.tokens
    for at, token in enumerate(tokens):
        before, behind = source.words(at - 1, at)[0], source.words(at + 1, at + 2)[0]
        if source.is_in(at, "use"):
            if token.text in CASES or (token.text == "*" and before == "::"):
                yield "imports a fault's case, or all names", token.line
            if token.text == "as" and before in TYPES:
                yield "gives a fault another name", token.line
        elif source.is_in(at, "attribute"):
            is_conditional = token.text in ("from", "path", "cfg") and before == "[" and source.words(at + 1, at + 4) != ["(", "test", ")"]
            if is_conditional or (token.text in ("default", "Default") and has_fault(source, source.enum_of(at))):
                yield f"has an attribute {token.text}", token.line
        elif token.text in FORBIDDEN or (token.text == "Default" and behind in ("for", "::")):
            yield f"has {token.text}", token.line


def numbers(source):
    """Error lines whose number is no fault's, and a number of want of memory that is none of a fault's own."""
    for at, token in enumerate(source.tokens):
        if token.text == "fill_error" and source.words(at - 1, at + 2) != ["fn", "fill_error", "("] and source.is_body(at):
            number = [word for word in source.words(at, source.tokens[at + 1].mate) if word != ","][-4:]
            if number != [".", "number", "(", ")"]:
                yield "an error line whose number is no fault's", token.line
        is_of_fault = source.is_in(at, "enum") or source.function(at).endswith("::number") or source.function(at) == "fault_text"
        if token.text == "90" and not is_of_fault:
            yield "90 beside the numbers of faults", token.line


# Small bodies, each with what is wrong with it


SMALL = [
    ("makes AllocError", "places", "fn f(n: u64) -> Result<(), AllocError> { if n > 500 { return Err(AllocError); } Ok(()) }"),
    ("makes it of nothing", "places", "fn f(x: Option<u8>) -> Result<u8, AllocError> { x.ok_or(AllocError) }"),
    ("makes it at the end", "places", "fn f() -> Result<(), AllocError> { Err(AllocError) }"),
    ("makes it in a closure", "places", "fn f(x: Option<u8>) -> Result<u8, AllocError> { x.ok_or_else(|| AllocError) }"),
    ("makes it in an arm", "places", "fn f(n: u8) -> Result<(), AllocError> { match n { 0 => Ok(()), _ => Err(AllocError), } }"),
    ("makes it in a guard", "places", "fn f(n: u8) { match n { n if g(n, AllocError) => (), _ => (), } }"),
    ("makes it in a constant", "places", "const NONE: AllocError = AllocError;"),
    ("keeps it in a field", "places", "struct Book { last: Result<(), AllocError> }"),
    ("makes a refused value", "places", "fn f(x: u8) -> Result<(), AllocFailed<u8>> { Err(AllocFailed { value: x }) }"),
    ("makes a fault", "places", "fn f(n: u64) -> Result<(), Fault> { if n == 999 { Err(Fault::Memory) } else { Ok(()) } }"),
    ("makes a fault of a fault", "places", "fn f() -> Told<()> { Err(DeskFault::Hall(Fault::Memory)) }"),
    ("makes a fault by another name", "places", "use hall::Fault as Why; fn f() -> Result<(), Why> { Err(Why::Memory) }"),
    ("makes a fault of itself", "places", "impl Fault { fn f() -> Fault { Self::Memory } }"),
    ("makes a fault of another one", "places", "fn f(x: Fault) -> Fault { match x { Fault::NotHeld | Fault::Memory => Fault::Memory, x => x } }"),
    ("makes a fault of all others", "places", "fn f(x: Result<(), Fault>) -> Result<(), Fault> { x.map_err(|_| Fault::Memory) }"),
    ("makes a fault where a name is bad", "places", "fn f(x: VaultFault) -> Fault { match x { VaultFault::NotHeld => Fault::Memory, _ => g() } }"),
    ("settles as broken", "places", "fn f(&mut self) { self.stage = Stage::Broken; }"),
    ("tells as broken what works", "places", "fn f(s: Status) -> Answer { match s { Status::Working => Answer::Broken, _ => g() } }"),
    ("tells as broken what is or works", "places", "fn f(s: Status) -> Answer { match s { Status::Working | Status::Broken => Answer::Broken, _ => g() } }"),
    ("makes an error of the system's", "places", "fn f() -> Error { Error::from(ErrorKind::OutOfMemory) }"),
    ("imports the case", "hidden", "use hall::Fault::Memory; fn f() -> Fault { g() }"),
    ("imports all names", "hidden", "use hall::Fault::*; fn f() -> Fault { g() }"),
    ("gives it another name", "hidden", "use std::alloc::AllocError as Lack; fn f() -> Result<(), Lack> { Err(Lack) }"),
    ("has a type of another name", "places", "type Lack = AllocError;"),
    ("has it by default", "hidden", "#[derive(Default)] enum Fault { NotHeld, #[default] Memory }"),
    ("takes the default", "hidden", "fn f() -> Fault { Default::default() }"),
    ("has a derived conversion", "hidden", "enum Fault { Memory(#[from] Bad) }"),
    ("has a module that is read as tests", "hidden", "#[cfg(not(test))] mod tests;"),
    ("has a module from elsewhere", "hidden", '#[path = "../elsewhere"] mod more;'),
    ("has a macro", "hidden", "macro_rules! lack { () => { g() } }"),
    ("has unsafe code", "hidden", "fn f() -> Fault { unsafe { g() } }"),
    ("asks for more than there is", "rooms", "fn f(alloc: Global) -> Result<(), AllocError> { Vec::<u8>::with_capacity(alloc, usize::MAX)?; Ok(()) }"),
    ("asks for room that it doesn't need", "rooms", "fn f(&mut self) -> Result<(), AllocError> { self.names.try_reserve(1 << 60) }"),
    ("keeps a fault", "holders", "struct Seat { last: Option<Fault> }"),
    ("spells the number", "numbers", "fn f(buffer: &mut ReplyBuffer) { fill_error(buffer, &Speaker::Peer, 90) }"),
    ("reckons the number", "numbers", "fn f(buffer: &mut ReplyBuffer) { fill_error(buffer, &Speaker::Peer, 80 + 10) }"),
    ("finds beside the check", "calls", "fn passes_below(p: usize) -> bool { if p == 0 { return true; } let _span = g.find(r); s.passes(c, r, p) }"),
    ("compares beside the check", "calls", "fn passes_below(p: usize) -> bool { if p == 0 { return true; } let _is = a == b; s.passes(c, r, p) }"),
    ("calls itself for each line", "recursive", "fn f(text: &[u8]) { let (line, rest) = cut(text); g(line); if let Some(rest) = rest { f(rest) } }"),
    ("calls itself as a method", "recursive", "impl Tree { fn depth(&self) -> u64 { self.depth() + 1 } }"),
    ("calls another of its name", None, "impl Graph { fn clear(&mut self) { self.nodes.clear(); clear(self.tables) } }"),
    ("hands on by a question mark", None, "fn f(v: &mut Vec<u8>) -> Result<(), Fault> { v.push(1)?; Ok(()) }"),
    ("hands on by an arm", None, "fn f(x: E) -> Result<(), Refusal> { match x { Err(CredFault::Memory) => Err(Refusal::Memory), _ => g() } }"),
    ("tells what is broken", None, "fn f(s: Status) -> Answer { match s { Status::Spent => Answer::Spent, Status::Broken => Answer::Broken } }"),
    ("compares", None, "fn f(e: Error) -> bool { if e.kind() == ErrorKind::OutOfMemory { return true; } g() != Fault::Memory }"),
    ("tells the number", None, "impl Fault { fn number(self) -> u64 { match self { Fault::Memory => 90, Fault::NotHeld => 33 } } }"),
    ("has a contract", None, "fn f() -> Result<(), Fault> ensures { IfErr result (λ f. f ≡ Fault::Memory) } { g() } // Fault::Memory"),
    ("compares by the count", None, "fn passes_below(p: usize) -> bool { if p == 0 { return true; } s.passes(c, r, rows.row(p - 1)) }"),
]  # fmt: skip


def complaints(source, faults):
    """All that the tables have to allow, and all that nothing allows, each by its kind."""
    return {
        "places": list(places(source)),
        "rooms": list(rooms(source)),
        "holders": list(holders(source, faults)),
        "hidden": list(hidden(source)),
        "numbers": list(numbers(source)),
        "recursive": list(recursive(source)),
        "calls": [row for row in calls(source) if row[1] == "passes_below" and row[2:] != CALLED["passes_below"]],
    }


CALLED = {function: (called,) for _, function, called in CALLS}


def is_judged(name, kind, text):
    """Whether just what is wrong with the small body is found, if anything is."""
    found = [each for each, rows in complaints(read("small", text), {"Fault", "DeskFault"}).items() if rows]
    if (kind in found) if kind else not found:
        return True
    print(f"a small body that {name}: found {found or 'nothing'}")
    return False


# The sources against the tables


def compare(name, wanted, found):
    """Whether the rows are the same, each as often."""
    wanted, found = collections.Counter(wanted), collections.Counter(found)
    for row in (found - wanted).elements():
        print(f"{name}: not in the table: {row}")
    for row in (wanted - found).elements():
        print(f"{name}: in the table, and not in the sources: {row}")
    return wanted == found


def flat(sources, rows):
    return [row for source in sources for row in rows(source)]


def main(words):
    paths = [path for crate in sorted((ROOT / "crates").iterdir()) for path in code_files(crate)]
    sources = [read(str(path.relative_to(ROOT / "crates")).replace("/src/", "/"), path.read_text()) for path in paths]
    faults = faults_of(sources)
    checked = {(file, function) for file, function, _ in CALLS}
    tables = [
        ("places", [row[:4] for row in PLACES], flat(sources, places)),
        ("rooms", ROOMS, flat(sources, rooms)),
        ("bounds", BOUNDS, [row for row in flat(sources, bounds) if row[:2] in {bound[:2] for bound in BOUNDS}]),
        ("holders", HOLDERS, flat(sources, lambda source: holders(source, faults))),
        ("calls", CALLS, [row for row in flat(sources, calls) if row[:2] in checked]),
        ("recursive", [row[:2] for row in RECURSIVE], set(flat(sources, recursive))),
        ("hidden", [], flat(sources, lambda source: [(source.name, *row) for row in hidden(source)])),
        ("numbers", [], flat(sources, lambda source: [(source.name, *row) for row in numbers(source)])),
    ]
    if words == ["--list"]:
        print("\n".join(f"{name}: {row}" for name, _, found in tables for row in found))
        return 0
    results = [compare(*table) for table in tables] + [is_judged(*small) for small in SMALL]
    print(f"{results.count(True)} passed, {results.count(False)} failed")
    return 0 if all(results) else 1


if __name__ == "__main__":
    sys.exit(main(sys.argv[1:]))
