"""The places of the sources where a body could answer that memory ran out, and a copy of the sources that can, for tools/hidden-refusals.

A place stands in a function whose error can tell want of memory (its type is `AllocError`, or an enum with a variant `Memory` or a `From` of it). It is

- an end: where the function answers `Ok`, or hands on what a call answers with `Ok`;
- a refusal: where it answers `Err` of something else, or hands on what a call answers with `Err`, at its end or by `?`.

What only want of memory reaches is no place. In the copy each place is a call of the crate `hidden_place`, which answers want of memory where the
place is the chosen one. Sources are read as they are written here: functions whose clauses stand before their body, no macro that
hides an end.
"""
import collections
import pathlib
import re

from crates import below, libraries

TOP = pathlib.Path(__file__).resolve().parent.parent
CRATE = "hidden_place"
END, REFUSAL, HANDED = "end", "refusal", "handed on"

# One place: its number, where it is, the function, what it is, the text of the expression, and whether what it answers is want of memory
# alone, since none of the functions that it calls makes another error.
Place = collections.namedtuple("Place", "number crate file line function kind text is_free")

TOKEN = re.compile(r"""//[^\n]*|b?"(?:\\.|[^"\\])*"|b?'(?:\\[^']+|[^'\\])'|'[a-z_]\w*|[^\W\d]\w*|\d\w*|=>|->|::|==|!=|<=|>=|&&|\|\||\.\.=|\.\.|\S""", re.S)
CLOSES = {"(": ")", "[": "]", "{": "}"}
BLOCKS = ("if", "match", "while", "for", "loop", "unsafe", "{")
NEVER = ("unreachable", "panic")


class Source:
    """The tokens of a file, with the place of each, and for each bracket the one that belongs to it."""

    def __init__(self, text):
        self.text = text
        self.tokens, self.at, self.ends, self.other = [], [], [], {}
        opened = []
        for found in TOKEN.finditer(text):
            if found[0].startswith("//"):
                continue
            number = len(self.tokens)
            self.tokens.append(found[0])
            self.at.append(found.start())
            self.ends.append(found.end())
            if found[0] in CLOSES:
                opened.append(number)
            elif found[0] in CLOSES.values():
                begin = opened.pop()
                assert CLOSES[self.tokens[begin]] == found[0], f"{text.count(chr(10), 0, found.start()) + 1}: brackets do not match"
                self.other[begin], self.other[number] = number, begin

    def line(self, number):
        return self.text.count("\n", 0, self.at[number]) + 1

    def between(self, begin, end):
        """The text of the tokens from one up to another."""
        return self.text[self.at[begin]:self.ends[end - 1]]

    def find(self, begin, end, *wanted):
        """The first of these tokens that stands in no bracket."""
        here = begin
        while here < end:
            if self.tokens[here] in wanted:
                return here
            here = self.other[here] + 1 if self.tokens[here] in CLOSES else here + 1
        return None

    # ---- functions

    def behind_generics(self, here):
        """The token behind `<..>`, where there is one."""
        if self.tokens[here] != "<":
            return here
        depth = 0
        while True:
            depth += {"<": 1, ">": -1}.get(self.tokens[here], 0)
            here += 1
            if depth == 0:
                return here

    def heads(self):
        """(the place of `fn`, the name, the type that is given back) of each function; where the type ends is kept."""
        self.stops = {}
        for number, token in enumerate(self.tokens):
            if token != "fn" or not re.match(r"[^\W\d]", self.tokens[number + 1]):
                continue
            here = self.behind_generics(number + 2)
            if self.tokens[here] != "(":
                continue
            begin = here = self.other[here] + 1
            while self.tokens[here] not in ("{", ";", "where", "requires", "ensures"):
                here = self.other[here] + 1 if self.tokens[here] in "([" else here + 1
            self.stops[number] = here
            yield number, self.tokens[number + 1], self.between(begin + 1, here) if self.tokens[begin] == "->" else ""

    def functions(self):
        """(name, the type that is given back, whether it is constant, the body's brackets) of each function that has a body."""
        for number, name, given in self.heads():
            here = self.behind_clauses(self.stops[number])
            if self.tokens[here] == "{":
                yield name, given, self.tokens[number - 1] == "const", here, self.other[here]

    def type_of(self, number):
        """The type whose function this is; nothing of others."""
        for begin in range(number, -1, -1):
            if self.tokens[begin] == "impl":
                bracket = begin
                while self.tokens[bracket] != "{":
                    bracket += 1
                if self.other[bracket] < number:
                    continue
                names = [self.tokens[here] for here in range(self.behind_generics(begin + 1), bracket)]
                names = names[names.index("for") + 1:] if "for" in names else names
                return re.match(r"\w+", names[0])[0] if names and re.match(r"\w", names[0]) else ""
        return ""

    def behind_clauses(self, here):
        if self.tokens[here] == "where":
            while self.tokens[here] not in ("{", ";", "requires", "ensures"):
                here += 1
        while self.tokens[here] in ("requires", "ensures"):
            while self.tokens[here] != "{":
                here += 1
            here = self.other[here] + 1
        return here

    # ---- ends

    def behind_block(self, here, end):
        """The token behind an expression that ends with a block, with each `else`."""
        if self.tokens[here] != "{":
            here = self.find(here + 1, end, "{")
        here = self.other[here] + 1
        if here < end and self.tokens[here] == "else":
            return self.behind_block(here + 1, end)
        return here

    def last_of_block(self, begin, end):
        """The expression that a block gives, between its brackets; None where it gives none."""
        here = begin
        while here < end:
            token = self.tokens[here]
            if token == ";":
                here += 1
            elif token == "#":
                here = self.other[here + 1] + 1
            elif token in BLOCKS:
                behind = self.behind_block(here, end)
                if behind >= end:
                    return here, end
                if self.tokens[behind] in (".", "?"):
                    semicolon = self.find(behind, end, ";")
                    if semicolon is None:
                        return here, end
                    behind = semicolon
                here = behind
            else:
                semicolon = self.find(here, end, ";")
                if semicolon is None:
                    return here, end
                here = semicolon + 1
        return None

    def ends_of(self, begin, end):
        """The expressions without branches that an expression comes to."""
        token = self.tokens[begin]
        if token in ("loop", "while", "for", "return") or token in NEVER and self.tokens[begin + 1] == "!":
            return
        if token in BLOCKS and self.behind_block(begin, end) == end:
            if token == "match":
                yield from self.ends_of_arms(self.find(begin + 1, end, "{"))
            else:
                yield from self.ends_of_blocks(begin, end)
            return
        yield begin, end

    def ends_of_blocks(self, begin, end):
        here = begin
        while here is not None and here < end:
            here = self.find(here, end, "{")
            if here is not None:
                last = self.last_of_block(here + 1, self.other[here])
                if last:
                    yield from self.ends_of(*last)
                here = self.other[here] + 1

    def ends_of_arms(self, bracket):
        here, end = bracket + 1, self.other[bracket]
        while here < end:
            body = self.find(here, end, "=>") + 1
            if self.tokens[body] == "{":
                here = self.other[body] + 1
                last = self.last_of_block(body + 1, self.other[body])
                if last:
                    yield from self.ends_of(*last)
                if here < end and self.tokens[here] == ",":
                    here += 1
            else:
                comma = self.find(body, end, ",")
                yield from self.ends_of(body, comma or end)
                here = (comma or end) + 1

    def given_back(self, begin, end):
        """What a body comes to: at its end, and at each `return`."""
        last = self.last_of_block(begin + 1, end)
        if last:
            yield from self.ends_of(*last)
        for here in range(begin + 1, end):
            if self.tokens[here] == "return":
                stop = here + 1
                while self.tokens[stop] not in (";", ",", "}"):
                    stop = self.other[stop] + 1 if self.tokens[stop] in CLOSES else stop + 1
                if stop > here + 1:
                    yield from self.ends_of(here + 1, stop)

    # ---- what is asked by `?`

    def asked(self, begin, end):
        """The expression before each `?` of a body."""
        for here in range(begin + 1, end):
            if self.tokens[here] == "?":
                first = self.first_of(here - 1)
                if first is not None:
                    yield first, here

    def first_of(self, here):
        """The first token of the call or the path that ends here; None where it is neither."""
        while True:
            token = self.tokens[here]
            if token in ")]":
                here = self.other[here] - 1
                if self.tokens[here] == "!":
                    here -= 1
                if self.tokens[here] == ">":
                    here = self.before_generics(here)
                if not re.match(r"[^\W\d]", self.tokens[here]):
                    return None
            elif token == "?":
                here -= 1
                continue
            elif not re.match(r"[^\W\d]|\d", token):
                return None
            while self.tokens[here - 1] == "::":
                here -= 2
                if self.tokens[here] == ">":
                    here = self.before_generics(here)
            if self.tokens[here - 1] != ".":
                return here
            here -= 2

    def before_generics(self, here):
        """The token before `::<..>` or `<..>`, of which this is the end."""
        depth = 0
        while True:
            depth += {">": 1, "<": -1}.get(self.tokens[here], 0)
            here -= 1
            if depth == 0:
                return here - 1 if self.tokens[here] == "::" else here


def error_of(given):
    """The error of a `Result`, and whether something comes back beside it; None of other types."""
    found = re.fullmatch(r"(?:std::result::)?Result<(.*?),?\s*>", given.strip(), re.S)
    if not found:
        return None, False
    depth, parts = 0, [""]
    for letter in found[1]:
        depth += (letter in "<([") - (letter in ">)]")
        if letter == "," and depth == 0:
            parts.append("")
        else:
            parts[-1] += letter
    if len(parts) != 2:
        return None, False
    error = " ".join(parts[1].split())
    beside = re.fullmatch(r"\(.*, (\w+)\)", error)
    return (beside[1], True) if beside else (error, False)


def sources_of(crate):
    """The files of a crate, but those of its tests."""
    folder = TOP / "crates" / crate / "src"
    tests = set()
    for path in folder.rglob("*.rt"):
        tests |= set(re.findall(r"#\[cfg\(test\)\]\s*mod (\w+);", path.read_text()))
    return [path for path in sorted(folder.rglob("*.rt")) if path.stem not in tests]


def enums_of(text):
    """The enums that a file declares: whether each has a variant for want of memory, and whether the file makes it of `AllocError`."""
    for name, variants in re.findall(r"\benum (\w+)(?:<[^{]*>)? \{(.*?)\n\}", text, re.S):
        yield name, bool(re.search(r"^\s+Memory,", variants, re.M)), f"impl From<AllocError> for {name} " in text


class Errors:
    """The error types that can tell want of memory, by the crates that declare them."""

    def __init__(self, crates):
        self.declared = {}
        for crate in crates:
            for path in sources_of(crate):
                for name, has_memory, is_made in enums_of(path.read_text()):
                    self.declared.setdefault(name, {})[crate] = has_memory or is_made

    def can_tell(self, crate, name):
        there = self.declared.get(name, {})
        return name == "AllocError" or there.get(crate, any(there.values()))


def with_conversions(text):
    """A file with a conversion for each enum that has a variant for want of memory and none."""
    more = [f"\nimpl From<std::alloc::AllocError> for {name} {{\n    fn from(_error: std::alloc::AllocError) -> {name} {{\n        {name}::Memory\n    }}\n}}\n"
            for name, has_memory, is_made in enums_of(text) if has_memory and not is_made]
    return text + "".join(more)


class Calls:
    """The error types of the functions over all crates, by name, and by type and name."""

    def __init__(self, crates):
        self.errors = collections.defaultdict(set)
        for crate in crates:
            for path in sources_of(crate):
                source = Source(path.read_text())
                for number, name, given in source.heads():
                    error, beside = error_of(given)
                    for known in (name, f"{source.type_of(number)}::{name}"):
                        self.errors[known].add("beside " + error if beside else error or "none")

    def takes_memory_alone(self, source, begin, end):
        """Whether the call that an expression ends with has no other error than want of memory, by what has its name."""
        text = source.between(begin, end)
        if re.search(r"\b(ok_or|map_err|ok_or_else)\(", text):
            return False
        here = end - 1
        if source.tokens[here] != ")":
            return False
        here = source.other[here] - 1
        if source.tokens[here] == "!":
            return True
        if source.tokens[here] == ">":
            here = source.before_generics(here)
        name, of_type = source.tokens[here], f"{source.tokens[here - 2]}::{source.tokens[here]}"
        if source.tokens[here - 1] == "::" and source.tokens[here - 2][0].isupper():
            return self.errors.get(of_type, {"AllocError"}) <= {"AllocError"}
        return self.errors.get(name, {"AllocError"}) - {"none"} <= {"AllocError"}


def is_mapped(source, begin, end):
    """Whether an expression makes an error of another or of none."""
    return re.search(r"\.(ok_or|map_err|ok_or_else)\(", source.between(begin, end)) is not None


# A call: the type that it names, if it does, the function's name, and whether it is of `self`, of another value, or of none.
Call = collections.namedtuple("Call", "of_type name receiver")


def called_by(source, begin, end):
    """The call that an expression ends with; None where it ends otherwise."""
    here = end - 1
    if source.tokens[here] != ")":
        return None
    here = source.other[here] - 1
    if source.tokens[here] == ">":
        here = source.before_generics(here)
    name, before, first = source.tokens[here], source.tokens[here - 1], source.tokens[here - 2]
    if not re.match(r"[^\W\d]", name):
        return None
    if before == "::" and first[0].isupper():
        return Call(first, name, "")
    return Call("", name, ("self" if first == "self" and source.tokens[here - 3] != "." else "value") if before == "." else "")


class Refusing:
    """Which functions may give another error than want of memory: those that make one, and those that hand one on."""

    def __init__(self, crates, errors):
        self.libraries, self.known, self.refusing = libraries(), collections.defaultdict(set), set()
        hands_on = {}
        for crate in crates:
            for path in sources_of(crate):
                source = Source(path.read_text())
                for name, given, _, begin, end in source.functions():
                    one, error = (crate, source.type_of(begin), name), error_of(given)[0]
                    self.known[name].add(one)
                    if error is None or error == "AllocError":
                        continue
                    calls = self.read(source, begin, end) if errors.can_tell(crate, error) else None
                    if calls is None:
                        self.refusing.add(one)
                    else:
                        hands_on[one] = calls
        while fresh := {one for one, calls in hands_on.items() if one not in self.refusing and any(self.is_refusing(one, call) for call in calls)}:
            self.refusing |= fresh

    def read(self, source, begin, end):
        """The calls whose errors a body hands on; None where it makes one, or hands on what no call gives."""
        calls = []
        for first, last in [*source.given_back(begin, end), *source.asked(begin, end)]:
            if source.tokens[first] == "Ok" or is_memory(source, first, last):
                continue
            call = called_by(source, first, last)
            if call is None and source.tokens[first] == "Err" or is_mapped(source, first, last) or call and call.name == "Err":
                return None
            if call:
                calls.append(call)
        return calls

    def is_refusing(self, one, call):
        """Whether a call in a function may give another error; one that is found nowhere is of the kit, and takes memory alone."""
        crate, of_type, _ = one
        near = {crate, *self.libraries[crate]}
        there = [other for other in self.known.get(call.name, ()) if other[0] in near or other[0] in below(crate, self.libraries)]
        if call.of_type:
            there = [other for other in there if other[1] == (of_type if call.of_type == "Self" else call.of_type)]
        elif call.receiver == "self" and any(other[:2] == (crate, of_type) for other in there):
            there = [other for other in there if other[:2] == (crate, of_type)]
        elif call.receiver:
            there = [other for other in there if other[1]]
        else:
            there = [other for other in there if not other[1]]
            there = [other for other in there if other[0] == crate] or there
        return any(other in self.refusing for other in there)

    def may_refuse(self, one, source, begin, end):
        """Whether an expression of a function may give another error than want of memory."""
        call = called_by(source, begin, end)
        return call is not None and self.is_refusing(one, call) or is_mapped(source, begin, end)


def is_memory(source, begin, end):
    """Whether an expression `Err(..)` is of want of memory."""
    text = source.between(begin, end)
    return bool(re.fullmatch(r"Err\((?:\w+::)*(?:Memory|AllocError)\)|Err\(\(.*, AllocError\)\)", " ".join(text.split())))


class Reader:
    """Reads crates, and keeps their places and the sources of the copy."""

    def __init__(self, crates, left_out=()):
        self.crates = list(crates)
        self.errors, self.calls = Errors(self.crates), Calls(self.crates)
        self.refusing = Refusing(self.crates, self.errors)
        self.places, self.copies, self.left_out, self.skipped = [], {}, set(left_out), collections.Counter()
        for crate in self.crates:
            for path in sources_of(crate):
                self.read(crate, path)

    def add(self, source, crate, path, function, kind, begin, end):
        text = " ".join(source.between(begin, end).split())
        one = crate, source.type_of(begin), function
        if source.tokens[begin] == "Err":
            is_free = text.endswith("::Memory))")
        else:
            is_free = kind != END and not self.refusing.may_refuse(one, source, begin, end)
        place = Place(len(self.places) + 1, crate, path.relative_to(TOP / "crates" / crate).as_posix(), source.line(begin), function, kind,
                      text, is_free)
        self.places.append(place)
        return place.number

    def read(self, crate, path):
        text = path.read_text()
        source, edits = Source(text), []
        for name, given, is_const, begin, end in source.functions():
            error, beside = error_of(given)
            if error is None or name == "from" or is_const:
                continue
            if not self.errors.can_tell(crate, error):
                self.skipped[error] += 1
                continue
            self.read_body(source, crate, path, name, error, beside, begin, end, edits)
        self.copies[path] = with_conversions(edited(text, edits))

    def read_body(self, source, crate, path, name, error, beside, begin, end, edits):
        def wrap(first, last, call):
            edits.append((source.at[first], source.ends[last - 1], f"{CRATE}::{call}, ", ")"))

        for first, last in source.given_back(begin, end):
            key = (path.relative_to(TOP).as_posix(), source.line(first))
            if key in self.left_out:
                continue
            token = source.tokens[first]
            if token == "Ok" and source.tokens[first + 1] == "(" and source.other[first + 1] == last - 1:
                if not beside:
                    wrap(first, last, f"end({self.add(source, crate, path, name, END, first, last)}")
            elif token == "Err" and source.tokens[first + 1] == "(" and source.other[first + 1] == last - 1:
                if error != "AllocError" and not is_memory(source, first, last):
                    call = "beside" if beside else "refusal"
                    wrap(first, last, f"{call}({self.add(source, crate, path, name, REFUSAL, first, last)}")
            elif not beside:
                happy = self.add(source, crate, path, name, END, first, last)
                if error == "AllocError" or self.calls.takes_memory_alone(source, first, last):
                    wrap(first, last, f"end({happy}")
                else:
                    wrap(first, last, f"answer({happy}, {self.add(source, crate, path, name, REFUSAL, first, last)}")
        if error == "AllocError" or beside:
            return
        for first, last in source.asked(begin, end):
            key = (path.relative_to(TOP).as_posix(), source.line(first))
            if key in self.left_out or self.calls.takes_memory_alone(source, first, last):
                continue
            number = self.add(source, crate, path, name, HANDED, first, last)
            wrap(first, last, f"handed::<_, _, {error}>({number}")


def edited(text, edits):
    """A text with what is put before and behind each of these parts of it."""
    put = [(begin, 1, -end, before) for begin, end, before, _ in edits] + [(end, 0, -begin, behind) for begin, end, _, behind in edits]
    parts, here = [], 0
    for at, _, _, more in sorted(put):
        parts += [text[here:at], more]
        here = at
    return "".join(parts) + text[here:]
