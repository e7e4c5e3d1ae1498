"""Reads files of definitions and of worked rows: their names, their lines and their terms, each with the place where it stands."""
import dataclasses
import pathlib
import re
from collections.abc import Iterator

TOKEN = re.compile(r'\s+|--[^\n]*|"(?:\\.|[^"\\])*"|[(){};,]|[^\s(){};,"]+')
NUMBER = re.compile(r"0o[0-7_]+$|0x[0-9a-fA-F_]+$|0b[01_]+$|[0-9][0-9_]*$")

# How tightly each operator binds, and whether it groups to the right.
OPERATORS = {
    "↔": (3, True), "→": (5, True), "⊎": (9, True), "×": (10, True), "≡": (20, False), "≢": (20, False), "||": (30, True), "&&": (35, True),
    "==": (40, False), "<": (50, False), "≤": (50, False), "++": (65, True), "+": (65, False), "-": (65, False), "+ℤ": (65, False),
    "-ℤ": (65, False), "∷": (67, True), "*": (70, False), "/": (70, False), "%": (70, False), "*ℤ": (70, False), "^": (75, True),
}


class Unread(Exception):
    """Why a text can't be read: it has a form that definitions and rows don't need."""


@dataclasses.dataclass(frozen=True)
class Token:
    """A token, with where it begins and ends in the text of its file."""
    text: str
    start: int
    end: int


@dataclasses.dataclass
class Term:
    """A term: its kind, where it stands, its word, if it has one, and its parts.

    The kinds: number, text, name, hole, apply (a head and what it is applied to), infix (its operator, two parts), field (of a part),
    tuple, function (its names, a body), let (a name, two parts), if (three parts), record (its fields; where it is made of another
    record, that one first), given (names with a type, and what follows)."""
    kind: str
    start: int
    end: int
    word: str = ""
    parts: list["Term"] = dataclasses.field(default_factory=list)
    names: list[str] = dataclasses.field(default_factory=list)

    def walk(self) -> Iterator["Term"]:
        """The term and all its parts."""
        yield self
        for part in self.parts:
            yield from part.walk()


@dataclasses.dataclass
class Clause:
    """One line of a definition: its patterns, and what it says. The text of the file has it from `start` to `end`."""
    patterns: list[Term]
    body: Term
    start: int
    end: int


@dataclasses.dataclass
class Definition:
    """A definition, a worked row or a lemma: its name, the tokens of its type, and its clauses."""
    name: str
    type: list[Token]
    clauses: list[Clause]
    start: int
    end: int


@dataclasses.dataclass
class Record:
    """A kind of records: each field with the tokens of its type. Where it is a fact, `is_fact` says so."""
    name: str
    fields: list[tuple[str, list[Token]]]
    is_fact: bool


def tokens_of(text: str, offset: int = 0) -> list[Token]:
    """The tokens of a text, without blanks and comments."""
    found = []
    for match in TOKEN.finditer(text):
        it = match[0]
        if not it.isspace() and not it.startswith("--"):
            found.append(Token(it, offset + match.start(), offset + match.end()))
    return found


class Parser:
    """Reads terms from tokens."""

    def __init__(self, tokens: list[Token]) -> None:
        self.tokens = tokens
        self.at = 0

    def peek(self) -> str:
        """The next token, or nothing."""
        return self.tokens[self.at].text if self.at < len(self.tokens) else ""

    def take(self, wanted: str | None = None) -> Token:
        """Takes the next token."""
        if self.at >= len(self.tokens) or wanted not in (None, self.peek()):
            raise Unread(f"{wanted or 'a token'} is missing at {self.peek()!r}")
        self.at += 1
        return self.tokens[self.at - 1]

    def term(self, tightness: int = 0) -> Term:
        """A term whose operators bind at least so tightly."""
        left = self.operand()
        while self.peek() in OPERATORS:
            level, to_right = OPERATORS[self.peek()]
            if level < tightness:
                break
            word = self.take().text
            right = self.term(level if to_right else level + 1)
            left = Term("infix", left.start, right.end, word, [left, right])
        return left

    def operand(self) -> Term:
        """What stands beside an operator."""
        special = {"λ": self.function, "let": self.let, "if": self.choice}.get(self.peek())
        if special:
            return special()
        head = self.atom()
        parts = [head]
        while (it := self.peek()) and it not in OPERATORS and it not in (")", "}", ";", ",", "then", "else", "in", "="):
            if it == "{":
                self.skip_braces()
            elif it in ("λ", "let", "if"):
                break
            else:
                parts.append(self.atom())
        return head if len(parts) == 1 else Term("apply", head.start, parts[-1].end, "", parts)

    def skip_braces(self) -> None:
        """Passes over an argument in braces."""
        depth = 0
        while True:
            it = self.take().text
            depth += (it == "{") - (it == "}")
            if not depth:
                return

    def function(self) -> Term:
        """λ names. body"""
        start = self.take("λ").start
        names = []
        while True:
            it = self.take().text
            if it == "(":
                names.append(self.take().text)
                while self.take().text != ")":
                    pass
                if self.peek() == ".":
                    self.take()
                    break
                continue
            names.append(it.removesuffix("."))
            if it.endswith("."):
                break
        body = self.term()
        return Term("function", start, body.end, "", [body], names)

    def let(self) -> Term:
        """let name = term in term"""
        start = self.take("let").start
        name = self.take().text
        while self.peek() != "=":
            self.take()
        self.take("=")
        value = self.term()
        self.take("in")
        body = self.term()
        return Term("let", start, body.end, name, [value, body], [name])

    def choice(self) -> Term:
        """if term then term else term"""
        start = self.take("if").start
        parts = [self.term()]
        self.take("then")
        parts.append(self.term())
        self.take("else")
        parts.append(self.term())
        return Term("if", start, parts[-1].end, "", parts)

    def atom(self) -> Term:
        """A term that needs no brackets."""
        it = self.take()
        if it.text == "(":
            found = self.bracketed(it)
        elif it.text == "record":
            found = self.record(it)
        elif it.text.startswith('"'):
            found = Term("text", it.start, it.end, it.text)
        elif NUMBER.match(it.text):
            found = Term("number", it.start, it.end, it.text)
        elif it.text == "_":
            found = Term("hole", it.start, it.end, it.text)
        elif it.text in OPERATORS or it.text in (")", "{", "}", ";", ",", "=", "then", "else", "in", "?"):
            raise Unread(f"{it.text!r} where a term is wanted")
        else:
            found = Term("name", it.start, it.end, it.text)
        while found.kind != "name" and re.match(r"\.\w", self.peek()) and self.tokens[self.at].start == found.end:
            field = self.take()
            for word in field.text[1:].split("."):
                found = Term("field", found.start, field.end, word, [found])
        return found

    def bracketed(self, begin: Token) -> Term:
        """What stands in brackets: a term, a tuple, or names with their type before what they are given to."""
        if self.at + 1 < len(self.tokens) and self.names_before_colon():
            return self.given(begin)
        parts = [self.term()]
        while self.peek() == ",":
            self.take()
            parts.append(self.term())
        end = self.take(")").end
        if len(parts) > 1:
            return Term("tuple", begin.start, end, "", parts)
        return Term("brackets", begin.start, end, "", parts)

    def names_before_colon(self) -> bool:
        """Do names and a colon come next?"""
        at = self.at
        while at < len(self.tokens) and re.match(r"[\w'-]+$", self.tokens[at].text):
            at += 1
        return self.at < at < len(self.tokens) and self.tokens[at].text == ":"

    def given(self, begin: Token) -> Term:
        """(names : type) before → or ×: the type is passed over."""
        names = []
        while (it := self.take().text) != ":":
            names.append(it)
        depth = 1
        while depth:
            end = self.take()
            depth += (end.text == "(") - (end.text == ")")
        return Term("given", begin.start, end.end, "", [], names)

    def record(self, begin: Token) -> Term:
        """record { fields }, or record term { fields }"""
        parts = []
        if self.peek() != "{":
            parts.append(self.atom())
        self.take("{")
        names = []
        while self.peek() != "}":
            names.append(self.take().text)
            self.take("=")
            parts.append(self.term())
            if self.peek() == ";":
                self.take()
        end = self.take("}").end
        return Term("record", begin.start, end, "", parts, names)


def whole_term(tokens: list[Token]) -> Term:
    """The term that all these tokens are."""
    parser = Parser(tokens)
    found = parser.term()
    if parser.peek():
        raise Unread(f"{parser.peek()!r} is left over")
    return found


def patterns_of(tokens: list[Token]) -> list[Term]:
    """The patterns that these tokens are."""
    parser = Parser(tokens)
    found = []
    while parser.peek():
        if parser.peek() == "{":
            parser.skip_braces()
        else:
            found.append(parser.atom())
    return found


def type_parts(tokens: list[Token]) -> list[str]:
    """The types between the arrows of a type, without what stands in braces."""
    parts: list[list[str]] = [[]]
    depth = 0
    for it in tokens:
        depth += it.text in ("(", "{")
        if it.text == "→" and not depth:
            parts.append([])
        else:
            parts[-1].append(it.text)
        depth -= it.text in (")", "}")
    return [spelled(it) for it in parts if it[:1] != ["{"]]


def spelled(words: list[str]) -> str:
    """Words of a type as one text, without brackets around it."""
    text = " ".join(words).replace("( ", "(").replace(" )", ")")
    return text[1:-1] if text.startswith("(") and text.endswith(")") and text.count("(") == 1 else text


class File:
    """A file of definitions or proofs: its text, what it uses, its definitions and kinds of records, and the words of each of them."""

    def __init__(self, path: pathlib.Path, text: str | None = None) -> None:
        self.path = path
        self.text = path.read_text() if text is None else text
        self.uses: list[tuple[bool, str]] = []
        self.definitions: dict[str, Definition] = {}
        self.records: dict[str, Record] = {}
        self.constructors: dict[str, int] = {}
        self.unread: list[str] = []
        self.words: dict[str, set[str]] = {}
        for start, end in self.blocks():
            self.read(start, end)

    def blocks(self) -> Iterator[tuple[int, int]]:
        """Where each block of lines begins and ends: a line at the margin, with the lines behind it that are indented."""
        start = None
        at = 0
        for line in self.text.splitlines(keepends=True):
            goes_on = line[0] in " })" and line.strip()
            if not goes_on and start is not None:
                yield start, at
                start = None
            if not goes_on and line.strip() and not line.startswith("--"):
                start = at
            at += len(line)
        if start is not None:
            yield start, at

    def read(self, start: int, end: int) -> None:
        """Reads a block."""
        text = self.text[start:end].rstrip()
        end = start + len(text)
        tokens = tokens_of(text, start)
        words = [it.text for it in tokens]
        if words[0] == "use" or words[:2] == ["pub", "use"]:
            self.uses.append((words[0] == "pub", " ".join(text.split()).split("use ", 1)[1]))
        elif "record" in words[:2]:
            self.read_record(tokens)
            self.words[words[words.index("record") + 1]] = set(words)
        elif "data" in words[:2]:
            self.read_data(text)
            self.words[words[words.index("data") + 1]] = set(words)
        elif words[:2] != ["pub", "mod"] and words[0] not in ("unfolding", "open", "infix", "infixl", "infixr"):
            try:
                self.read_line(tokens, start, end)
            except Unread as fault:
                self.unread.append(f"{self.path.name}:{self.text.count(chr(10), 0, start) + 1}: {fault}")

    def read_line(self, tokens: list[Token], start: int, end: int) -> None:
        """Reads a signature or a clause."""
        rest = [it for it in tokens if it.text not in ("abbrev", "unfoldable", "pub")]
        self.words.setdefault(rest[0].text, set()).update(it.text for it in rest)
        is_signature = len(rest) < len(tokens) or rest[0].text not in self.definitions
        if is_signature:
            colon = next((at for at, it in enumerate(rest) if it.text == ":"), None)
            if colon is None:
                raise Unread("no colon")
            self.definitions[rest[0].text] = Definition(rest[0].text, rest[colon + 1:], [], start, end)
            return
        definition = self.definitions[rest[0].text]
        equals = next((at for at, it in enumerate(rest) if it.text == "="), None)
        if equals is None:
            raise Unread("no sign of equality")
        definition.clauses.append(Clause(patterns_of(rest[1:equals]), whole_term(rest[equals + 1:]), start, end))
        definition.end = end

    def read_record(self, tokens: list[Token]) -> None:
        """Reads a kind of records."""
        words = [it.text for it in tokens]
        at = words.index("record") + 1
        where = words.index("where") if "where" in words else len(words)
        fields: list[tuple[str, list[Token]]] = []
        at_field = where + 1
        while at_field < len(tokens):
            at_field += words[at_field] == "pub"
            name = words[at_field]
            stop = next((i for i in range(at_field + 2, len(words)) if self.begins_field(tokens, i)), len(words))
            fields.append((name, tokens[at_field + 2:stop]))
            at_field = stop
        self.records[words[at]] = Record(words[at], fields, "(" in words[at:where] and words[at].startswith(("Is", "Has", "Are")))

    def begins_field(self, tokens: list[Token], at: int) -> bool:
        """Does a field of a record begin at this token: `pub`, the first of its line?"""
        return tokens[at].text == "pub" and self.text[:tokens[at].start].rsplit("\n", 1)[-1].isspace()

    def read_data(self, text: str) -> None:
        """Reads the constructors of a kind."""
        for name, kind in re.findall(r"^  (?:pub )?(\w+) : (.*(?:\n      .*)*)", text, re.MULTILINE):
            self.constructors[name] = len(type_parts(tokens_of(kind))) - 1
