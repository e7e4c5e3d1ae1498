"""Changes of a definition, one place at a time: what `wrong/search` tries."""
from collections.abc import Iterator
from typing import NamedTuple

from antt import Clause, Definition, Term, spelled, type_parts
from computed import NATIVE, Compiler, House, says_fact

# Words of the library and operators, with what takes their place.
WORDS = {"nat_lt": "nat_le", "nat_le": "nat_lt", "list_any": "list_all", "list_all": "list_any", "take": "drop", "drop": "take",
         "bit_and": "bit_or", "bit_or": "bit_and", "bit_xor": "bit_or", "min": "max", "max": "min", "is_some": "is_none", "is_none": "is_some",
         "before_first": "after_first", "after_first": "before_first", "prefix_len": "suffix_len", "suffix_len": "prefix_len",
         "true": "false", "false": "true", "is_ok": "is_err", "is_err": "is_ok"}
OPERATORS = {"+": "-", "-": "+", "*": "+", "/": "%", "%": "/", "^": "*", "&&": "||", "||": "&&", "+ℤ": "-ℤ", "-ℤ": "+ℤ", "*ℤ": "+ℤ"}
NATIVE_TYPES = {"nat_lt": ["ℕ", "ℕ"], "nat_le": ["ℕ", "ℕ"], "slice_range": ["List X", "ℕ", "ℕ"], "int_div_euclid": ["ℤ", "ℤ"],
                "int_rem_euclid": ["ℤ", "ℤ"]}
RESULTS = {"+": "ℕ", "-": "ℕ", "*": "ℕ", "/": "ℕ", "%": "ℕ", "^": "ℕ", "==": "Bool", "&&": "Bool", "||": "Bool"}


class Change(NamedTuple):
    """A change of a text: its kind, the clause in which it is, from where to where, and what stands there then."""
    kind: str
    clause: int
    start: int
    end: int
    new: str


class Types:
    """What is known of the types of a file's terms, without what is quantified over."""

    def __init__(self, house: House, module: str, records: dict[str, list[dict[str, str]]]) -> None:
        self.house = house
        self.compiler = Compiler(house, module)
        self.records = records

    def of_definition(self, home: str, name: str) -> list[str]:
        """The types of a definition's arguments, and of its result behind them."""
        file = self.house.file(home)
        return type_parts(file.definitions[name].type) if file else []

    def of_field(self, kind: str, field: str) -> str | None:
        """The type of a record's field."""
        found = {it[field] for it in self.records.get(kind, []) if field in it}
        return found.pop() if len(found) == 1 else None

    def variant_parts(self, home: str, name: str) -> list[str]:
        """The types of a variant's parts."""
        crate, _, kind = home.partition(".")
        return self.house.code_of(crate).variants.get(kind, {}).get(name, []) if crate.startswith("lvdc_") else []

    def bind(self, pattern: Term, kind: str | None, local: dict[str, str | None]) -> None:
        """What a pattern binds its names to."""
        if pattern.kind == "brackets":
            self.bind(pattern.parts[0], kind, local)
        elif pattern.kind == "infix":
            item = kind.removeprefix("List ").strip("()") if kind and kind.startswith("List ") else None
            self.bind(pattern.parts[0], item, local)
            self.bind(pattern.parts[1], kind, local)
        elif pattern.kind == "tuple":
            for part in pattern.parts:
                self.bind(part, None, local)
        elif pattern.kind == "name" and self.compiler.entity(pattern.word) is None or pattern.kind == "name" and self.is_local(pattern.word):
            local[pattern.word] = kind
        elif pattern.kind == "apply":
            for part, it in zip(pattern.parts[1:], self.parts_in(pattern.parts[0].word, kind, len(pattern.parts) - 1)):
                self.bind(part, it, local)

    def is_local(self, word: str) -> bool:
        """Is a word in a pattern a new name? Those of definitions may be covered."""
        entity = self.compiler.entity(word)
        return entity is not None and entity.kind in ("definition", "record", "constant")

    def parts_in(self, word: str, kind: str | None, count: int) -> list[str | None]:
        """The types of the parts of a pattern's variant."""
        if word == "suc":
            return ["ℕ"]
        if word == "Some":
            return [kind.removeprefix("Option ").strip("()") if kind and kind.startswith("Option ") else None]
        entity = self.compiler.entity(word)
        known = self.variant_parts(entity.home, entity.name) if entity and entity.kind == "variant" else []
        return list(known) if len(known) == count else [None] * count

    def of(self, term: Term, local: dict[str, str | None]) -> str | None:
        """The type of a term, where it is known."""
        if term.kind == "brackets":
            return self.of(term.parts[0], local)
        if term.kind == "number":
            return "ℕ"
        if term.kind == "infix":
            return RESULTS.get(term.word)
        if term.kind == "field":
            inner = self.of(term.parts[0], local)
            return self.of_field(inner, term.word) if inner else None
        if term.kind in ("name", "apply"):
            parts = term.parts if term.kind == "apply" else [term]
            return self.of_call(parts[0].word, len(parts) - 1, local) if parts[0].kind == "name" else None
        return None

    def of_call(self, word: str, count: int, local: dict[str, str | None]) -> str | None:
        """The type of a name that is applied to so many arguments."""
        name, fields = self.compiler.split_name(word, set(local))
        kind: str | None
        if name in local:
            kind = local[name]
        else:
            entity = self.compiler.entity(name)
            if entity is None or entity.kind != "definition":
                return "Bool" if name in ("true", "false") else "ℕ" if entity and entity.kind == "constant" else None
            parts = self.of_definition(entity.home, entity.name)
            kind = parts[-1] if len(parts) == (0 if fields else count) + 1 else None
        for field in fields:
            kind = self.of_field(kind, field) if kind else None
        return kind


def records_of(house: House) -> dict[str, list[dict[str, str]]]:
    """The fields of all kinds of records, by name."""
    found: dict[str, list[dict[str, str]]] = {}
    for path in sorted((house.top / "crates").glob("*/specs/**/*.antt")):
        file = house.file(".".join(path.relative_to(house.top / "crates").with_suffix("").parts))
        for record in file.records.values() if file else ():
            found.setdefault(record.name, []).append({name: spelled([it.text for it in tokens]) for name, tokens in record.fields})
    for crate in sorted((house.top / "crates").glob("lvdc_*")):
        for name, fields in house.code_of(crate.name).fields.items():
            found.setdefault(name, []).append(fields)
    return found


class Changer:
    """All changes of the definitions of a file."""

    def __init__(self, house: House, module: str, records: dict[str, list[dict[str, str]]]) -> None:
        self.house = house
        self.types = Types(house, module, records)
        file = house.file(module)
        if file is None:
            raise ValueError(module)
        self.file = file
        self.module = module
        self.at = 0

    def change(self, kind: str, start: int, end: int, new: str) -> Change:
        """A change in the clause that is gone through."""
        return Change(kind, self.at, start, end, new)

    def text(self, term: Term) -> str:
        """A term as it stands."""
        return self.file.text[term.start:term.end]

    def bracketed(self, term: Term) -> str:
        """A term with brackets, where it needs them beside an operator."""
        return f"({self.text(term)})" if term.kind in ("infix", "if", "let", "function") else self.text(term)

    def changes(self, definition: Definition) -> Iterator[Change]:
        """Each change of a definition."""
        kinds = type_parts(definition.type)
        for at, clause in enumerate(definition.clauses):
            self.at = at
            local: dict[str, str | None] = {}
            for pattern, kind in zip(clause.patterns, kinds):
                self.types.bind(pattern, kind, local)
            yield from self.of_clause(definition, at, clause, local)
            yield from self.of_term(clause.body, local)

    def of_clause(self, definition: Definition, at: int, clause: Clause, local: dict[str, str | None]) -> Iterator[Change]:
        """The clause is dropped, where a later one fits; it says what the next one says."""
        later = definition.clauses[at + 1:]
        if any(all(map(covers, it.patterns, clause.patterns)) for it in later):
            end = clause.end + 1 if self.file.text[clause.end:clause.end + 1] == "\n" else clause.end
            yield self.change("a case dropped", clause.start, end, "")
        for other in later[:1]:
            words = {it.word.split(".")[0] for it in other.body.walk() if it.kind == "name"}
            bound = {it.word for pattern in other.patterns for it in pattern.walk() if it.kind == "name"}
            if words & bound <= set(local) | {"[]", "zero", "true", "false"} and self.text(other.body) != self.text(clause.body):
                yield self.change("the next case's answer", clause.body.start, clause.body.end, self.text(other.body))

    def of_term(self, term: Term, local: dict[str, str | None]) -> Iterator[Change]:
        """Each change of a term."""
        yield from getattr(self, f"of_{term.kind}", self.of_nothing)(term, local)
        inner = local | dict.fromkeys(term.names) if term.kind in ("function", "let") else local
        for at, part in enumerate(term.parts):
            yield from self.of_term(part, local if term.kind == "let" and at == 0 else inner)

    def of_nothing(self, _term: Term, _local: dict[str, str | None]) -> Iterator[Change]:
        yield from ()

    def of_number(self, term: Term, _local: dict[str, str | None]) -> Iterator[Change]:
        it = int(term.word.replace("_", ""), 0) if not term.word.isdigit() else int(term.word)
        yield self.change("a number", term.start, term.end, str(it + 1))
        if it:
            yield self.change("a number", term.start, term.end, str(it - 1))

    def of_text(self, term: Term, _local: dict[str, str | None]) -> Iterator[Change]:
        inner = term.word[1:-1]
        if inner:
            begin = 2 if inner[0] == "\\" else 1
            last = 2 if inner[-2:-1] == "\\" else 1
            yield self.change("a text", term.start, term.end, f'"{"Z" if inner[0] != "Z" else "Y"}{inner[begin:]}"')
            yield self.change("a text", term.start, term.end, f'"{inner[:-last]}"')

    def of_name(self, term: Term, local: dict[str, str | None]) -> Iterator[Change]:
        name, fields = self.types.compiler.split_name(term.word, set(local))
        if fields:
            yield from self.of_last_field(term.word.rsplit(".", 1)[0], fields[-1], term.end, local)
        elif name in local:
            kind = local[name]
            others = [it for it, other in local.items() if other == kind is not None and it != name]
            later = [it for it in others if list(local).index(it) > list(local).index(name)] or others
            if later:
                yield self.change("a name", term.start, term.end, later[0])
        elif name in WORDS and name in NATIVE:
            yield self.change("a word", term.start, term.end, WORDS[name])
        else:
            yield from self.of_global(term, name)

    def of_last_field(self, rest: str, field: str, end: int, local: dict[str, str | None]) -> Iterator[Change]:
        """A field of the same type is taken in place of one."""
        kind = self.types.of_call(rest, 0, local)
        yield from self.other_fields(kind, field, end)

    def other_fields(self, kind: str | None, field: str, end: int) -> Iterator[Change]:
        """The next field of a record with the same type."""
        fields: dict[str, str] = next((it for it in self.types.records.get(kind or "", []) if field in it), {})
        alike = [it for it, other in fields.items() if other == fields[field]]
        if len(alike) > 1:
            yield self.change("a field", end - len(field), end, alike[(alike.index(field) + 1) % len(alike)])

    def of_field(self, term: Term, local: dict[str, str | None]) -> Iterator[Change]:
        yield from self.other_fields(self.types.of(term.parts[0], local), term.word, term.end)

    def of_global(self, term: Term, name: str) -> Iterator[Change]:
        """Another variant or definition of the same type; another constant."""
        entity = self.types.compiler.entity(name)
        if entity is None:
            return
        if entity.kind == "constant":
            yield self.change("a number", term.start, term.end, f"({name} + 1)")
            yield self.change("a number", term.start, term.end, f"({name} - 1)")
        elif entity.kind == "variant":
            crate, _, kind = entity.home.partition(".")
            variants = self.house.code_of(crate).variants.get(kind, {}) if crate.startswith("lvdc_") else {}
            scope = {it.name: word for word, it in self.types.compiler.scope.items() if it.kind == "variant" and it.home == entity.home}
            alike = [it for it, parts in variants.items() if parts == variants.get(entity.name) and it in scope]
            if len(alike) > 1:
                yield self.change("a variant", term.start, term.end, scope[alike[(alike.index(entity.name) + 1) % len(alike)]])
        elif entity.kind == "definition":
            yield from self.of_sibling(term, entity.home, entity.name)

    def of_sibling(self, term: Term, home: str, name: str) -> Iterator[Change]:
        """The next definition of the same file with the same type, where it is in scope."""
        file = self.house.file(home)
        if file is None:
            return
        kind = type_parts(file.definitions[name].type)
        scope = {it.name: word for word, it in self.types.compiler.scope.items() if it.kind == "definition" and it.home == home}
        alike = [it for it, other in file.definitions.items() if it in scope and other.clauses and type_parts(other.type) == kind]
        alike = [it for it in alike if not says_fact(file.definitions[it])]
        if name in alike and len(alike) > 1:
            yield self.change("a definition", term.start, term.end, scope[alike[(alike.index(name) + 1) % len(alike)]])

    def of_apply(self, term: Term, local: dict[str, str | None]) -> Iterator[Change]:
        head = term.parts[0]
        if head.kind != "name":
            return
        if head.word == "not":
            yield self.change("not", term.start, term.end, self.text(term.parts[1]))
        if head.word == "Some" and "None" in self.types.compiler.scope:
            yield self.change("Some", term.start, term.end, "None")
        entity = self.types.compiler.entity(head.word) if head.word not in local else None
        kinds: list[str] = NATIVE_TYPES.get(head.word, [])
        if entity and entity.kind == "definition":
            kinds = self.types.of_definition(entity.home, entity.name)[:-1]
        elif entity and entity.kind == "variant":
            kinds = self.types.variant_parts(entity.home, entity.name)
        for at in range(1, min(len(term.parts), len(kinds) + 1) - 1):
            one, other = term.parts[at:at + 2]
            if kinds[at - 1] == kinds[at] and self.text(one) != self.text(other):
                yield self.exchanged("two arguments", one, other)

    def exchanged(self, kind: str, one: Term, other: Term) -> Change:
        """Two terms, each in place of the other."""
        between = self.file.text[one.end:other.start]
        return self.change(kind, one.start, other.end, f"{self.bracketed(other)}{between}{self.bracketed(one)}")

    def of_infix(self, term: Term, _local: dict[str, str | None]) -> Iterator[Change]:
        left, right = term.parts
        if term.word in OPERATORS:
            new = f"{self.bracketed(left)} {OPERATORS[term.word]} {self.bracketed(right)}"
            yield self.change("an operator", term.start, term.end, f"({new})")
        if term.word == "==":
            yield self.change("a test", term.start, term.end, f"(not ({self.text(term)}))")
        if term.word in ("-", "/", "%", "^") and self.text(left) != self.text(right):
            yield self.change("two sides", term.start, term.end, f"({self.bracketed(right)} {term.word} {self.bracketed(left)})")
        if term.word in ("&&", "||", "++", "+", "*"):
            yield self.change("a part dropped", term.start, term.end, self.bracketed(left))
            yield self.change("a part dropped", term.start, term.end, self.bracketed(right))
        if term.word == "++":
            first = right.parts[0] if right.kind == "infix" and right.word == "++" else right
            if self.text(left) != self.text(first):
                yield self.exchanged("two parts", left, first)
        if term.word == "∷":
            yield self.change("an item dropped", term.start, term.end, self.bracketed(right))
            if right.kind == "infix" and right.word == "∷" and self.text(left) != self.text(right.parts[0]):
                yield self.exchanged("two items", left, right.parts[0])

    def of_if(self, term: Term, _local: dict[str, str | None]) -> Iterator[Change]:
        yield self.change("always", term.start, term.end, f"({self.text(term.parts[1])})")
        yield self.change("never", term.start, term.end, f"({self.text(term.parts[2])})")

    def of_record(self, term: Term, local: dict[str, str | None]) -> Iterator[Change]:
        values = term.parts[len(term.parts) - len(term.names):]
        for one, other in zip(values, values[1:]):
            kind = self.types.of(one, local)
            if kind is not None and kind == self.types.of(other, local) and self.text(one) != self.text(other):
                yield self.exchanged("two fields", one, other)
        if len(term.parts) > len(term.names):
            for name, value in zip(term.names, values):
                kept = [f"{it} = {self.text(other)}" for it, other in zip(term.names, values) if it != name]
                base = self.text(term.parts[0])
                yield self.change("a field kept", term.start, term.end, f"(record {base} {{ {'; '.join(kept)} }})" if kept else base)


def covers(general: Term, special: Term) -> bool:
    """Does a pattern fit whatever another one fits?"""
    if general.kind == "hole" or general.kind == "name" and general.word[0].islower() and "." not in general.word \
            and general.word not in ("zero", "true", "false", "tt"):
        return True
    if general.kind == "brackets" or special.kind == "brackets":
        strip = [it.parts[0] if it.kind == "brackets" else it for it in (general, special)]
        return covers(strip[0], strip[1])
    return (general.kind, general.word, len(general.parts)) == (special.kind, special.word, len(special.parts)) and all(
        map(covers, general.parts, special.parts)) and bool(general.word or general.parts)
