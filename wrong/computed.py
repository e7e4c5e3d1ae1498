"""Computes definitions: each is made a function of Python, and a worked row is computed by them, as the checker does it by its own means.

A number is one of Python, a list a tuple, a variant a tuple that begins with its name, a record a dictionary, a function one of one
argument. What isn't known here (a quantified fact, a lemma) isn't computed, and a row that needs it is left out and counted."""
import pathlib
import re
from collections.abc import Callable
from typing import Any, NamedTuple

from antt import Clause, Definition, File, Term, Unread, type_parts, whole_term
from code_types import CodeTypes, code_types_of
from edits import TOP

Value = Any


class Uncomputed(Exception):
    """Why something isn't computed here."""


class NoCase(Exception):
    """No line of a definition fits its arguments."""


class Endless(Exception):
    """A number or a list is too large to be meant."""


class Entity(NamedTuple):
    """What a name stands for: its kind (definition, variant, native, constant, record), its name, the place where it is at home, and how
    many arguments it takes."""
    kind: str
    name: str
    home: str
    arity: int


def power(base: int, exponent: int) -> int:
    """The power, where somebody can mean it."""
    if exponent > 4096:
        raise Endless
    return int(base ** exponent)


def few(count: int) -> int:
    """A length, where somebody can mean it."""
    if count > 4_000_000:
        raise Endless
    return count


def prefix(test: Callable[[Value], bool], items: tuple[Value, ...]) -> int:
    """How many items from the first on pass."""
    return next((at for at, it in enumerate(items) if not test(it)), len(items))


def split(test: Callable[[Value], bool], items: tuple[Value, ...]) -> tuple[Value, ...]:
    """The parts between the items that pass."""
    parts: list[list[Value]] = [[]]
    for it in items:
        if test(it):
            parts.append([])
        else:
            parts[-1].append(it)
    return tuple(map(tuple, parts))


def digits(base: int, upper: bool, n: int) -> tuple[int, ...]:
    """The digits of a number."""
    found: tuple[int, ...] = ()
    while True:
        found = (ord(("0123456789ABCDEF" if upper else "0123456789abcdef")[n % base]), *found)
        n //= base
        if not n:
            return found


def found_in(test: Callable[[Value], bool], items: tuple[Value, ...]) -> Value:
    """The first item that passes."""
    return next((("Some", it) for it in items if test(it)), ("None",))


def put_at(items: tuple[Value, ...], at: int, it: Value) -> tuple[Value, ...]:
    """The list with this item at a place."""
    return (*items[:at], it, *items[at + 1:]) if at < len(items) else items


def folded(step: Callable[[Value], Callable[[Value], Value]], first: Value, items: tuple[Value, ...]) -> Value:
    """Item after item."""
    for it in items:
        first = step(first)(it)
    return first


def lines_of_parts(parts: tuple[Value, ...]) -> tuple[Value, ...]:
    """The parts without the CR at their ends, and the last one where it isn't empty."""
    return tuple([it[:-1] if it[-1:] == (13,) else it for it in parts[:-1]]) + parts[-1:] * bool(parts and parts[-1])


def or_none(found: int, items: tuple[Value, ...]) -> Value:
    """A place in a list, if it is one."""
    return ("Some", found) if found < len(items) else ("None",)


# The words of the library that definitions use, each with how many arguments it takes.
NATIVE: dict[str, tuple[int, Callable[..., Value]]] = {
    "suc": (1, lambda n: n + 1), "pos": (1, lambda n: n), "negsuc": (1, lambda n: -n - 1), "neg_ℤ": (1, lambda z: -z),
    "unsigned_abs": (1, abs), "int_div_euclid": (2, lambda a, b: (a // b if b > 0 else -(a // -b)) if b else 0),
    "int_rem_euclid": (2, lambda a, b: a % abs(b) if b else a), "is_negative": (1, lambda z: z < 0),
    "not": (1, lambda b: not b), "nat_lt": (2, lambda a, b: a < b), "nat_le": (2, lambda a, b: a <= b), "nat_eq": (2, lambda a, b: a == b),
    "min": (2, min), "max": (2, max), "bit_and": (2, lambda a, b: a & b), "bit_or": (2, lambda a, b: a | b), "bit_xor": (2, lambda a, b: a ^ b),
    "bit_at": (2, lambda n, i: n // power(2, i) % 2),
    "length": (1, len), "map": (2, lambda f, xs: tuple([f(x) for x in xs])), "filter": (2, lambda p, xs: tuple([x for x in xs if p(x)])),
    "take": (2, lambda n, xs: xs[:n]), "drop": (2, lambda n, xs: xs[n:]), "replicate": (2, lambda n, x: (x,) * few(n)),
    "reverse": (1, lambda xs: xs[::-1]), "slice_index": (2, lambda xs, i: xs[i] if i < len(xs) else 0),
    "slice_index_or": (3, lambda xs, i, d: xs[i] if i < len(xs) else d),
    "slice_get": (2, lambda xs, i: ("Some", xs[i]) if i < len(xs) else ("None",)), "slice_set": (3, put_at),
    "slice_range": (3, lambda xs, a, b: xs[a:max(a, b)]), "slice_split": (2, split), "fold": (3, folded),
    "list_any": (2, lambda p, xs: any(p(x) for x in xs)), "list_all": (2, lambda p, xs: all(p(x) for x in xs)), "find": (2, found_in),
    "position": (2, lambda p, xs: or_none(prefix(lambda x: not p(x), xs), xs)),
    "before_first": (2, lambda p, xs: xs[:prefix(lambda x: not p(x), xs)]),
    "after_first": (2, lambda p, xs: xs[prefix(lambda x: not p(x), xs) + 1:]),
    "prefix_len": (2, prefix), "suffix_len": (2, lambda p, xs: prefix(p, xs[::-1])), "count_by": (2, lambda p, xs: sum(map(bool, map(p, xs)))),
    "range_with_len": (2, lambda a, n: tuple(range(a, a + few(n)))), "flat_map": (2, lambda f, xs: sum((f(x) for x in xs), ())),
    "filter_map": (2, lambda f, xs: tuple([y[1] for y in map(f, xs) if y[0] == "Some"])), "concat": (1, lambda xs: sum(xs, ())),
    "zip": (2, lambda xs, ys: tuple([("×", x, y) for x, y in zip(xs, ys)])), "sum": (1, sum),
    "lookup": (2, lambda p, es: next((("Some", e[2]) for e in es if p(e[1])), ("None",))), "values_of": (1, lambda es: tuple([e[2] for e in es])),
    "cons_option": (2, lambda o, xs: (o[1], *xs) if o[0] == "Some" else xs), "option_to_list": (1, lambda o: o[1:]),
    "is_some": (1, lambda o: o[0] == "Some"), "is_none": (1, lambda o: o[0] == "None"), "is_ok": (1, lambda r: r[0] == "Ok"),
    "is_err": (1, lambda r: r[0] == "Err"), "unwrap_or": (2, lambda o, d: o[1] if o[0] == "Some" else d),
    "option_map": (2, lambda f, o: ("Some", f(o[1])) if o[0] == "Some" else o),
    "option_and_then": (2, lambda f, o: f(o[1]) if o[0] == "Some" else o),
    "bytes_eq": (2, lambda a, b: a == b), "decimal": (1, lambda n: digits(10, False, n)), "digits": (3, digits),
    "strip_carriage_return": (1, lambda xs: xs[:-1] if xs[-1:] == (13,) else xs),
    "lines_of_parts": (1, lines_of_parts),
    "string_bytes": (1, lambda s: s), "codes": (1, lambda s: s), "vec_len": (1, len), "tt": (0, lambda: ("tt",)),
    "true": (0, lambda: True), "false": (0, lambda: False),
    "zero": (0, lambda: 0), "[]": (0, tuple),
}
INFIX = {"+": "({0} + {1})", "*": "({0} * {1})", "-": "max(0, {0} - {1})", "/": "quotient({0}, {1})", "%": "remainder({0}, {1})",
         "^": "power({0}, {1})", "==": "({0} == {1})", "&&": "({0} and {1})", "||": "({0} or {1})", "++": "({0} + {1})",
         "∷": "(({0},) + {1})", "+ℤ": "({0} + {1})", "-ℤ": "({0} - {1})", "*ℤ": "({0} * {1})"}
LIBRARY = {"Some": 1, "None": 0, "Ok": 1, "Err": 1, "Interrupted": 0, "TimedOut": 0}
FACTS = {"IsTrue": "({0}) is True", "IsFalse": "({0}) is False", "IsSome": "({0})[0] == 'Some'", "IsNone": "({0})[0] == 'None'",
         "IsOk": "({0})[0] == 'Ok'", "IsErr": "({0})[0] == 'Err'"}
# Facts that say something of what a variant has; of another variant they are true.
CASES = {"IfOk": ("Ok",), "IfErr": ("Err",), "IfSome": ("Some",), "MatchResult": ("Ok", "Err")}
# The crates whose clauses are those of the programs.
PROGRAMS = ("lvdc_cli", "lvdc_console", "lvdc_service")
SAMPLES = tuple({"pair": p, "sector": s, "loc": x} for p in range(8) for s in (0, 1, 2, 3, 4, 15) for x in (*range(10), *range(252, 256)))


def same(one: Value, other: Value) -> bool:
    """Are two values the same? Functions are taken to be memories, and compared at many addresses."""
    if callable(one) and callable(other):
        try:
            return all(one(it) == other(it) for it in SAMPLES)
        except (TypeError, KeyError) as fault:
            raise Uncomputed("functions") from fault
    if isinstance(one, tuple) and isinstance(other, tuple):
        return len(one) == len(other) and all(x is y or same(x, y) for x, y in zip(one, other))
    if isinstance(one, dict) and isinstance(other, dict):
        return one.keys() == other.keys() and all(same(one[it], other[it]) for it in one)
    return bool(one == other)


def curried(call: Callable[..., Value], arity: int) -> Value:
    """A function of so many arguments as one that takes them one after the other."""
    if arity == 0:
        return call()
    if arity == 1:
        return call
    return lambda x: curried(lambda *rest: call(x, *rest), arity - 1)


def identifier(name: str) -> str:
    """A name as one of Python."""
    return re.sub(r"[^A-Za-z0-9_]", lambda it: f"_{ord(it[0]):x}_", name)


def key_of(field: str) -> int | str:
    """The key of a field: a tuple has numbers, behind its mark."""
    return int(field) + 1 if field.isdigit() else field


def bytes_in(text: str) -> str:
    """The bytes of a text that is written with quotation marks, as a tuple of Python."""
    inner = re.sub(r"\\(.)", lambda it: {"n": "\n", "r": "\r", "t": "\t", "0": "\0"}.get(it[1], it[1]), text[1:-1])
    return repr(tuple(ord(it) for it in inner))


class House:
    """All files of definitions and rows, and what their names stand for."""

    def __init__(self, top: pathlib.Path = TOP) -> None:
        self.top = top
        self.files: dict[str, File | None] = {}
        self.scopes: dict[str, dict[str, Entity]] = {}
        self.code: dict[str, CodeTypes] = {}

    def file(self, module: str) -> File | None:
        """The file of a module, as lvdc_map.specs.Hop."""
        if module not in self.files:
            path = self.top / "crates" / (module.replace(".", "/") + ".antt")
            self.files[module] = File(path) if path.is_file() else None
        return self.files[module]

    def code_of(self, crate: str) -> CodeTypes:
        """The types of the code of a crate."""
        if crate not in self.code:
            self.code[crate] = code_types_of(self.top / "crates" / crate)
        return self.code[crate]

    def scope(self, module: str) -> dict[str, Entity]:
        """What the names of a file stand for, those of other modules with the name of the module and a point before them."""
        if module in self.scopes:
            return self.scopes[module]
        found: dict[str, Entity] = {}
        self.scopes[module] = found
        file = self.file(module)
        if file:
            for _, use in file.uses:
                found |= self.used(use)
            found |= self.own(module, file)
        return found

    def own(self, module: str, file: File) -> dict[str, Entity]:
        """What a file itself defines."""
        found = {name: Entity("definition", name, module, len(it.clauses[0].patterns)) for name, it in file.definitions.items() if it.clauses}
        found |= {name: Entity("record", name, module, 0) for name in file.words if name not in file.definitions}
        return found | {name: Entity("variant", name, module, arity) for name, arity in file.constructors.items()}

    def used(self, use: str) -> dict[str, Entity]:
        """What a line of use brings."""
        braces = re.match(r"([\w.]+)\.\{(.*)\}$", use)
        if braces:
            given = self.given(braces[1])
            names = [(it.split(" as ") * 2)[:2] for it in re.split(r", *", braces[2])]
            return {new.strip(): given[old.strip()] for old, new in names if old.strip() in given}
        module, _, name = use.partition(" as ")
        module = module.strip()
        prefix_name = name.strip() or module.rsplit(".", 1)[-1]
        return {f"{prefix_name}.{it}": entity for it, entity in self.given(module).items()}

    def given(self, path: str) -> dict[str, Entity]:
        """What a module gives away."""
        words = path.removeprefix("Rattle.").split(".")
        if not words[0].startswith("lvdc_"):
            found = {name: Entity("native", name, "", arity) for name, (arity, _) in NATIVE.items()}
            return found | {name: Entity("variant", name, "library", arity) for name, arity in LIBRARY.items()}
        if "declared" in words:
            return self.declared(words)
        return {name: it for name, it in self.scope(".".join(words)).items() if "." not in name}

    def declared(self, words: list[str]) -> dict[str, Entity]:
        """What a module of the code's types gives away: variants or constants."""
        code = self.code_of(words[0])
        if words[-1] == "TheConstants":
            return {name: Entity("constant", name, words[0], 0) for name in code.constants}
        if words[-1] == "TheVariants":
            home = f"{words[0]}.{words[-2]}"
            return {name: Entity("variant", name, home, len(parts)) for name, parts in code.variants.get(words[-2], {}).items()}
        return {}

    def standing_on(self, roots: set[tuple[str, str]]) -> set[tuple[str, str]]:
        """The definitions, by module and name, that some definitions and facts stand on, and themselves."""
        found: set[tuple[str, str]] = set()
        due = list(roots)
        while due:
            module, name = due.pop()
            file = self.file(module)
            if (module, name) not in found and file is not None:
                found.add((module, name))
                due += self.named_in(file.words.get(name, set()), self.scope(module))
        return found

    @staticmethod
    def named_in(words: set[str], scope: dict[str, Entity]) -> list[tuple[str, str]]:
        """The definitions and kinds of records that words name, also with a field behind them."""
        prefixes = {".".join(it.split(".")[:count]) for it in words for count in range(1, it.count(".") + 2)}
        entities = [scope[it] for it in prefixes if it in scope]
        return [(it.home, it.name) for it in entities if it.kind in ("definition", "record", "variant") and ".specs" in it.home]

    def promised(self) -> set[tuple[str, str]]:
        """The definitions that the clauses of the programs' calls stand on."""
        roots: list[tuple[str, str]] = []
        for crate in PROGRAMS:
            for path in sorted((self.top / "crates" / crate).glob("src/*.rt")):
                text = path.read_text()
                scope: dict[str, Entity] = {}
                for use in re.findall(r"^ghost use ([^;]*);", text, re.MULTILINE):
                    scope |= self.used(" ".join(use.split()))
                roots += self.named_in(set(re.findall(r"[\w.]+", re.sub(r"^ghost use [^;]*;", "", text, flags=re.MULTILINE))), scope)
        return self.standing_on(set(roots))

    def constant(self, crate: str, name: str) -> int:
        """A constant of the code, or one that it brings from another crate."""
        if name not in self.code_of(crate).constants:
            crates = [it.name for it in sorted((self.top / "crates").glob("lvdc_*")) if name in self.code_of(it.name).constants]
            if len(crates) != 1:
                raise Uncomputed(f"the constant {name}")
            return self.constant(crates[0], name)
        text = self.code_of(crate).constants[name].strip()
        foreign = re.match(r"(lvdc_\w+)::(\w+)$", text)
        if foreign:
            return self.constant(foreign[1], foreign[2])
        text = re.sub(r"(?<=\d)_(?=\d)|(?<=\d)_?(?:u8|u16|u32|u64|usize)\b", "", text)
        if re.search(r"[^\w\s+*<>()-]", text):
            raise Uncomputed(f"the constant {name}")
        names = {it: self.constant(crate, it) for it in re.findall(r"\b[A-Z][A-Z_0-9]+\b", text)}
        return int(eval(text, {"__builtins__": {}}, names))


class Compiler:
    """Makes the text of a function of Python of a definition."""

    def __init__(self, house: House, module: str) -> None:
        self.house = house
        self.module = module
        self.scope = house.scope(module)
        self.needs: set[tuple[str, str]] = set()
        self.own: tuple[str, int] | None = None

    # ---- names

    def entity(self, name: str) -> Entity | None:
        """What a name stands for that is no local one."""
        if name in self.scope:
            return self.scope[name]
        if name in ("tt", "true", "false", "zero", "suc", "[]"):
            return Entity("native", name, "", NATIVE[name][0])
        return None

    def split_name(self, name: str, local: set[str]) -> tuple[str, list[str]]:
        """A name and the fields that are taken of it."""
        words = name.split(".")
        if words[0] in local or name in self.scope or len(words) == 1:
            return (words[0], words[1:]) if words[0] in local else (name, [])
        for count in range(len(words) - 1, 0, -1):
            if ".".join(words[:count]) in self.scope:
                return ".".join(words[:count]), words[count:]
        return name, []

    def called(self, entity: Entity, args: list[str]) -> str:
        """A call of what a name stands for."""
        if entity.kind == "constant":
            return str(self.house.constant(entity.home, entity.name))
        if entity.kind == "variant":
            make = f"variant_{identifier(entity.name)}_{entity.arity}"
            whole = f"({', '.join([repr(entity.name), *args[:entity.arity]])},)"
        elif entity.kind == "native":
            make = f"native_{identifier(entity.name)}"
            whole = f"{make}({', '.join(args[:entity.arity])})"
        elif entity.kind == "definition":
            self.needs.add((entity.home, entity.name))
            make = f"{identifier(entity.home)}__{identifier(entity.name)}"
            whole = f"{make}({', '.join(args[:entity.arity])})"
        else:
            raise Uncomputed(entity.name)
        if len(args) < entity.arity:
            head = f"curried(lambda *it: {self.unfinished(entity, make)}, {entity.arity})"
            return head + "".join(f"({it})" for it in args)
        return whole + "".join(f"({it})" for it in args[entity.arity:])

    @staticmethod
    def unfinished(entity: Entity, make: str) -> str:
        """What is made where all arguments have come."""
        return f"({entity.name!r}, *it)" if entity.kind == "variant" else f"{make}(*it)"

    # ---- terms

    def value(self, term: Term, local: set[str]) -> str:
        """A term as one of Python."""
        return getattr(self, f"value_of_{term.kind}")(term, local)  # type: ignore[no-any-return]

    def value_of_number(self, term: Term, _local: set[str]) -> str:
        return str(int(term.word.replace("_", ""), 0) if term.word[:1] == "0" and len(term.word) > 1 else int(term.word.replace("_", "")))

    def value_of_text(self, term: Term, _local: set[str]) -> str:
        return bytes_in(term.word)

    def value_of_hole(self, term: Term, _local: set[str]) -> str:
        raise Uncomputed("a hole")

    def value_of_given(self, term: Term, _local: set[str]) -> str:
        raise Uncomputed("a quantified fact")

    def value_of_brackets(self, term: Term, local: set[str]) -> str:
        return self.value(term.parts[0], local)

    def value_of_name(self, term: Term, local: set[str]) -> str:
        return self.value_of_apply(Term("apply", term.start, term.end, "", [term]), local)

    def value_of_apply(self, term: Term, local: set[str]) -> str:
        head = term.parts[0]
        args = [self.value(it, local) for it in term.parts[1:]]
        if head.kind != "name":
            return self.value(head, local) + "".join(f"({it})" for it in args)
        name, fields = self.split_name(head.word, local)
        if name in local or fields:
            entity = None if name in local else self.entity(name)
            begin = f"v_{identifier(name)}" if entity is None else self.called(entity, [])
            return begin + "".join(f"[{key_of(it)!r}]" for it in fields) + "".join(f"({it})" for it in args)
        if name.startswith("◌") and name.strip("◌") in INFIX:
            return f"(lambda x: lambda y: {INFIX[name.strip('◌')].format('x', 'y')})" + "".join(f"({it})" for it in args)
        entity = self.entity(name)
        if entity is None and name in NATIVE:
            # a change may put a word of the library that the file doesn't use
            entity = Entity("native", name, "", NATIVE[name][0])
        if entity is None:
            raise Uncomputed(name)
        return self.called(entity, args)

    def value_of_infix(self, term: Term, local: set[str]) -> str:
        if term.word not in INFIX:
            raise Uncomputed(term.word)
        if term.word == "∷":
            items = []
            while term.kind == "infix" and term.word == "∷":
                items.append(self.value(term.parts[0], local))
                term = term.parts[1]
            return f"(({', '.join(items)},) + {self.value(term, local)})"
        return INFIX[term.word].format(*(self.value(it, local) for it in term.parts))

    def value_of_field(self, term: Term, local: set[str]) -> str:
        return f"{self.value(term.parts[0], local)}[{key_of(term.word)!r}]"

    def value_of_tuple(self, term: Term, local: set[str]) -> str:
        return f"('×', {', '.join(self.value(it, local) for it in term.parts)})"

    def value_of_function(self, term: Term, local: set[str]) -> str:
        heads = "".join(f"lambda v_{identifier(it)}: " for it in term.names)
        return f"({heads}{self.value(term.parts[0], local | set(term.names))})"

    def value_of_let(self, term: Term, local: set[str]) -> str:
        return f"(lambda v_{identifier(term.word)}: {self.value(term.parts[1], local | {term.word})})({self.value(term.parts[0], local)})"

    def value_of_if(self, term: Term, local: set[str]) -> str:
        test, yes, no = (self.value(it, local) for it in term.parts)
        return f"({yes} if {test} else {no})"

    def value_of_record(self, term: Term, local: set[str]) -> str:
        values = term.parts[len(term.parts) - len(term.names):]
        fields = [f"{name!r}: {self.value(it, local)}" for name, it in zip(term.names, values)]
        if len(term.parts) > len(term.names):
            fields.insert(0, f"**{self.value(term.parts[0], local)}")
        return f"{{{', '.join(fields)}}}"

    # ---- facts

    def fact(self, term: Term, local: set[str]) -> str:
        """A fact as a test of Python."""
        if term.kind == "brackets":
            return self.fact(term.parts[0], local)
        if term.kind == "infix":
            joins = {"×": "({0} and {1})", "⊎": "({0} or {1})", "→": "(not {0} or {1})", "↔": "({0} == {1})"}
            compares = {"≡": "same({0}, {1})", "≢": "(not same({0}, {1}))", "<": "({0} < {1})", "≤": "({0} <= {1})"}
            if term.word in joins:
                return joins[term.word].format(*(self.fact(it, local) for it in term.parts))
            if term.word in compares:
                return compares[term.word].format(*(self.value(it, local) for it in term.parts))
        if term.kind in ("name", "apply"):
            return self.fact_of_call(term.parts if term.kind == "apply" else [term], local)
        raise Uncomputed(f"a fact of the kind {term.kind}")

    def fact_of_call(self, parts: list[Term], local: set[str]) -> str:
        """A named fact."""
        word = parts[0].word
        if word in ("Unit", "⊥"):
            return str(word == "Unit")
        if word in FACTS and len(parts) == 2:
            return f"({FACTS[word].format(self.value(parts[1], local))})"
        if word == "All" and len(parts) == 3:
            return f"all(map({self.test(parts[1], local)}, {self.value(parts[2], local)}))"
        if word in CASES and len(parts) == len(CASES[word]) + 2:
            value, tests = self.value(parts[1], local), [self.test(it, local) for it in parts[2:]]
            answers = [f"it[0] == {name!r} and {test}(it[1])" for name, test in zip(CASES[word], tests)]
            others = [f"it[0] not in {CASES[word]!r}"]
            return f"(lambda it: {' or '.join(answers + others)})({value})"
        entity = self.entity(word)
        if entity and entity.kind == "definition" and entity.arity == len(parts) - 1 and self.is_fact(entity):
            return self.called(entity, [self.value(it, local) for it in parts[1:]])
        raise Uncomputed(word)

    def test(self, term: Term, local: set[str]) -> str:
        """What is said of a value, as a function of Python that tests it."""
        inner = term.parts[0] if term.kind == "brackets" else term
        if inner.kind != "function":
            return self.value(inner, local)
        heads = "".join(f"lambda v_{identifier(it)}: " for it in inner.names)
        return f"({heads}{self.fact(inner.parts[0], local | set(inner.names))})"

    def is_fact(self, entity: Entity) -> bool:
        """Is a definition one of a fact?"""
        file = self.house.file(entity.home)
        return file is not None and says_fact(file.definitions[entity.name])

    # ---- patterns

    def fits(self, pattern: Term, value: str, tests: list[str], bound: dict[str, str]) -> None:
        """The tests by which a pattern fits, and what its names are bound to."""
        if pattern.kind == "brackets":
            self.fits(pattern.parts[0], value, tests, bound)
        elif pattern.kind == "hole":
            return
        elif pattern.kind == "infix" and pattern.word == "∷":
            tests.append(value)
            self.fits(pattern.parts[0], f"{value}[0]", tests, bound)
            self.fits(pattern.parts[1], f"{value}[1:]", tests, bound)
        elif pattern.kind == "tuple":
            for at, part in enumerate(pattern.parts):
                self.fits(part, f"{value}[{at + 1}]", tests, bound)
        elif pattern.kind in ("name", "apply"):
            self.fits_head(pattern.parts if pattern.kind == "apply" else [pattern], value, tests, bound)
        else:
            raise Uncomputed(f"a pattern of the kind {pattern.kind}")

    def fits_head(self, parts: list[Term], value: str, tests: list[str], bound: dict[str, str]) -> None:
        """The same of a name, or of a variant with its parts."""
        word = parts[0].word
        simple = {"zero": f"{value} == 0", "true": value, "false": f"not {value}", "[]": f"not {value}", "tt": "True"}
        inner = {"suc": (f"{value} > 0", f"({value} - 1)"), "pos": (f"{value} >= 0", value), "negsuc": (f"{value} < 0", f"(-{value} - 1)")}
        if word in simple:
            tests.append(simple[word])
        elif word in inner:
            tests.append(inner[word][0])
            self.fits(parts[1], inner[word][1], tests, bound)
        elif len(parts) > 1 or word in self.scope and self.scope[word].kind == "variant":
            entity = self.entity(word)
            if entity is None or entity.kind != "variant":
                raise Uncomputed(word)
            tests.append(f"{value}[0] == {entity.name!r}")
            for at, part in enumerate(parts[1:]):
                self.fits(part, f"{value}[{at + 1}]", tests, bound)
        else:
            bound[word] = value

    # ---- definitions

    def function(self, definition: Definition, mark: Callable[[int], str] | None = None) -> str:
        """The text of the function of a definition. Where `mark` is given, it is the text that notes that a clause was come to. What ends
        with a call of itself, behind items of a list too, is a loop: lists of all places of a memory are long."""
        arity = len(definition.clauses[0].patterns)
        names = [f"a{at}" for at in range(arity)]
        key = f"{identifier(self.module)}__{identifier(definition.name)}"
        loops = any(ends_with(it.body, definition.name, arity) for it in definition.clauses) and not any(
            part.kind == "function" for it in definition.clauses for part in it.body.walk())
        self.own = (definition.name, arity) if loops and self.scope[definition.name].home == self.module else None
        lines = [f"def {key}({', '.join(names)}):"] + (["    made = []", "    while True:"] if self.own else [])
        fact = says_fact(definition)
        for at, clause in enumerate(definition.clauses):
            inner = self.clause(clause, names, fact, mark(at) if mark else "")
            lines += [f"    {it}" for it in inner] if self.own else inner
        return "\n".join([*lines, f"{'        ' if self.own else '    '}raise NoCase"])

    def clause(self, clause: Clause, names: list[str], fact: bool, mark: str) -> list[str]:
        """The lines of a clause."""
        tests: list[str] = []
        bound: dict[str, str] = {}
        for pattern, name in zip(clause.patterns, names, strict=True):
            self.fits(pattern, name, tests, bound)
        body = [f"return {self.fact(clause.body, set(bound))}"] if fact else self.ending(clause.body, set(bound), names)
        used = set(re.findall(r"\bv_\w+", "\n".join(body)))
        lines = [f"    if {' and '.join(tests) or 'True'}:"] + ([f"        {mark}"] if mark else [])
        lines += [f"        v_{identifier(name)} = {value}" for name, value in bound.items() if f"v_{identifier(name)}" in used]
        return lines + [f"        {it}" for it in body]

    def ending(self, term: Term, local: set[str], names: list[str]) -> list[str]:
        """The lines by which a body is answered, or gone on with."""
        if self.own is None or not ends_with(term, *self.own):
            whole = self.value(term, local)
            return [f"it = {whole}", "return tuple(made) + it if made else it"] if self.own else [f"return {whole}"]
        if term.kind == "brackets":
            return self.ending(term.parts[0], local, names)
        if term.kind == "if":
            yes, no = (self.ending(it, local, names) for it in term.parts[1:])
            return [f"if {self.value(term.parts[0], local)}:", *(f"    {it}" for it in yes), "else:", *(f"    {it}" for it in no)]
        if term.kind == "infix":
            first = self.value(term.parts[0], local)
            return [f"made += {f'({first},)' if term.word == '∷' else first}", *self.ending(term.parts[1], local, names)]
        return [f"{', '.join(names)}, = {', '.join(self.value(it, local) for it in term.parts[1:])},", "continue"]


def ends_with(term: Term, name: str, arity: int) -> bool:
    """Does a body end with a call of this name, in some case?"""
    if term.kind == "brackets":
        return ends_with(term.parts[0], name, arity)
    if term.kind == "if":
        return any(ends_with(it, name, arity) for it in term.parts[1:])
    if term.kind == "infix" and term.word in ("∷", "++"):
        return ends_with(term.parts[1], name, arity)
    return term.kind == "apply" and term.parts[0].word == name and len(term.parts) == arity + 1


def says_fact(definition: Definition) -> bool:
    """Does a definition say a fact?"""
    words = [it.text for it in definition.type]
    return words[-2:] == ["Type", "0"] or words[-2:] == ["0", ")"]


def quotient(a: int, b: int) -> int:
    """Rounded down."""
    return a // b if b else 0


def remainder(a: int, b: int) -> int:
    """What is left."""
    return a % b if b else a


class Remembered:
    """A function that remembers what it answered to numbers, and to the same trial."""

    def __init__(self, call: Callable[..., Value]) -> None:
        self.call = call
        self.answers: dict[tuple[int, ...], tuple[tuple[Value, ...], Value]] = {}

    def __call__(self, *args: Value) -> Value:
        key = tuple([it if isinstance(it, int) else id(it) for it in args])
        known = self.answers.get(key)
        if known is None:
            if len(self.answers) > 200_000:
                self.answers.clear()
            known = self.answers[key] = (args, self.call(*args))
        return known[1]


class Row(NamedTuple):
    """A worked row."""
    module: str
    name: str
    text: str


class Known(NamedTuple):
    """A row, what it costs, and each clause that it comes to."""
    row: Row
    cost: float
    clauses: frozenset[tuple[str, str, int]]


class Machine:
    """All definitions and rows, made functions of Python."""

    def __init__(self, house: House) -> None:
        self.house = house
        self.seen: set[tuple[str, str, int]] = set()
        self.uncomputed: dict[tuple[str, str], str] = {}
        self.left_out: dict[tuple[str, str], str] = {}
        self.remembered: dict[str, Remembered] = {}
        self.names: dict[str, Value] = {
            "curried": curried, "same": same, "power": power, "quotient": quotient, "remainder": remainder, "NoCase": NoCase, "seen": self.seen}
        for name, (arity, call) in NATIVE.items():
            self.names[f"native_{identifier(name)}"] = call

    def code_for(self, module: str, definition: Definition, marked: bool) -> tuple[str, set[tuple[str, str]]]:
        """The text of a definition's function, and the definitions that it needs."""
        compiler = Compiler(self.house, module)
        mark = (lambda at: f"seen.add({(module, definition.name, at)!r})") if marked else None
        return compiler.function(definition, mark), compiler.needs

    def define(self, module: str, name: str, marked: bool) -> None:
        """Makes the function of a definition, and of those that it needs, unless they are there."""
        due = [(module, name)]
        while due:
            home, it = due.pop()
            key = f"{identifier(home)}__{identifier(it)}"
            file = self.house.file(home)
            if key in self.names or (home, it) in self.uncomputed or file is None:
                continue
            try:
                text, needs = self.code_for(home, file.definitions[it], marked)
                self.names[key] = None
                self.make(home, file.definitions[it], text)
                due += needs
            except (Uncomputed, Unread) as fault:
                self.uncomputed[home, it] = str(fault)

    def make(self, home: str, definition: Definition, text: str) -> None:
        """Makes the function of a definition by its text."""
        key = f"{identifier(home)}__{identifier(definition.name)}"
        exec(compile(text, f"{home}.{definition.name}", "exec"), self.names)
        kinds = type_parts(definition.type)
        if set(kinds[:-1]) <= {"ℕ", "Bool", "Trial", "Opening", "Adversary"} and len(definition.clauses[0].patterns) == len(kinds) - 1:
            self.names[key] = self.remembered[key] = Remembered(self.names[key])

    def forget(self) -> None:
        """Forgets all answers."""
        for it in self.remembered.values():
            it.answers.clear()

    def row(self, module: str, definition: Definition, marked: bool) -> Row | None:
        """A worked row, if this is one that is computed here."""
        if not definition.clauses or definition.clauses[0].patterns:
            return None
        try:
            compiler = Compiler(self.house, module)
            test = compiler.fact(whole_term(definition.type), set())
        except (Uncomputed, Unread) as fault:
            self.left_out[module, definition.name] = str(fault)
            return None
        for home, name in sorted(compiler.needs):
            self.define(home, name, marked)
        return Row(module, definition.name, test)

    def computed(self, row: Row) -> bool:
        """Does a row hold?"""
        return bool(eval(row.text, self.names))


def module_of(path: pathlib.Path, top: pathlib.Path = TOP) -> str:
    """The module of a file."""
    return ".".join(path.relative_to(top / "crates").with_suffix("").parts)
