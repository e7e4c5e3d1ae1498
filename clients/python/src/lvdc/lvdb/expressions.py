"""What is typed behind `print`: words of memory by names and addresses, registers, numbers, and what comes of them modulo 2^26."""
import re
from collections.abc import Callable
from dataclasses import dataclass

from lvdc.lvdb.errors import CommandError
from lvdc.limits import MOST_CHARACTERS
from lvdc.lvdb.program import Program
from lvdc.lvdb.states import A, DATA, PLACE, PQ, SAVER
from lvdc.values import Address, Word

REGISTERS = {"A": A, "PQ": PQ, "SAVER": SAVER, "PLACE": PLACE, "DATA": DATA}
FORMS = ("a name, name+3, an address as 0,01,002, a register as $A, an octal number, =D-7, or these with + - * & | ^ ~, compared by "
         "== != < <= > >=, and parentheses")
_MOST_DEEP = 32
_TOKEN = re.compile(r"\s*(?:(=[OD][+-]?[0-9]{1,12})(?![0-9])|\$([A-Z]+)|([0-7]+(?:,[0-7]+)+)|([A-Z][A-Z0-9]*(?:\+[0-9]+)?)|([0-7]+)(?![0-9,])"
                    r"|([=!<>]=|[-+*&|^~()<>]))")
_KINDS = ["literal", "register", "address", "name", "number", "sign"]
# the signs of two sides, those that bind least first
_LEVELS: list[list[str]] = [["|"], ["^"], ["&"], ["==", "!=", "<", "<=", ">", ">="], ["+", "-"], ["*"]]
_MODULUS = 1 << Word.BITS

Token = tuple[str, str]
Value = int | None


@dataclass(frozen=True, slots=True)
class Words:
    """Where the words of an expression come from: each is asked when it is needed."""

    program: Program
    word: Callable[[Address], Word | None]
    latch: Callable[[tuple[int, int]], Word]


def evaluate(text: str, words: Words) -> Word | None:
    """The word that an expression comes to; None where a word in it can't be recovered."""
    tokens = _tokens(text)
    _refuse_two_readings(tokens, words.program)
    reader = _Reader(tokens, words)
    value = reader.binary(0)
    if reader.peek() != ("", ""):
        raise _refusal(text)
    return None if value is None else Word(value % _MODULUS)


def addresses_in(text: str, program: Program) -> list[Address]:
    """The words of memory that an expression names, so that they can be asked at once."""
    return [program.find_address([it]) for kind, it in _tokens(text) if kind == "address" or kind == "name" and it.partition("+")[0] in program.names]


def _refusal(text: str) -> CommandError:
    """What is wrong with an expression."""
    return CommandError(f"{text.strip()!r} is no expression: it is {FORMS}" if text.strip() else f"an expression is missing: {FORMS}")


def _tokens(text: str) -> list[Token]:
    """The parts of an expression."""
    if len(text) > MOST_CHARACTERS:
        raise CommandError(f"an expression has at most {MOST_CHARACTERS} characters")
    found: list[Token] = []
    at = 0
    while text[at:].strip():
        part = _TOKEN.match(text, at)
        if part is None:
            raise _refusal(text)
        found.append(next((kind, it) for kind, it in zip(_KINDS, part.groups()) if it is not None))
        at = part.end()
    return found


def _refuse_two_readings(tokens: list[Token], program: Program) -> None:
    """`NAME + 1` might be the word one location behind NAME, or the word at NAME and 1 more: which, has to be said."""
    for (kind, name), sign, number in zip(tokens, tokens[1:], tokens[2:]):
        if kind == "name" and name in program.names and sign == ("sign", "+") and number[0] == "number":
            raise CommandError(f"{name} + {number[1]} has two readings: {name}+{int(number[1], 8)} is the word so many locations behind {name}, "
                               f"({name}) + {number[1]} the word at {name} and {number[1]} more")


class _Reader:
    """Reads an expression by the levels of its signs; those of one level go from left to right."""

    def __init__(self, tokens: list[Token], words: Words) -> None:
        self._tokens, self._words = tokens, words
        self._next = self._depth = 0

    def peek(self) -> Token:
        """The next part."""
        return self._tokens[self._next] if self._next < len(self._tokens) else ("", "")

    def take(self) -> Token:
        """The next part, which is taken."""
        found = self.peek()
        self._next += 1
        return found

    def binary(self, level: int) -> Value:
        """A chain of parts with signs of a level or a higher one."""
        if level == len(_LEVELS):
            return self.unary()
        value = self.binary(level + 1)
        while self.peek()[0] == "sign" and self.peek()[1] in _LEVELS[level]:
            sign = self.take()[1]
            value = _combined(sign, value, self.binary(level + 1))
        return value

    def unary(self) -> Value:
        """A part with the signs before it."""
        signs = []
        while self.peek() in (("sign", "-"), ("sign", "~")):
            signs.append(self.take()[1])
        value = self.part()
        for sign in reversed(signs):
            value = None if value is None else -value if sign == "-" else ~value % _MODULUS
        return value

    def part(self) -> Value:
        """A part without a sign before it, or an expression in parentheses."""
        kind, text = self.take()
        if kind != "sign":
            return self.atom(kind, text)
        if text != "(":
            raise CommandError(f"{text!r} has nothing before it: an expression is {FORMS}")
        self._depth += 1
        if self._depth > _MOST_DEEP:
            raise CommandError(f"an expression has at most {_MOST_DEEP} parentheses within each other")
        value = self.binary(0)
        if self.take() != ("sign", ")"):
            raise CommandError("a closing parenthesis is missing")
        self._depth -= 1
        return value

    def atom(self, kind: str, text: str) -> Value:
        """A number, a register or a word."""
        match kind:
            case "number":
                return _in_range(text, int(text, 8), 0)
            case "literal" if text[1] == "D":
                return _in_range(text, int(text[2:]), -_MODULUS // 2)
            case "literal" if re.fullmatch("[0-7]+", text[2:]):
                return _in_range(text, int(text[2:], 8), 0)
            case "register" if text in REGISTERS:
                return self._words.latch(REGISTERS[text])
            case "register":
                raise CommandError(f"${text} is no register: there are {', '.join('$' + it for it in REGISTERS)}")
            case "address":
                return self._words.word(self._words.program.find_address([text]))
            case "name" if text in REGISTERS and text not in self._words.program.names:
                return self._words.latch(REGISTERS[text])
            case "name":
                return self._words.word(self._words.program.find_address([text]))
        raise CommandError(f"a part is missing: an expression is {FORMS}")


def _in_range(text: str, value: int, least: int) -> int:
    """A number that is a word."""
    if least <= value < (_MODULUS if least == 0 else -least):
        return value
    raise CommandError(f"{text} is no word: a word has 26 bits")


def _combined(sign: str, left: Value, right: Value) -> Value:
    """What two words come to; a comparison, which is one of signed numbers, to 1 or 0."""
    if left is None or right is None:
        return None
    match sign:
        case "+":
            return left + right
        case "-":
            return left - right
        case "*":
            return left * right
        case "|" | "^" | "&":
            left, right = left % _MODULUS, right % _MODULUS
            return left | right if sign == "|" else left ^ right if sign == "^" else left & right
    one, other = (Word(it % _MODULUS).signed for it in (left, right))
    return int({"==": one == other, "!=": one != other, "<": one < other, "<=": one <= other, ">": one > other, ">=": one >= other}[sign])


def in_all_forms(word: Word | None) -> str:
    """A word in octal, as a signed number and as a fraction."""
    return "? (it can't be recovered)" if word is None else f"{word}  {word.signed}  {fraction(word)}"


def fraction(word: Word) -> str:
    """A word as a fraction of 1: its signed value divided by 2^25."""
    return f"{word.signed / (1 << 25):.8f}"
