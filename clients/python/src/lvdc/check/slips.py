"""What a refused line most likely has wrong, in one sentence, and in which field."""
import difflib
import re
from collections.abc import Sequence
from dataclasses import dataclass

from lvdc.parts import CONSTANTS, DIRECTIVES, INSTRUCTIONS, OPERATIONS, WITH_LITERAL, Parts

LABEL, OPERATION, OPERAND = range(3)
_NAME = re.compile("[A-Z][A-Z0-9]{0,7}")
_OCTAL, _DECIMAL = re.compile("[0-7]{1,9}"), re.compile("[+-]?[0-9]{1,9}")
_SUM = re.compile(r"([A-Za-z][A-Za-z0-9]*)([+-])(.*)")
_POINT = re.compile(r"[+-]?[0-9]*\.[0-9]+(B-?[0-9]+)?")
_MOST_BYTES = 120
# refusals of a line that has an operation of the language
_OF_A_LINE = {"BadOperand", "BadDirective", "UndefinedName", "OutOfRange", "OutOfSector"}


@dataclass(frozen=True, slots=True)
class Slip:
    """A sentence, and the field that it is about: None where it is the whole line."""

    sentence: str
    field: int | None = None


def slip_of(cause: str, number: int, lines: Sequence[str]) -> Slip:
    """What is wrong at a line of a source, by the cause that the program names."""
    line = lines[number - 1] if 0 < number <= len(lines) else ""
    parts = Parts.of(line)
    if cause in _OF_A_LINE and parts.operation not in OPERATIONS:
        return Slip("One of the lines that this call of a macro is written out to is refused: `lvdc macro` shows them.", OPERATION)
    match cause:
        case "BadOperand":
            return bad_operand(parts, line)
        case "BadDirective":
            return _bad_directive(parts, number, lines)
        case "UnknownOperation":
            return _unknown_operation(parts, lines)
        case "BadLabel":
            return _bad_label(parts, number, line)
        case "LineTooLong":
            return Slip(f"The line has {len(line.encode('utf-8', 'surrogateescape'))} bytes, and {_MOST_BYTES} are the most; comments count.")
        case "ExecuteModified":
            return Slip("EXM is no operation here: store the changed instruction where it is executed next.", OPERATION)
        case "MissingEnd":
            return Slip("The line END is missing, with a blank before it.")
        case "AfterEnd":
            return Slip("This stands behind END, where only comments may stand.")
        case "DuplicateName":
            first = next((at for at, it in enumerate(lines, 1) if Parts.of(it).label == parts.label), number)
            return Slip(f"{parts.label} is the label of line {first} already.", LABEL)
        case "UndefinedName":
            return _undefined(parts, lines)
        case "OutOfRange":
            return _out_of_range(parts)
        case "OutOfSector":
            return _out_of_sector(parts, number, lines)
        case "NoRoom" if parts.operation in DIRECTIVES:
            return Slip("The block that begins here runs past location 377, is too large for a sector, or for what other blocks have left of it.")
        case "NoRoom":
            return Slip("The sector in use has no free word for this literal: both syllables of a word have to be free.", OPERAND)
        case "Overlap":
            return Slip("The block that begins here takes what an earlier block with a place of its own has, or location 375 of sector 17.", OPERAND)
        case "BadMacro":
            return _bad_macro(parts, number, lines)
        case "TooDeep" | "TooManyCalls" | "ExpansionTooLong":
            return Slip("Most likely a macro calls itself without an end; 16 levels, 999 calls and 1,048,576 bytes are the most.", OPERATION)
    return Slip("")


# ---- operands

def bad_operand(parts: Parts, line: str) -> Slip:
    """What is wrong with an operand."""
    return Slip(_of_operand(parts, line), OPERAND)


def _of_operand(parts: Parts, line: str) -> str:
    """The same in words."""
    operation, operand = parts.operation, parts.operand
    wanted = _wanted(operation)
    if not operand:
        return f"{operation} lacks its operand: {wanted}."
    if operand.startswith("="):
        return _of_literal(operation, operand)
    if operand == "*" or operand.startswith("*"):
        return "There is no * for the place itself: give the line a label and name that."
    if "," in operand and operation != "CDS":
        return f"{operation} takes one field: there is no index register, so nothing stands behind a comma."
    if operation == "CDS":
        after = line[parts.columns[OPERAND] + len(operand):].split()
        if operand.endswith(",") and after:
            return f"A blank ends the operand: write {operand}{after[0]} without one."
        return "CDS wants a pair and a sector, in octal with a comma: CDS 0,02."
    if _POINT.fullmatch(operand):
        return _of_point(operand)
    if operation in ("OCT", "PIO", "SHF"):
        return _of_octal(operation, operand)
    if operation == "DEC":
        return _of_decimal(operand)
    if operation == "HOPC":
        return f"HOPC wants the name of a line of code, and {operand} is no name: {_NAME_RULE}."
    return _of_address(operation, operand, wanted)


_NAME_RULE = "a capital letter, then capitals or digits, eight characters at most"


def _wanted(operation: str) -> str:
    """What an operation takes."""
    if operation in WITH_LITERAL:
        return "an octal address, a name, or a literal as =D5"
    return {"CDS": "a pair and a sector, as 0,02", "DEC": "a decimal number", "HOPC": "the name of a line of code", "OCT": "an octal number",
            "PIO": "an octal port, 400 more to read from it", "SHF": "a pattern, one of 000, 001, 002, 020 and 040"}.get(
                operation, "an octal address or a name")


def _of_literal(operation: str, operand: str) -> str:
    """A literal."""
    if operation == "STO":
        return "STO takes no literal: what is stored needs a word with a name, BSS 1."
    if operation not in WITH_LITERAL:
        return f"{operation} takes no literal: {_wanted(operation)}."
    kind, number = operand[1:2], operand[2:]
    if _POINT.fullmatch(operand.lstrip("=D")):
        return _of_point(operand.lstrip("=D"))
    if kind.isdigit() or kind in ("+", "-"):
        return f"A literal says its base: =D{operand[1:]} is decimal, =O octal, =HNAME a HOP constant."
    if kind == "O":
        return _of_octal("=O", number)
    if kind == "D":
        return _of_decimal(number)
    if kind == "H":
        return f"=H wants the name of a line of code behind it: {_NAME_RULE}."
    return "A literal begins with =O, =D or =H."


def _of_point(number: str) -> str:
    """A number with a point, with a scale behind it or without one; lvdc-check wants a digit before the point."""
    whole = re.sub(r"^([+-]?)\.", r"\g<1>0.", number)
    scaled = whole if "B" in whole else f"{whole}B0"
    return f"There is no constant with a point: lvdc-check --fraction {scaled} says the word of a fraction."


def _of_octal(operation: str, digits: str) -> str:
    """An octal number."""
    if not digits:
        return f"{operation} lacks its octal number."
    if digits[0] in "+-":
        return f"An octal number has no sign: DEC or =D takes {digits}."
    if digits.isdigit() and ("8" in digits or "9" in digits):
        return f"8 and 9 are no octal digits: DEC or =D takes {digits} as a decimal number."
    if digits.isdigit():
        return "A number has nine digits at most."
    return f"{operation} wants an octal number, and {digits} is none."


def _of_decimal(digits: str) -> str:
    """A decimal number."""
    if re.fullmatch("[+-]?[0-9]{10,}", digits):
        return "A number has nine digits at most."
    if _POINT.fullmatch(digits):
        return _of_point(digits)
    return f"A decimal number is digits with a + or - before them or none, and {digits or 'nothing'} is none."


def _of_address(operation: str, operand: str, wanted: str) -> str:
    """An address."""
    if operand.isdigit():
        if "8" in operand or "9" in operand:
            return f"An address is octal, and 8 and 9 are no octal digits; a number to work with is a literal, =D{operand}."
        return "A number has nine digits at most."
    found = _SUM.fullmatch(operand)
    if found is not None and found[2] == "-":
        return f"There is no minus behind a name: {found[1]}+1 is the word behind {found[1]}, and for one before it give that a label."
    if found is not None:
        return "Behind a name and + stand one to three decimal digits."
    if operand != operand.upper() and _NAME.fullmatch(operand.upper()):
        return f"Names have capitals: {operand.upper()}."
    if operand.isalnum() and operand.isascii() and len(operand) > 8:
        return f"{operand} is too long for a name: {_NAME_RULE}."
    return f"{operand} is no name and no octal number: {operation} takes {wanted}."


# ---- blocks, operations and labels

def _bad_directive(parts: Parts, number: int, lines: Sequence[str]) -> Slip:
    """A line in the wrong block, or a directive's operand."""
    operation, operand = parts.operation, parts.operand
    block = block_at(number, lines)
    if operation in INSTRUCTIONS:
        return Slip("Instructions stand in a block of code: write CODE above them." if block == "" else
                    "This is a block of words: write CODE above the instructions.", OPERATION)
    if operation in CONSTANTS and (block != "WORDS" or operation != "BSS"):
        return Slip(f"{operation} stands in a block of words: write WORDS 0,01 above it, or another sector.", OPERATION)
    form = {"ORG": "pair, sector, syllable and location: ORG 0,01,0,000", "WORDS": "pair and sector, and a location where it has to be: WORDS 0,01",
            "USE": "pair and sector: USE 0,02", "BSS": "how many words, decimal, 1 to 256"}[operation]
    why = "" if operand else " and has nothing"
    if "," in operand and operand.endswith(","):
        why = "; a blank ends the operand"
    elif any(it in operand for it in "89") and operation != "BSS":
        why = "; all are octal"
    ranges = "" if operation == "BSS" else " Pairs go to 3, sectors to 17, locations to 377."
    return Slip(f"{operation} wants {form}{why}.{ranges}", OPERAND)


def block_at(number: int, lines: Sequence[str]) -> str:
    """The directive whose block a line stands in: CODE (of ORG too), WORDS, or empty. The lines of a definition of a macro stand in none."""
    kinds = {"CODE": "CODE", "ORG": "CODE", "WORDS": "WORDS"}
    block, is_defined = "", False
    for operation in (Parts.of(it).operation for it in lines[:number - 1]):
        is_defined = operation == "MACRO" or is_defined and operation != "MEND"
        block = block if is_defined else kinds.get(operation, block)
    return block


def _unknown_operation(parts: Parts, lines: Sequence[str]) -> Slip:
    """No operation."""
    label, operation = parts.label, parts.operation
    if label in OPERATIONS or label.upper() in OPERATIONS and operation:
        return Slip(f"{label} begins in the first column, so it is taken for a label: put a blank before it.", LABEL)
    if not operation:
        return Slip("A label stands alone: put it on the line that it is to name.", LABEL)
    if operation.upper() in OPERATIONS:
        return Slip(f"Operations have capitals: {operation.upper()}.", OPERATION)
    if any(Parts.of(it).operation == "MACRO" and Parts.of(it).label == operation for it in lines) or operation in ("MACRO", "MEND"):
        return Slip(f"{operation} is of a macro: `macro` writes macros out, and asm doesn't; a macro is defined above its call.", OPERATION)
    close = difflib.get_close_matches(operation, OPERATIONS, 1)
    return Slip(f"{operation} is no operation" + (f": {close[0]} may be meant." if close else "."), OPERATION)


def _bad_label(parts: Parts, number: int, line: str) -> Slip:
    """A label that is none."""
    label = parts.label
    if number == 1 and label[:1] in ("\ufeff", "\udcff", "\udcfe"):
        return Slip("A mark of bytes that an editor doesn't show stands first: docs/FORMATS.md, \"Bytes that can't be seen\".", LABEL)
    if parts.operation in DIRECTIVES and _NAME.fullmatch(label):
        return Slip(f"{parts.operation} takes no label: put it on the first line of the block.", LABEL)
    if label.endswith(":"):
        return Slip("A label ends with a blank, and not with a colon.", LABEL)
    if label.upper() != label and _NAME.fullmatch(label.upper()):
        return Slip(f"Names have capitals: {label.upper()}.", LABEL)
    return Slip(f"What begins in the first column is a label, and {label} is none: {_NAME_RULE}.", LABEL)


def _bad_macro(parts: Parts, number: int, lines: Sequence[str]) -> Slip:
    """A macro that is none."""
    if number > len(lines):
        return Slip("A definition of a macro lacks its line MEND.")
    if parts.operation == "MEND":
        return Slip("MEND stands here without a MACRO above it, or with a label.", OPERATION)
    if parts.operation == "MACRO":
        return Slip("MACRO wants a label, which is the macro's name: a name that is no operation and no macro yet; and no macro is defined "
                    "within another.", LABEL)
    if parts.label:
        return Slip("A call of a macro takes no label: put it on an instruction before it, or give it as an argument.", LABEL)
    return Slip("A call has nine arguments at most.", OPERAND)


# ---- names, ranges and sectors

def name_in(operand: str) -> str:
    """The name that an operand has."""
    return operand.removeprefix("=H").partition("+")[0]


def _undefined(parts: Parts, lines: Sequence[str]) -> Slip:
    """A name that no line has."""
    name = name_in(parts.operand)
    labels = [Parts.of(it).label for it in lines if Parts.of(it).label]
    close = difflib.get_close_matches(name, labels, 1)
    return Slip(f"No line has the label {name}" + (f": {close[0]} may be meant." if close else "."), OPERAND)


def _out_of_range(parts: Parts) -> Slip:
    """A number that is too large."""
    operation, operand = parts.operation, parts.operand
    if operation == "SHF":
        return Slip("SHF has the patterns 000, 001, 002, 020 and 040; for more places write several.", OPERAND)
    if operation == "CDS":
        return Slip("CDS has pairs up to 3 and sectors up to 17.", OPERAND)
    if operation in ("OCT", "DEC") or operand.startswith("="):
        return Slip("The number isn't one of 26 bits: octal up to 377777777, decimal from -33554432 to 33554431.", OPERAND)
    if "+" in operand:
        return Slip("The word so far behind the name is past location 377, the end of the sector.", OPERAND)
    return Slip("An address is 777 at most; a number to work with is a literal, as =O1000.", OPERAND)


def _sector_of(name: str, lines: Sequence[str]) -> tuple[str, str]:
    """The kind of block in which a name stands, and the pair and sector that its directive says, as 0,02; empty where it says none."""
    kind, place = "", ""
    for line in lines:
        parts = Parts.of(line)
        if parts.operation in ("CODE", "ORG", "WORDS"):
            kind, place = parts.operation, ",".join(parts.operand.split(",")[:2]) if parts.operation != "CODE" else ""
        if parts.label == name and parts.operation not in ("MACRO", "MEND"):
            return ("WORDS" if kind == "WORDS" else "CODE"), place
    return "", ""


def _out_of_sector(parts: Parts, number: int, lines: Sequence[str]) -> Slip:
    """A name that can't be reached."""
    name = name_in(parts.operand)
    kind, place = _sector_of(name, lines)
    if parts.operation in ("TRA", "TNZ", "TMI"):
        return Slip(f"{name} is a word, and no line of code to go on at." if kind == "WORDS" else
                    f"A transfer stays in its sector, and {name} stands in another one: HOP =H{name} goes there.", OPERAND)
    if parts.operation == "HOPC" or parts.operand.startswith("=H"):
        return Slip(f"{name} is a word, and a HOP constant is made of a line of code.", OPERAND)
    uses = [Parts.of(it).operand for it in lines[:number - 1] if Parts.of(it).operation == "USE"]
    use = uses[-1] if uses else "0,01"
    there = f"stands in sector {place}" if place else "stands in a block of code whose sector isn't that"
    return Slip(f"{name} {there}, and the sector in use is {use}: write USE {place or 'and its sector'} above, and let a CDS or a HOP constant set "
                "it for the machine; or put the word into sector 17.", OPERAND)
