"""The types of the code that definitions speak of: the variants of each `enum`, the fields of each `struct`, and the constants."""
import pathlib
import re
from typing import NamedTuple

# How definitions see the types of the code.
NUMBERS = {"u8", "u16", "u32", "u64", "usize", "Word", "Syllable", "Cell", "Banks"}
SEEN = {"bool": "Bool", "Address": "Spot", "Hop": "HopConstant", "Image": "Contents", "Script": "List Event", "Orders": "List (List ℕ)"}
TYPE = re.compile(r"^(?:pub(?:\(crate\))? )?(enum|struct) (\w+)(?:<[^>]*>)?(?: where [^{]*)? \{\n(.*?)^\}", re.MULTILINE | re.DOTALL)
TUPLE = re.compile(r"^pub struct (\w+)\((.*?)\);", re.MULTILINE | re.DOTALL)
CONSTANT = re.compile(r"^(?:pub )?const (\w+): (\w+) = ([^;]*);", re.MULTILINE)


class CodeTypes(NamedTuple):
    """The types of the code of one crate."""
    variants: dict[str, dict[str, list[str]]]
    fields: dict[str, dict[str, str]]
    constants: dict[str, str]


def parts_at_commas(text: str) -> list[str]:
    """What stands between the commas that no bracket holds."""
    parts, depth = [""], 0
    for letter in text:
        depth += (letter in "<([{") - (letter in ">)]}")
        if letter == "," and not depth:
            parts.append("")
        else:
            parts[-1] += letter
    return [it.strip() for it in parts if it.strip()]


def seen(text: str) -> str:
    """A type of the code as definitions see it."""
    text = text.strip().removeprefix("&'static ").rsplit("::", 1)[-1] if "<" not in text else text.strip()
    inner = re.match(r"(Vec|Seq|Box|Option|ArrayVec|List)<(.*)>$", text, re.DOTALL)
    if inner and inner[1] == "Box":
        return seen(inner[2])
    if inner:
        it = seen(parts_at_commas(inner[2])[0])
        return f"{'Option' if inner[1] == 'Option' else 'List'} {f'({it})' if ' ' in it else it}"
    array = re.match(r"\[(.*);.*\]$|\[(.*)\]$", text)
    if array:
        it = seen(array[1] or array[2])
        return f"List {f'({it})' if ' ' in it else it}"
    return "ℕ" if text in NUMBERS else SEEN.get(text, text)


def without_comments(text: str) -> str:
    """The code without comments and attributes."""
    return re.sub(r"^\s*(///?!?[^\n]*|#\[[^\n]*)\n", "", text, flags=re.MULTILINE)


def variants_in(body: str) -> dict[str, list[str]]:
    """Each variant of an enum, with the types of its parts."""
    found = {}
    for variant in parts_at_commas(body):
        match = re.match(r"(\w+)\s*(?:\((.*)\)|\{(.*)\})?(?:\s*=.*)?$", variant, re.DOTALL)
        if match:
            named = [it.split(":", 1)[1] for it in parts_at_commas(match[3] or "")]
            found[match[1]] = [seen(it) for it in parts_at_commas(match[2] or "") + named]
    return found


def code_types_of(crate: pathlib.Path) -> CodeTypes:
    """The types of the code of a crate."""
    found = CodeTypes({}, {}, {})
    for file in sorted(crate.glob("src/**/*.rt")):
        text = without_comments(file.read_text())
        for kind, name, body in TYPE.findall(text):
            if kind == "enum":
                found.variants[name] = variants_in(body)
            else:
                pairs = [it.removeprefix("pub ").split(":", 1) for it in parts_at_commas(body)]
                found.fields[name] = {pair[0].removeprefix("pub(crate) ").strip(): seen(pair[1]) for pair in pairs if len(pair) == 2}
        for name, body in re.findall(r"^(?:pub(?:\(crate\))? )?enum (\w+) \{ ([^\n]*)\}$", text, re.MULTILINE):
            found.variants[name] = variants_in(body)
        for name, kind, value in CONSTANT.findall(text):
            found.constants[name] = value
    return found
