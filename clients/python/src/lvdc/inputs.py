"""The input of a campaign or a study: the text of a deck, the line CAMPAIGN, and scripts by their names.

What a script was made from stands in comments behind its name, so that a row can be joined to it: lines that begin with `*:`, with the
columns of a table as `name=value`, parted by commas. Such a line before the first script says of which population they are."""
import re
import textwrap
from collections.abc import Iterable, Iterator

from lvdc.faults import Fault, read_fault
from lvdc.lines import Unread, sections, tokens
from lvdc.populations import GIVEN, Population
from lvdc.scripts import Script

MARK = "*:"
MOST_OF_LINE = 120
_INTEGER = re.compile("0|-?[1-9][0-9]*")


def population_text(population: Population) -> str:
    """The lines that say of which population the scripts of an input are."""
    parts = {"of": population.size, "drawn": population.drawn, "seed": population.seed}
    numbers = ", ".join(f"{name}={value}" for name, value in parts.items() if value is not None)
    told_lines = textwrap.wrap(str(population), MOST_OF_LINE - 2)
    return "".join(f"* {it}\n" for it in told_lines) + (f"{MARK} {numbers}\n" if numbers else "")


def read_population(text: str) -> Population:
    """The population that an input says; that of given scripts where it says none."""
    lines = sections(text)
    for _, line in _lines_of_scripts(lines):
        if line.startswith(MARK):
            told = {name: value for name, value in _about(line).items() if isinstance(value, int)}
            return Population(GIVEN.each, told.get("of"), told.get("drawn"), told.get("seed"))
        if tokens(line) and not line.startswith("*"):
            break
    return GIVEN


def script_text(name: str, script: Script) -> str:
    """A script with what it was made from."""
    return "".join(f"{it}\n" for it in [f"SCRIPT {name}", *_told(script)]) + str(script)


def _told(script: Script) -> Iterator[str]:
    """What a script was made from, as comments."""
    line = ""
    for name, value in script.about.items():
        longer = f"{line}, {name}={value}" if line else f"{MARK} {name}={value}"
        if line and len(longer) > MOST_OF_LINE:
            yield line
            longer = f"{MARK} {name}={value}"
        line = longer
    if line:
        yield line


def read_scripts(text: str) -> Iterator[tuple[str, Script]]:
    """The scripts of an input, with their names and what their comments say that they were made from. Raises Unread at a line that is
    none."""
    lines = sections(text)
    name, script = None, Script(())
    for number, line in _lines_of_scripts(lines):
        words = tokens(line)
        if words[:1] == ["SCRIPT"]:
            if len(words) != 2:
                raise Unread(number, line, "a script with one name")
            if name is not None:
                yield name, script
            name, script = words[1], Script(())
        elif line.startswith(MARK):
            script = Script(script.faults, {**script.about, **_about(line)})
        elif words and not line.startswith("*"):
            script = Script((*script.faults, _fault(line, number)), script.about)
    if name is not None:
        yield name, script


def _lines_of_scripts(lines: list[str]) -> Iterable[tuple[int, str]]:
    """The lines behind CAMPAIGN with their numbers: it is the first line with this word alone behind the program's END."""
    end = next((at for at, it in enumerate(lines) if tokens(it) == ["END"]), len(lines))
    begin = next((at for at in range(end + 1, len(lines)) if tokens(lines[at]) == ["CAMPAIGN"] and len(lines[at]) <= MOST_OF_LINE), None)
    if begin is None:
        raise Unread(len(lines) + 1, "", "CAMPAIGN")
    return ((at + 1, lines[at]) for at in range(begin + 1, len(lines)))


def _about(line: str) -> dict[str, int | str]:
    """What a comment says."""
    parts = (it.strip(" ").partition("=") for it in line.removeprefix(MARK).split(","))
    return {name: int(value) if _INTEGER.fullmatch(value) else value for name, mark, value in parts if mark}


def _fault(line: str, number: int) -> Fault:
    """The fault of a line."""
    try:
        return read_fault(line)
    except ValueError as fault:
        raise Unread(number, line, "a fault line") from fault
