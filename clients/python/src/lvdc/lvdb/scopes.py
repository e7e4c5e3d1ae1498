"""What an editor shows of the machine: three scopes of names with their values, and tables, whose words are shown when they are opened."""
from collections.abc import Callable, Iterator
from dataclasses import dataclass

from lvdc.lvdb.expressions import in_all_forms
from lvdc.lvdb.places import comma
from lvdc.lvdb.session import Debugger
from lvdc.lvdb.states import all_latches
from lvdc.values import COPIES, NAMES, STEPS_A_TIME

_MOST_WORDS = 256
# the references of tables begin behind those of the scopes
FIRST_TABLE = 16


@dataclass(frozen=True, slots=True)
class Variable:
    """A name with its value; `table` is the number of the table that it opens, and `address` that of its word."""

    name: str
    value: str
    table: int = 0
    address: str = ""


def registers(debugger: Debugger) -> Iterator[Variable]:
    """The registers, how many instruction times are made, and what is under way."""
    state = debugger.state
    yield Variable("TIME", f"{debugger.position // STEPS_A_TIME}, phase {state.phase}")
    if state.pending is not None:
        yield Variable("UNDER WAY", str(state.pending))
    yield from (Variable(*it) for it in state.registers().items())


def memory(debugger: Debugger) -> Iterator[Variable]:
    """The words that have names, tables as such; without names those that aren't 0."""
    tables = debugger.program.tables
    if not tables:
        words = debugger.replay.report(debugger.position // STEPS_A_TIME).words
        yield from (Variable(str(at), in_all_forms(word), 0, comma(at)) for at, word in list(words.items())[:_MOST_WORDS])
        return
    first = debugger.replay.words(debugger.position, [it[0] for it in tables.values()])
    for number, ((name, addresses), word) in enumerate(zip(tables.items(), first), FIRST_TABLE):
        size = len(addresses)
        value = f"{size} words: {in_all_forms(word)}, .." if size > 1 else in_all_forms(word)
        yield Variable(name, value, number if size > 1 else 0, comma(addresses[0]))


def table(debugger: Debugger, number: int) -> Iterator[Variable]:
    """The words of a table."""
    name, addresses = list(debugger.program.tables.items())[number - FIRST_TABLE]
    for at, (address, word) in enumerate(zip(addresses, debugger.replay.words(debugger.position, addresses))):
        yield Variable(f"{name}+{at}" if at else name, in_all_forms(word), 0, comma(address))


def copies(debugger: Debugger) -> Iterator[Variable]:
    """Each latch: the vote, and the copies that differ from it."""
    state = debugger.state
    for module, index, name in all_latches():
        vote = state.votes[module][index]
        others = [(copy, state.differing[module, copy][index]) for copy in COPIES if (module, copy) in state.differing]
        differ = [f"copy {copy} {word}" for copy, word in others if word != vote]
        yield Variable(f"{NAMES[module]} {name}", "; ".join([str(vote), *differ]))


SCOPES: dict[str, Callable[[Debugger], Iterator[Variable]]] = {"Registers": registers, "Memory": memory, "Copies": copies}


def variables(debugger: Debugger, reference: int) -> Iterator[Variable]:
    """What a scope or a table has."""
    if reference >= FIRST_TABLE:
        return table(debugger, reference)
    if not 1 <= reference <= len(SCOPES):
        raise ValueError(f"there is no scope {reference}")
    return list(SCOPES.values())[reference - 1](debugger)
