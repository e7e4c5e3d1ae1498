"""What is used wrongly, as a student does: each is a TypeError, a ValueError or a refusal that says what would be right."""
import io
import pathlib
from collections.abc import Callable, Iterator
from typing import Any

import pytest
from conftest import TOP
from simulated import Simulated

import lvdc
from lvdc import Address, Cell, Damage, Dead, Deck, Flip, Force, Hop, Image, Lag, Place, Port, Script, Share, Source, Stick, Tape, Unplug, Word, plots
from lvdc import scripts as kinds
from lvdc.lines import Unread

SIM = Simulated()
DECK: Any = Deck(Image({Address(0, 0, 0): 0o17000, Address(0, 1, 0): 5}), count=3)
FLIP: Any = Flip(5, 1, 3, 3, 0, 1)
PATH: Any = "examples/multiply.deck"
ANY: Any = None
FIVE: Any = 5
CLASS: Any = lvdc.Worker
FOUND: Any = lvdc.study(DECK, kinds.pairs([2], modules=[5], bits=[0]), worker=SIM)
TRACE: Any = lvdc.trace(DECK, worker=SIM)

# what is done, and a part of what is said
MISUSES: list[tuple[Callable[[], Any], str]] = [
    # what is run
    (lambda: lvdc.run(PATH, worker=SIM), "pathlib.Path('examples/multiply.deck')"),
    (lambda: lvdc.run("multiply.deck", worker=SIM), "of a file give pathlib.Path"),
    (lambda: lvdc.run(FIVE, worker=SIM), "a deck is a Deck, a text, bytes or a pathlib.Path, not int"),
    (lambda: lvdc.run(ANY, worker=SIM), "not NoneType"),
    (lambda: lvdc.run(io.StringIO("IMAGE\n"), worker=SIM), "of an open file, file.read()"),  # type: ignore[arg-type]
    (lambda: lvdc.run([DECK], worker=SIM), "not list"),  # type: ignore[arg-type]
    (lambda: lvdc.run(Source("        END"), worker=SIM), "it is made a deck, Deck(program, count)"),
    (lambda: lvdc.run(DECK.program, worker=SIM), "Deck(program, count)"),
    (lambda: lvdc.run(lvdc.run(DECK, worker=SIM), worker=SIM), "not Report"),  # type: ignore[arg-type]
    (lambda: lvdc.run(DECK, through=True, plain=True, worker=SIM), "through every fault or plain, not both"),
    (lambda: lvdc.run(DECK, worker="lvdc-worker"), "worker= is a Worker or a Pool"),  # type: ignore[arg-type]
    (lambda: lvdc.run(DECK, worker=CLASS), "worker= is a Worker or a Pool"),
    (lambda: lvdc.run("RUN 3\n", worker=SIM), "NoProgram at line 1"),
    (lambda: lvdc.run(b"IMAGE\nLVDC 1\nEND\nRUN x\n", worker=SIM), "BadLine at line 4: 'RUN x'"),
    (lambda: lvdc.run(pathlib.Path("none.deck"), worker=SIM), "none.deck"),
    # what else is asked
    (lambda: lvdc.assemble(PATH, worker=SIM), "is no text of a source"),
    (lambda: lvdc.assemble(DECK, worker=SIM), "its program is deck.program"),
    (lambda: lvdc.assemble(ANY, worker=SIM), "a source is a Source"),
    (lambda: lvdc.assemble_image(TOP / "none.lvdc", worker=SIM), "none.lvdc"),
    (lambda: lvdc.expand(5, worker=SIM), "a source is a Source"),  # type: ignore[arg-type]
    (lambda: lvdc.debug(DECK, "STEP 1", worker=SIM), "commands are a list of str, not 'STEP 1'"),
    (lambda: lvdc.debug(DECK, [1], worker=SIM), "commands are a list of str: 1 is none"),  # type: ignore[list-item]
    (lambda: lvdc.trace(DECK, -1, worker=SIM), "a first step is 0 to"),
    (lambda: lvdc.trace(DECK, 0, -5, worker=SIM), "a count of steps is 0 to"),
    (lambda: lvdc.trace(DECK, 1.5, worker=SIM), "a first step is a whole number, not 1.5"),  # type: ignore[arg-type]
    (lambda: lvdc.save(DECK, -1, worker=SIM), "a count of instruction times is 0"),
    (lambda: lvdc.save(DECK, "2", worker=SIM), "a whole number, not '2'"),  # type: ignore[arg-type]
    (lambda: lvdc.resume(DECK, worker=SIM), "a saved run is a Saved"),
    (lambda: lvdc.resume("saved", worker=SIM), "of a file give pathlib.Path('saved')"),
    (lambda: lvdc.soak("one", worker=SIM), "a number of a soak is a whole number"),  # type: ignore[arg-type]
    (lambda: lvdc.soak(-1, worker=SIM), "a number of a soak is 0"),
    (lambda: lvdc.form([FLIP], worker=SIM), "a deck is a Deck"),  # type: ignore[arg-type]
    (lambda: lvdc.uplink(DECK, worker=SIM), "messages of an uplink is a Image"),
    (lambda: lvdc.ask("run", DECK, worker=lvdc.Worker(TOP / "build")), "the words of a request are a list"),
    (lambda: lvdc.ask(["fly"], DECK, worker=SIM), "answers no 'fly'"),
    # values
    (lambda: Word(3.7), "a Word is a whole number, not 3.7"),  # type: ignore[arg-type]
    (lambda: Word("17"), "a Word is a whole number, not '17'"),  # type: ignore[arg-type]
    (lambda: Word(True), "a Word is a whole number, not True"),
    (lambda: Word(-1), "a Word has 26 bits"),
    (lambda: Word(2**26), "a Word has 26 bits"),
    (lambda: Word.read(17), "octal digits, as '000000017'"),  # type: ignore[arg-type]
    (lambda: Word.read("9"), "9"),
    (lambda: Word.of_signed(2**25), "a signed value is"),
    (lambda: Cell(2**28), "a Cell has 28 bits"),
    (lambda: Port(256), "a Port has 8 bits"),
    (lambda: Address(0, 16, 0), "a sector is 0 to 15, not 16"),
    (lambda: Address("0", 0, 0), "a bank is a whole number"),  # type: ignore[arg-type]
    (lambda: Address.read("0 01"), "values to unpack"),
    (lambda: Place(0, 0, 2, 0), "a syllable is 0 to 1"),
    (lambda: Hop(dupin=2), "dupin is 0 to 1"),
    (lambda: Hop.of(2**26), "a word is 0"),
    # faults
    (lambda: Flip(8, 1, 0, 0, 0, 1), "a module is 1 to 7, not 8"),
    (lambda: Flip(0, 1, 0, 0, 0, 1), "a module is 1 to 7, not 0"),
    (lambda: Flip(5, 0, 0, 0, 0, 1), "a copy is 1 to 3, not 0"),
    (lambda: Flip(3, 1, 0, 0, 1, 1), "a latch of module 3 is 0 to 0, not 1"),
    (lambda: Flip(5, 1, 3, 2, 0, 1), "the first step is 0 to 2, not 3"),
    (lambda: Flip(5, 1, 0.0, 0.0, 0, 1), "the last step is a whole number, not 0.0"),  # type: ignore[arg-type]
    (lambda: Flip(5, 1, 0, 0, 0, 2**26), "a word is 0"),
    (lambda: Force(5, 1, 0, 0, 0, 1, -1), "a word is 0"),
    (lambda: Lag(True, 1, 0, 0), "a module is a whole number, not True"),
    (lambda: Damage(2, 0, 0, 0, 0, 1), "a twin is 0 to 1, not 2"),
    (lambda: Damage(0, 4, 0, 0, 0, 1), "a pair is 0 to 3, not 4"),
    (lambda: Stick(0, 0, 0, 0, 0, 0, 2**28, 0), "a mask is 0"),
    (lambda: Dead(0, 0, 5, 4), "the first step is 0 to 4, not 5"),
    (lambda: lvdc.read_fault("FLIP 1"), "is no fault line"),
    # programs and decks
    (lambda: Image([1, 2]), "words by their addresses"),  # type: ignore[arg-type]
    (lambda: Image({0: 1}), "stand at an Address, as Address(0, 1, 0), not at 0"),  # type: ignore[dict-item]
    (lambda: Image({Address(0, 0, 0): 1.5}), "a Word is a whole number"),  # type: ignore[dict-item]
    (lambda: Source(pathlib.Path("x")), "Source(path.read_text())"),  # type: ignore[arg-type]
    (lambda: Deck("        END\n", 3), "of a text, Source(text) or Image.read(text)"),  # type: ignore[arg-type]
    (lambda: Deck(DECK.program, "3"), "a count of instruction times is a whole number"),  # type: ignore[arg-type]
    (lambda: Deck(DECK.program, -3), "a count of instruction times is 0"),
    (lambda: Deck(DECK.program, 3, start=0o16), "of a word, Hop.of(word)"),  # type: ignore[arg-type]
    (lambda: Deck(DECK.program, 3, faults=FLIP), "faults are a list of"),
    (lambda: Deck(DECK.program, 3, ports=[(0, 5)]), "ports are a list of Tape or Unplug"),  # type: ignore[list-item]
    (lambda: DECK.with_faults([FLIP]), "give them one by one: *faults"),
    (lambda: DECK.with_faults("FLIP 5 1 3 3 0 1"), "faults are a list of"),
    (lambda: DECK.with_commands(5), "commands are a list of str"),
    (lambda: Deck.read(TOP / "examples" / "multiply.deck"), "Deck.read(path.read_text())"),  # type: ignore[arg-type]
    (lambda: Deck.read(PATH), "IMAGE or SOURCE is due"),
    (lambda: Tape(0, ()), "a word or more"),
    (lambda: Tape(300, (1,)), "a port is 0 to 255, not 300"),
    (lambda: Unplug(0, -1), "a time is 0"),
    # scripts and studies
    (lambda: kinds.pairs(5), "steps are a Deck or numbers"),  # type: ignore[arg-type]
    (lambda: kinds.pairs([3, 2]), "the steps rise"),
    (lambda: kinds.flips([0], modules=[8]), "a module is 1 to 7, not 8"),
    (lambda: kinds.flips([0], modules=[3], latches=[1]), "there is no latch 1"),
    (lambda: kinds.flips([0], copies=[4]), "a copy is 1 to 3, not 4"),
    (lambda: kinds.flips([0], modules=[3], bits=[20]), "all_bits=True has the bits 0 to 25"),
    (lambda: kinds.pairs([0]).drawn(-1), "a count of scripts is 0"),
    (lambda: kinds.pairs([0]).drawn(5, seed="x"), "a seed is a whole number"),  # type: ignore[arg-type]
    (lambda: kinds.Damages(range(3)), "the places are to be given"),
    (lambda: kinds.Lasting([0], [0]), "a length in steps is 1"),
    (lambda: kinds.Lasting([0], [1], kinds=["fly"]), "a kind is one of lag, deaf, force, stick, dead"),
    (lambda: kinds.at_rate(2, [0]), "a chance is between 0 and 1"),
    (lambda: kinds.simultaneous(0, [0]), "a count of faults at one step is 1"),
    (lambda: lvdc.study(PATH, kinds.pairs([0]), worker=SIM), "a study is of a Deck"),
    (lambda: lvdc.study(DECK, Script((FLIP,)), worker=SIM), "of one script, [script]"),  # type: ignore[arg-type]
    (lambda: lvdc.study(DECK, [FLIP], worker=SIM), "a script is a Script, as Script((fault,))"),
    (lambda: lvdc.study(DECK, kinds.pairs(range(99), modules=[3]), worker=SIM), "outside of the run: it has the steps 0 to 8"),
    (lambda: lvdc.study(DECK, kinds.pairs([0]), worker=SIM, at_once=0), "at_once is 1"),
    (lambda: lvdc.census(DECK, [Script((FLIP,))], worker=SIM), "a census is of flips, pairs or Damages"),  # type: ignore[arg-type]
    (lambda: FOUND.counts("nope"), "there is no column 'nope', but name, faults, kind"),
    (lambda: FOUND.shares("distance", lvdc.is_different), "there is no column 'distance'"),
    (lambda: plots.failures(FOUND, by="nope"), "there is no column 'nope'"),
    (lambda: Share(3, 2), "a count is 0 to 2, not 3"),
    (lambda: lvdc.wilson(1.5, 2), "a count is a whole number"),  # type: ignore[arg-type]
    (lambda: list(TRACE.diff(lvdc.trace(DECK, 3, worker=SIM))), "one trace begins at step 0, the other at 3"),
    (lambda: lvdc.run(DECK, worker=SIM).word(0), "stands at an Address"),  # type: ignore[arg-type]
    # workers
    (lambda: lvdc.Pool(0), "a count of workers is 1"),
    (lambda: lvdc.Pool(2.5), "a count of workers is a whole number"),  # type: ignore[arg-type]
    (lambda: lvdc.Pool(executor=4), "an executor is one of concurrent.futures"),  # type: ignore[arg-type]
    (lambda: lvdc.Worker(TOP / "build", limit="10"), "a limit is a number of seconds"),  # type: ignore[arg-type]
    (lambda: lvdc.Worker(TOP / "build", limit=-1), "a limit is more than 0 seconds"),
]


@pytest.mark.parametrize("number", range(len(MISUSES)))
def test_a_misuse_says_what_would_be_right(number: int) -> None:
    misuse, said = MISUSES[number]
    with pytest.raises((TypeError, ValueError, lvdc.Refused, lvdc.NotACommand, Unread, FileNotFoundError)) as caught:
        found = misuse()
        if isinstance(found, Iterator):
            next(found)
    assert said in str(caught.value), f"{caught.type.__name__}: {caught.value}"


def test_there_are_as_many_as_were_found() -> None:
    assert len(MISUSES) >= 96
