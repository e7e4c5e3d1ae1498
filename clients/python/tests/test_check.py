"""lvdc-check: what is said of a refused line, and that all refusals of a file are found by mending and asking again."""
from pathlib import Path

import pytest
from conftest import TOP
from hypothesis import example, given, settings
from hypothesis import strategies as st

import lvdc
from lvdc import Worker
from lvdc.check.fractions import BadFraction, fraction_line
from lvdc.check.main import check_file, told_lines
from lvdc.check.mending import MOST_FINDINGS, findings_of
from lvdc.lines import sections

FRONT, BACK = "        CODE\nA       CLA   X\n", "        WORDS 0,01\nX       DEC   5\n        END\n"

# A line of code that is refused, the cause, the column of the field, and a part of the sentence: the twelve kinds of BadOperand first.
CODE_SLIPS = [
    ("        CLA", "BadOperand", 11, "CLA lacks its operand"), ("        STO   =D4", "BadOperand", 14, "STO takes no literal"),
    ("        CLA   089", "BadOperand", 14, "no octal digits"), ("        CLA   0000000001", "BadOperand", 14, "nine digits"),
    ("        CLA   X-1", "BadOperand", 14, "no minus"), ("        CLA   X+", "BadOperand", 14, "one to three decimal digits"),
    ("        ADD   =5", "BadOperand", 14, "says its base"), ("        ADD   =O-5", "BadOperand", 14, "has no sign"),
    ("        ADD   X,1", "BadOperand", 14, "no index register"), ("        CDS   0, 02", "BadOperand", 14, "write 0,02 without"),
    ("        TRA   *", "BadOperand", 14, "no * for the place"), ("        ADD   0.75", "BadOperand", 14, "--fraction 0.75B0"),
    ("        ADD   =-0.75", "BadOperand", 14, "--fraction -0.75B0"), ("        ADD   =D-.5B3", "BadOperand", 14, "--fraction -0.5B3"),
    ("        CLA   x", "BadOperand", 14, "Names have capitals: X"), ("        CLA   TOOLONGNAME", "BadOperand", 14, "too long for a name"),
    ("        PIO   X", "BadOperand", 14, "wants an octal number"), ("        CLA   X.Y", "BadOperand", 14, "no name and no octal number"),
    ("CLA     X", "UnknownOperation", 0, "taken for a label"), ("        cla   X", "UnknownOperation", 8, "capitals: CLA"),
    ("LONE", "UnknownOperation", 0, "A label stands alone"), ("        ADDD  X", "UnknownOperation", 8, "ADD may be meant"),
    ("        EXM   X", "ExecuteModified", 8, "no operation here"), ("        OCT   5", "BadDirective", 8, "stands in a block of words"),
    ("FAR:    CLA   X", "BadLabel", 0, "not with a colon"), ("        CLA   XX", "UndefinedName", 14, "X may be meant"),
    ("        SHF   003", "OutOfRange", 14, "020 and 040"), ("        CLA   =D99999999", "OutOfRange", 14, "26 bits"),
    ("        CLA   X+300", "OutOfRange", 14, "past location 377"), ("        TRA   X", "OutOfSector", 14, "no line of code to go on at"),
    ("        HOP   =HX", "OutOfSector", 14, "made of a line of code"),
    ("        USE   0,02\n        CLA   X", "OutOfSector", 14, "write USE 0,01 above"),
    ("A       CLA   X", "DuplicateName", 0, "the label of line 2")]


@pytest.mark.parametrize("line, cause, column, part", CODE_SLIPS, ids=[f"{cause} {line.strip()}" for line, cause, _, _ in CODE_SLIPS])
def test_each_slip_has_its_field_and_its_sentence(worker: Worker, line: str, cause: str, column: int, part: str) -> None:
    found = list(findings_of(f"{FRONT}{line}\n{BACK}", worker))
    assert [it.cause for it in found] == [cause] and found[0].line == line.split("\n")[-1]
    assert found[0].column == column and part in found[0].slip.sentence


def test_all_refusals_of_a_file_are_found(worker: Worker, tmp_path: Path) -> None:
    lines = [line for line, _, _, _ in CODE_SLIPS if "\n" not in line and not line.startswith(("FAR", "A "))]
    path = tmp_path / "bad.source"
    path.write_text(FRONT + "".join(f"{it}\n" for it in lines[:MOST_FINDINGS - 1]) + BACK)
    numbers = [int(it.split(":")[1]) for it in check_file(path, worker) if it.startswith(str(path))]
    assert numbers == list(range(3, 2 + MOST_FINDINGS))


@given(st.lists(st.sampled_from([line for line, _, _, _ in CODE_SLIPS]), min_size=1, max_size=6), st.booleans())
@example(["        USE   0,02\n        CLA   X", "FAR:    CLA   X"], False)
@settings(max_examples=30)
def test_what_is_mended_is_asked_until_nothing_is_refused(worker: Worker, slips: list[str], is_deck: bool) -> None:
    source = FRONT + "".join(f"{it}\n" for it in slips) + BACK
    text = f"SOURCE\n{source}RUN 5\n" if is_deck else source
    found = list(findings_of(text, worker))
    assert found and all(it.line == sections(text)[it.number - 1] for it in found)
    with pytest.raises(lvdc.Refused) as refused:
        lvdc.form(text, worker=worker) if is_deck else lvdc.assemble(text, worker=worker)
    assert (found[0].cause, found[0].number) == (refused.value.cause, refused.value.number)


@pytest.mark.parametrize("path", sorted([*(TOP / "examples").glob("*.*"), *(TOP / "examples" / "programs").glob("*.*")]), ids=lambda it: str(it.name))
def test_what_isnt_refused_has_no_findings(worker: Worker, path: Path) -> None:
    if path.suffix in (".deck", ".source", ".macros", ".image"):
        told = list(check_file(path, worker))
        assert bool(told) == path.name.startswith("refused-"), told


def test_a_deck_and_an_image_and_macros_are_checked(worker: Worker, tmp_path: Path) -> None:
    deck = f"SOURCE\n{FRONT}{BACK}PORTS\nTAPE 017 5\nFAULTS\nFLIP 9 1 0 0 0 1\nLAG 1 1 0 0\nLAG 1 1 5 4\nRUN 5\n"
    assert [(it.cause, it.number) for it in findings_of(deck, worker)] == [("NoDevice", 8), ("BadLine", 10), ("BadLine", 12)]
    assert [(it.cause, it.number) for it in findings_of("LVDC 1\n0 00 000 00000001\nEND\n", worker)] == [("BadImageLine", 2)]
    macros = (TOP / "examples" / "five-threes.macros").read_text()
    assert [(it.cause, it.number) for it in findings_of(macros.replace("TIMES N,X,SUM", "TIMES N,X,NONE"), worker)] == [("UndefinedName", 18)]
    front, _, back = macros.rpartition("        MEND\n")
    assert [(it.cause, it.number) for it in findings_of(front + back, worker)] == [("BadMacro", macros.count("\n"))]
    a_block = "        CODE\nHALF    MACRO\n        WORDS 0,01\n        MEND\n{}        DEC   5\n        END\n"
    coded = "        WORDS 0,02\nCODED   MACRO\n        CODE\n        MEND\n        CODED\n"
    for call, number in (("", 5), ("        HALF\n        ORG   0,00,0,000\n", 7), (coded, 10)):
        assert [(it.cause, it.number) for it in findings_of(a_block.format(call), worker)][:1] == [("BadDirective", number)]
    macro_deck = f"SOURCE\n{macros}FAULTS\nLAG 0 1 0 0\nRUN 5\n"
    assert [(it.cause, it.line) for it in findings_of(macro_deck, worker)] == [("BadLine", "LAG 0 1 0 0")]


def test_one_wrong_address_of_an_image_is_told_once(worker: Worker) -> None:
    lines = ["LVDC 1", "0 00 000 000017000", "0 00 377 000007001", "0 00 002 400000000", "0 0 003 000000001", "0 00 004 000000001",
             "0 00 004 000000002"]
    due = [("AddressOrder", 4), ("BadWord", 4), ("BadImageLine", 5), ("AddressOrder", 7)]
    texts: list[tuple[str, list[tuple[str, int]]]] = [
        ("IMAGE\n{}END\nFAULTS\nLAG 9 1 0 0\nRUN 5\n", [("BadLine", 11)]), ("{}END\n", []), ("{}", [("BadSection", 1)])]
    for text, more in texts:
        numbers = [(cause, number + text.startswith("IMAGE")) for cause, number in due]
        found = list(findings_of(text.format("".join(f"{it}\n" for it in lines)), worker))
        assert sorted((it.cause, it.number) for it in found) == sorted(numbers + more) and not any(it.is_last for it in found)
    late = list(findings_of("LVDC 2\nSTART 000000016\n0 00 000 000000001\nSIMPLEX 0\n4 00 000 000000001\nEND\n", worker))
    assert [(it.cause, it.number, it.is_last) for it in late] == [("BadImageLine", 4, True)]


HEADINGS = [["LVDC 1"], ["LVDC 2", "START 000000016", "SIMPLEX 0 2"], ["LVDC 2", "START 000000017", "SIMPLEX 1"]]
IMAGE_LINES = ["0 00 000 000017000", "0 00 001 000007001", "0 01 000 400000000", "0 1 000 000000001", "4 00 000 000000001", "5 00 000 000000001",
               "3 17 377 377777777", "3 18 000 000000001", "", "START 000000016"]


@given(st.sampled_from(HEADINGS), st.lists(st.sampled_from(IMAGE_LINES), min_size=1, max_size=9))
def test_what_is_refused_of_an_image_is_so_beside_the_line_above_it_alone(worker: Worker, heading: list[str], lines: list[str]) -> None:
    text = "".join(f"{it}\n" for it in (*heading, *lines, "END"))
    found = list(findings_of(text, worker))
    without_form = {it.number for it in found if it.cause == "BadImageLine"}
    for it in found:
        at = it.number - 1 - len(heading)
        above = [f"{lines[at - 1][:9]}000000000"] if at > 0 and it.number - 1 not in without_form else []
        alone = [*heading[:1], *(it.replace("17", "16") for it in heading[1:]), *above, lines[at], "END"] if at >= 0 else text.splitlines()
        with pytest.raises(lvdc.Refused) as refused:
            lvdc.form("".join(f"{it}\n" for it in ("IMAGE", *alone, "RUN 0")), worker=worker)
        assert refused.value.cause == it.cause or (it.cause, refused.value.cause) == ("BadWord", "AddressOrder")
    try:
        lvdc.form(f"IMAGE\n{text}RUN 0\n", worker=worker)
        assert not found
    except lvdc.Refused as refused_first:
        assert (refused_first.cause, (refused_first.number or 0) - 1) == (found[0].cause, found[0].number)


def test_a_refusal_that_was_told_elsewhere_is_shown(tmp_path: Path) -> None:
    path = tmp_path / "told.source"
    path.write_text(f"{FRONT}        STO   =D4\n{BACK}")
    assert told_lines("REFUSED BadOperand 3", path)[:3] == [f"{path}:3: BadOperand", "          STO   =D4", "                ^"]
    assert told_lines("LVDC 1", path) == []


@pytest.mark.parametrize("text, words", [
    ("0.75B0", "140000000"), ("-1", "200000000"), ("0.5", "100000000"), ("6.5B3", "150000000"), ("-0.25B1", "360000000"), ("0.1", "014631463")])
def test_a_fraction_is_a_word(text: str, words: str) -> None:
    assert fraction_line(text).startswith(f"OCT   {words}   {text}, DEC ")


@pytest.mark.parametrize("text", ["1", "-1.1", "x", "0.5B99", "1e5", "5B2", ".5", "0.5B", ""])
def test_what_is_no_fraction_is_refused(text: str) -> None:
    with pytest.raises(BadFraction):
        fraction_line(text)
