"""The command lvdc-check: lvdc-check FILE .., lvdc-check --fraction NUMBER .., or lvdc-check --told REFUSAL FILE."""
import signal
import sys
from collections.abc import Iterator, Sequence
from pathlib import Path

from lvdc.check.fractions import fraction_line
from lvdc.check.mending import MOST_FINDINGS, Finding, findings_of, told_of
from lvdc.errors import Error
from lvdc.lines import decode
from lvdc.refusals import Refused
from lvdc.streams import NO_MEMORY, complain, drop_output, leave, open_streams, read_file
from lvdc.workers import Asker, Worker

USAGE = """usage: lvdc-check FILE ..
       lvdc-check --fraction NUMBER ..
       lvdc-check --told REFUSAL FILE
FILE is a source, with macros or without, a deck or an image. NUMBER is as 0.75B0: decimal, with so many binary places before the point.
"""


def finding_lines(path: str, found: Finding) -> Iterator[str]:
    """A refusal in words: the file and the line, its text, a mark under the field, and a sentence."""
    yield f"{path}:{found.number}: {found.cause}" if found.number else f"{path}: {found.cause}"
    if found.line:
        shown = found.line.expandtabs()[:120]
        yield f"  {shown}".encode("utf-8", "replace").decode()
        if found.column is not None:
            yield f"  {' ' * len(found.line[:found.column].expandtabs())}^"
    if found.slip.sentence:
        yield f"  {found.slip.sentence}"


def check_file(path: Path, asker: Asker) -> Iterator[str]:
    """The refusals of a file."""
    findings = list(findings_of(decode(read_file(path)), asker))
    for it in sorted(findings, key=lambda it: it.number):
        yield from finding_lines(str(path), it)
    if findings and (findings[-1].is_last or len(findings) == MOST_FINDINGS):
        yield f"{path}: what stands behind that is looked at when it is mended"


def told_lines(refusal: str, path: Path) -> list[str]:
    """A refusal that the program has told of a file, in words; none where it is none."""
    text = decode(read_file(path))
    try:
        refused = Refused(3, f"{refusal.strip()}\n", text)
    except ValueError:
        return []
    return list(finding_lines(str(path), told_of(text, refused)))


def carry_out(words: Sequence[str]) -> int:
    """Does what the command line says; 1 where something is refused."""
    match list(words):
        case ["--help" | "-h"]:
            print(USAGE, end="")
            return 0
        case ["--fraction", first, *rest]:
            for it in (first, *rest):
                print(fraction_line(it))
            return 0
        case ["--told", refusal, path]:
            print("\n".join(told_lines(refusal, Path(path))))
            return 0
        case [first, *rest] if not any(it.startswith("-") for it in words):
            lines: list[str] = []
            with Worker() as worker:
                for it in (first, *rest):
                    lines += check_file(Path(it), worker)
            print("\n".join(lines), end="\n" if lines else "")
            return 1 if lines else 0
    complain(USAGE.rstrip("\n"))
    return 1


def main() -> None:
    """The command."""
    signal.signal(signal.SIGINT, signal.default_int_handler)
    open_streams()
    try:
        status = carry_out(sys.argv[1:])
        sys.stdout.flush()
    except KeyboardInterrupt:
        status = 130
    except Error as error:
        complain(f"lvdc-check: {error}")
        status = 1
    except OSError as error:
        drop_output()
        complain(f"lvdc-check: what is told can't be written: {error.strerror}")
        status = 1
    except MemoryError:
        complain(f"lvdc-check: {NO_MEMORY}")
        status = 1
    leave(status)
