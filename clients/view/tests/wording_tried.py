"""Tries the files of words: each fault is told with its file and its line, and what is missing is English."""
import pathlib
import subprocess
import tempfile

from tally import expect

TOOL = pathlib.Path(__file__).resolve().parent.parent / "check-words"
WRONG = {
    "language Italiano\nbus pullman {x}\n": "line 2: bus has nothing in braces",
    "language Italiano\ntwin memoria\n": "line 2: twin has {twin} in braces",
    "language Italiano\nbuss pullman\n": "line 2: there is no key buss",
    "language Italiano\n\n# note\nbus\n": "line 4: bus has no sentence",
    "language Italiano\nbus a\nbus b\n": "line 3: bus stands here twice",
    "language Italiano\nop.SHF sposta\n": "line 2: op.SHF stands on a lamp",
    "bus pullman\n": "line 1: there is no line with the key language",
    "language Fran\udce7ais\n": "line 1: this is no UTF-8",
}


def checked(name: str, text: str) -> tuple[int, str]:
    """The status and the words of the checker about a file of this text."""
    with tempfile.TemporaryDirectory() as folder:
        (pathlib.Path(folder) / name).write_bytes(text.encode(errors="surrogateescape"))
        done = subprocess.run([TOOL, folder], capture_output=True, text=True, check=False)
    return done.returncode, done.stdout + done.stderr


def try_wording() -> None:
    """Those that are there have no fault, and each wrong line is found."""
    status, told = checked("it.txt", "\ufefflanguage  Italiano\nbus  l'autobus \"rosso\" <b>\n")
    expect("words: a language with two sentences", [status, "it: Italiano, 2 sentences, " in told, "was made anew" in told], [0, True, False])
    for text, fault in WRONG.items():
        status, told = checked("it.txt", text)
        expect(f"words: {text!r}", [status, f"it.txt, {fault}" in told, told.count("\n")], [1, True, 1])
    for target, fault in (("/", "Is a directory"), ("/nothing", "No such file"), ("/dev/zero", "more than")):
        with tempfile.TemporaryDirectory() as folder:
            pathlib.Path(folder, "it.txt").symlink_to(target)
            done = subprocess.run([TOOL, folder], capture_output=True, text=True, check=False)
        expect(f"words: a link to {target}", [done.returncode, done.stderr.startswith("it.txt, line 0: "), fault in done.stderr], [1, True, True])
    expect("words: a name that is none of a language", checked("notes.final.txt", "language x\n")[0], 1)
