"""How the kit is asked to check and to build a program once more, over libraries that are built."""
import functools
import pathlib
import re
import subprocess

TOP = pathlib.Path(__file__).resolve().parent.parent
PROGRAMS = {"lvdc": "lvdc_main", "lvdc-worker": "lvdc_worker"}


@functools.cache
def kit() -> pathlib.Path:
    """The folder of the kit."""
    page = pathlib.Path(subprocess.run(["rt", "doc"], stdout=subprocess.PIPE, text=True, check=True).stdout.strip())
    return next(it for it in page.parents if (it / "bin" / "rattle").exists())


def words_of(crate: str, tree: pathlib.Path) -> list[str]:
    """What `rattle` is told of a program's crate, whose libraries `rt ci` has built in a tree."""
    stands = dict(re.findall(r"^(lvdc_\w+):(.*)$", (tree / "crates.txt").read_text(), re.MULTILINE))
    libraries = {name: tree / "crates" / name / "out" / "rlib" for name in stands}
    words = ["--crate-name", crate, "src/main.rt", "--extern", f"std={kit()}/rlibs/std.rlib", "-L", f"dependency={kit()}/rlibs"]
    for name in stands[crate].split():
        words += ["--extern", f"{name}={libraries[name]}/{name}.rlib"]
    for place in libraries.values():
        words += ["-L", f"dependency={place}"] if place.exists() else []
    return [*words, "--antt-project", f"{kit()}/rattle/logic/antt-project.json", "--links", f"{crate}="]


def check(crate: str, tree: pathlib.Path, *flags: str) -> str:
    """What the kit says of a program when it checks it."""
    words = [f"{kit()}/bin/rattle", "check", *words_of(crate, tree), "--logic-built", f"{kit()}/logic_built", *flags]
    return subprocess.run(words, cwd=tree / "crates" / crate, stdout=subprocess.PIPE, stderr=subprocess.STDOUT, text=True, check=False).stdout


def build(crate: str, tree: pathlib.Path, toolchain: pathlib.Path, room: pathlib.Path) -> pathlib.Path:
    """The object file of a program, which the kit checks and compiles by the tools of a folder."""
    check(crate, tree, "-o", str(room / "checked"))
    words = [f"{kit()}/bin/rattle", "build", *words_of(crate, tree), "--crate-checked", str(room / "checked"), "--toolchain", str(toolchain),
             "--backend", "llvm", "-o", str(room / "program.o")]
    subprocess.run(words, cwd=tree / "crates" / crate, stdout=subprocess.DEVNULL, check=True)
    return room / "program.o"


def link(made: pathlib.Path, program: pathlib.Path) -> pathlib.Path:
    """A program of an object file, linked as the kit links it."""
    words = [f"{kit()}/bin/rattle-link", "--target", "x86_64-unknown-linux-gnu", "--toolchain", f"{kit()}/toolchain", "-o", str(program), str(made),
             f"{kit()}/c/libos_c.a", f"{kit()}/c/liblibc_c.a"]
    subprocess.run(words, check=True)
    return program
