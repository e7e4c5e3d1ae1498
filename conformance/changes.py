"""Changes of the simulator that break one rule each: wrong/NAME.changes and wrong/NAME.unseen (see wrong-simulators), and the wrong
simulators that they make."""
import ast
import functools
import importlib
import importlib.abc
import importlib.machinery
import importlib.util
import pathlib
import sys
import types
from typing import NamedTuple

HERE = pathlib.Path(__file__).resolve().parent
MODULES = ["simulator", "simulation"]


class Change(NamedTuple):
    """A wrong simulator: the file that is changed, the rule that it breaks, and old and new texts."""
    file: str
    rule: str
    pairs: tuple[tuple[str, str], ...]


def read_changes(path: pathlib.Path) -> list[Change]:
    """The changes of a file."""
    changes: list[Change] = []
    rule, pairs = "", [["", ""]]

    def end_change() -> None:
        if rule:
            changes.append(Change(path.stem + ".py", rule, tuple((old, new) for old, new in pairs if old)))

    last = ""
    for line in path.read_text().split("\n"):
        if line.startswith("== "):
            end_change()
            rule, pairs = line[3:], [["", ""]]
        elif line[:1] in ("-", "+") and line[1:2] in (" ", ""):
            if line[0] == "-" and last == "+":
                pairs.append(["", ""])
            pairs[-1][line[0] == "+"] += ("\n" if pairs[-1][line[0] == "+"] else "") + line[2:]
        last = line[:1]
    end_change()
    return changes


def path_of(change: Change) -> pathlib.Path:
    """The file that a change changes."""
    return HERE / "simulator.py" if change.file == "simulator.py" else HERE / "simulation" / change.file


def changed_text(change: Change) -> str:
    """The file with its change."""
    text = path_of(change).read_text()
    for old, new in change.pairs:
        if text.count(old) != 1:
            sys.exit(f"{change.file}: {change.rule}: {old!r} stands {text.count(old)} times")
        text = text.replace(old, new)
    return text


def compiled(source: str | ast.Module, path: pathlib.Path, optimize: int = -1) -> types.CodeType:
    """The code of a module's source; assertions are as this program's own, or with 0 they hold."""
    code = compile(source, str(path), "exec", optimize=optimize)
    assert isinstance(code, types.CodeType)
    return code


@functools.cache
def code_of(path: pathlib.Path) -> types.CodeType:
    """The code of a file as it is."""
    return compiled(path.read_text(), path)


class Finder(importlib.abc.MetaPathFinder, importlib.abc.Loader):
    """Imports the simulator anew."""

    def code(self, path: pathlib.Path) -> types.CodeType:
        """The code of a file of it."""
        return code_of(path)

    def find_spec(self, name: str, _path: object = None, _target: object = None) -> importlib.machinery.ModuleSpec | None:
        """How a module of the simulator is imported."""
        if name.split(".")[0] not in MODULES:
            return None
        return importlib.util.spec_from_loader(name, self, is_package=name == "simulation")

    def exec_module(self, module: types.ModuleType) -> None:
        """Carries out a module's code."""
        name = module.__name__
        exec(self.code(HERE / "simulation" / "__init__.py" if name == "simulation" else HERE / (name.replace(".", "/") + ".py")),
             module.__dict__)


class Changed(Finder):
    """Imports the simulator with a change."""

    def __init__(self, change: Change) -> None:
        self.change = change

    def code(self, path: pathlib.Path) -> types.CodeType:
        """The code of a file, changed where that is the one."""
        return compiled(changed_text(self.change), path) if path.name == self.change.file else code_of(path)


def simulator_by(finder: Finder) -> types.ModuleType:
    """The simulator, in the place of what was imported of it before."""
    for name in [name for name in sys.modules if name.split(".")[0] in MODULES]:
        del sys.modules[name]
    sys.meta_path.insert(0, finder)
    try:
        return importlib.import_module("simulator")
    finally:
        sys.meta_path.remove(finder)


def wrong_simulator(change: Change) -> types.ModuleType:
    """The simulator with a change."""
    return simulator_by(Changed(change))
