"""The reference is made of the docstrings, and their examples are run."""
import doctest
import importlib
import inspect
import pkgutil
import re
import shutil
import subprocess
import sys
import tempfile
from pathlib import Path
from types import ModuleType

import pytest
from conftest import TOP

import lvdc
from lvdc import Worker, models, plots, scripts

MODULES = [importlib.import_module(it.name) for it in pkgutil.walk_packages(lvdc.__path__, "lvdc.") if not re.search(r"\.(lvdb|check)\b", it.name)]


def test_the_reference_has_each_public_name() -> None:
    found = subprocess.run([sys.executable, TOP / "docs" / "reference"], capture_output=True, text=True, check=True)
    assert {it for it in lvdc.__all__ if inspect.isfunction(getattr(lvdc, it))} <= set(re.findall(r"^### (\w+)$", found.stdout, re.MULTILINE))


@pytest.mark.parametrize("module", [lvdc, *MODULES], ids=lambda it: str(it.__name__))
def test_examples_are_run(module: ModuleType, worker: Worker, monkeypatch: pytest.MonkeyPatch) -> None:
    monkeypatch.setenv("LVDC_WORKER", str(worker.program))
    if module is plots:
        pytest.importorskip("matplotlib")
    assert doctest.testmod(module).failed == 0


def test_each_public_function_and_class_says_what_it_is_and_has_an_example() -> None:
    public = [(lvdc, lvdc.__all__), (models, dir(models)), (plots, ["share", "failures", "propagation", "axes"]), (scripts, scripts.__all__)]
    asked = [getattr(module, name) for module, names in public for name in names if inspect.isfunction(getattr(module, name))]
    without = {it.__name__ for it in asked if not it.__name__.startswith(("_", "check", "is_")) and ">>> " not in (it.__doc__ or "")}
    assert without == {"drawn_by"}
    for name in lvdc.__all__:
        value = getattr(lvdc, name)
        assert not isinstance(value, type) or value.__doc__


@pytest.mark.skipif(shutil.which("mypy") is None, reason="mypy isn't there")
def test_examples_are_typed(tmp_path: Path) -> None:
    finder = doctest.DocTestFinder(exclude_empty=True)
    written: dict[str, str] = {}
    for module in [lvdc, *MODULES]:
        for found in finder.find(module):
            if found.examples and found.name.startswith(module.__name__):
                written[found.name] = "".join(it.source for it in found.examples)
    files = []
    for at, text in enumerate(written.values()):
        files.append(tmp_path / f"example_{at}.py")
        files[-1].write_text(text)
    cache = Path(tempfile.gettempdir()) / "mypy-of-examples"
    words = ["mypy", "--strict", "--no-error-summary", "--config-file", str(TOP / ".ci" / "mypy.ini"), "--cache-dir", str(cache), *map(str, files)]
    told = subprocess.run(words, cwd=TOP, capture_output=True, text=True, check=False)
    assert told.returncode == 0, told.stdout
