#!/usr/bin/env python3
"""Makes the wheel of the package for Python: clients/python/backend.py VERSION WORKER FOLDER

It is also what `pip install ./clients/python` calls (PEP 517, PEP 660). A wheel has the sources and, where there is one, the program lvdc-worker: the
one that is named, else the one that ./build left above this folder. With it the wheel is for Linux on x86-64; without it any system takes
it, and a worker is looked for on the path. Nothing is fetched, and one tree with one worker gives the same bytes."""
import base64
import hashlib
import os
import pathlib
import re
import sys
import time
import zipfile
from typing import Any

HERE = pathlib.Path(__file__).resolve().parent
SOURCES = HERE / "src" / "lvdc"
BUILT = HERE.parents[1] / "lvdc-worker"
WITH_WORKER, WITHOUT = "py3-none-linux_x86_64", "py3-none-any"
EARLIEST = 315_532_800  # a zip knows no time before 1980

Parts = dict[str, tuple[bytes, int]]  # the files of a wheel, with their modes


def version() -> str:
    """The version that the sources say."""
    found = re.search('__version__ = "(.*)"', (SOURCES / "version.py").read_text(encoding="ascii"))
    assert found is not None
    return found[1]


def sources(named: str) -> Parts:
    """The files of the package, which say this version."""
    paths = [it for it in sorted(SOURCES.rglob("*")) if it.suffix == ".py" or it.name == "py.typed"]
    parts: Parts = {it.relative_to(SOURCES.parent).as_posix(): (it.read_bytes(), 0o644) for it in paths}
    parts["lvdc/version.py"] = (parts["lvdc/version.py"][0].replace(f'"{version()}"'.encode(), f'"{named}"'.encode()), 0o644)
    return parts


def metadata(named: str, tag: str) -> Parts:
    """What pip asks of a package that is there."""
    extras = {"table": "pandas", "plot": "matplotlib", "bar": "tqdm", "prompt": "prompt_toolkit"}
    wants = "".join(f'Provides-Extra: {extra}\nRequires-Dist: {name}; extra == "{extra}"\n' for extra, name in extras.items())
    folder = f"lvdc-{named}.dist-info"
    text = (f"Metadata-Version: 2.1\nName: lvdc\nVersion: {named}\n"
            "Summary: Decks, reports, traces and studies of the Saturn V's computer as objects, over the proved program lvdc-worker\n"
            f"License: Apache-2.0\nRequires-Python: >=3.11\n{wants}Description-Content-Type: text/markdown\n\n"
            + (HERE / "README.md").read_text(encoding="utf-8"))
    wheel = f"Wheel-Version: 1.0\nGenerator: lvdc\nRoot-Is-Purelib: {'true' if tag == WITHOUT else 'false'}\nTag: {tag}\n"
    return {f"{folder}/METADATA": (text.encode(), 0o644), f"{folder}/WHEEL": (wheel.encode(), 0o644),
            f"{folder}/entry_points.txt": (b"[console_scripts]\nlvdb = lvdc.lvdb.main:main\nlvdc-check = lvdc.check.main:main\n", 0o644)}


def write(folder: pathlib.Path, named: str, tag: str, parts: Parts) -> str:
    """Writes a wheel, with the record of its files, and gives its name."""
    lines = [f"{name},sha256={base64.urlsafe_b64encode(hashlib.sha256(data).digest()).rstrip(b'=').decode()},{len(data)}\n"
             for name, (data, _) in parts.items()]
    record = f"lvdc-{named}.dist-info/RECORD"
    parts = {**parts, record: ("".join([*lines, f"{record},,\n"]).encode(), 0o644)}
    moment = time.gmtime(max(EARLIEST, int(os.environ.get("SOURCE_DATE_EPOCH", EARLIEST))))[:6]
    name = f"lvdc-{named}-{tag}.whl"
    with zipfile.ZipFile(folder / name, "w", zipfile.ZIP_DEFLATED) as file:
        for path, (data, mode) in parts.items():
            info = zipfile.ZipInfo(path, moment)
            info.external_attr = (0o100000 | mode) << 16
            info.compress_type = zipfile.ZIP_DEFLATED
            file.writestr(info, data)
    return name


def make(folder: pathlib.Path, named: str, worker: pathlib.Path | None) -> str:
    """A wheel of the sources, with the worker where there is one."""
    tag = WITHOUT if worker is None else WITH_WORKER
    inside: Parts = {} if worker is None else {"lvdc/lvdc-worker": (worker.read_bytes(), 0o755)}
    return write(folder, named, tag, {**sources(named), **inside, **metadata(named, tag)})


# ---- what pip calls


def build_wheel(wheel_directory: str, config_settings: Any = None, metadata_directory: str | None = None) -> str:
    """A wheel with the worker that ./build left."""
    return make(pathlib.Path(wheel_directory), version(), BUILT if os.access(BUILT, os.X_OK) else None)


def build_editable(wheel_directory: str, config_settings: Any = None, metadata_directory: str | None = None) -> str:
    """A wheel that names the folder of the sources, above which the worker is found."""
    pth: Parts = {"lvdc.pth": (f"{SOURCES.parent}\n".encode(), 0o644)}
    return write(pathlib.Path(wheel_directory), version(), WITHOUT, {**pth, **metadata(version(), WITHOUT)})


def build_sdist(sdist_directory: str, config_settings: Any = None) -> str:
    """None: the sources are the repository."""
    raise NotImplementedError("there is no source distribution of lvdc: install from a clone")


if __name__ == "__main__":
    if len(sys.argv) != 4 or not os.access(sys.argv[2], os.X_OK) or not os.path.isdir(sys.argv[3]):
        sys.exit("usage: clients/python/backend.py VERSION WORKER FOLDER")
    print(make(pathlib.Path(sys.argv[3]), sys.argv[1], pathlib.Path(sys.argv[2])))
