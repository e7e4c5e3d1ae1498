"""Workers end with the objects that stand for them, pools stand over any executor, and a study that was killed goes on."""
import gc
import importlib.util
import os
import signal
import subprocess
import sys
import time
from collections.abc import Iterator
from concurrent.futures import ProcessPoolExecutor, ThreadPoolExecutor
from pathlib import Path
from typing import Any

import pytest
from conftest import TOP

import lvdc
from lvdc import Closed, Pool, Request, Worker, scripts

DECK = lvdc.Deck.read((TOP / "examples" / "multiply.deck").read_text())


def children() -> set[int]:
    """The processes that this one has started and that are still there."""
    found = set()
    for folder in Path("/proc").glob("[0-9]*"):
        try:
            words = (folder / "stat").read_text().rpartition(")")[2].split()
        except OSError:
            continue
        if int(words[1]) == os.getpid() and words[0] != "Z":
            found.add(int(folder.name))
    return found


@pytest.fixture
def before() -> Iterator[set[int]]:
    """The processes of before."""
    gc.collect()
    yield children()


def test_eight_runs_of_a_cell_leave_four_workers(program: Path, before: set[int]) -> None:
    names = {"lvdc": lvdc, "program": program, "requests": [Request(("sleep", "0.05"))] * 8}
    for _ in range(8):
        exec("pool = lvdc.Pool(4, program=program)\nreplies = list(pool.ask_each(requests))", names)
        gc.collect()
    assert len(children() - before) == 4
    del names["pool"]
    gc.collect()
    assert not children() - before


def test_a_worker_ends_with_its_object(program: Path, before: set[int]) -> None:
    worker = Worker(program)
    worker.ask(["echo"])
    assert len(children() - before) == 1
    del worker
    gc.collect()
    assert not children() - before


def test_what_is_closed_refuses(program: Path, before: set[int]) -> None:
    pool = Pool(2, program=program)
    both: list[Worker | Pool] = [Worker(program), pool]
    for it in both:
        it.ask(["echo"])
        it.close()
        with pytest.raises(Closed, match="was closed: make another one"):
            it.ask(["echo"])
    with pytest.raises(Closed):
        pool.ask_each([Request(("echo",))])
    assert not children() - before


def test_a_killed_worker_of_a_pool_is_replaced(program: Path) -> None:
    with Pool(1, program=program) as pool:
        pool.ask(["echo"])
        pool._workers[0].kill()
        assert pool.ask(["echo"], b"X").text == b"X"
        assert [int(it.text) for it in pool.ask_each(Request(("echo",), b"%d" % it) for it in range(9))] == list(range(9))


def test_the_shared_worker_is_replaced(program: Path, monkeypatch: pytest.MonkeyPatch) -> None:
    monkeypatch.setenv("LVDC_WORKER", str(program))
    monkeypatch.setattr("lvdc.commands._SHARED", [])
    for end in (Worker.close, Worker.kill):
        end(lvdc.shared_worker())
        assert lvdc.ask(["echo"], "X\n") == "X\n"
    os.kill(next(it for it in children() if "fake_worker" in Path(f"/proc/{it}/cmdline").read_text()), signal.SIGKILL)
    assert lvdc.ask(["echo"], "X\n") == "X\n"
    lvdc.shared_worker().close()


def test_a_pool_over_processes_and_threads(program: Path) -> None:
    for executor in (ProcessPoolExecutor(2), ThreadPoolExecutor(2)):
        with executor, Pool(program=program, executor=executor) as pool:
            assert len(pool) == 2
            assert [int(it.text) for it in pool.ask_each(Request(("echo",), b"%d" % it) for it in range(40))] == list(range(40))
            assert pool.ask(["echo"], b"X").text == b"X"


@pytest.mark.skipif(importlib.util.find_spec("distributed") is None, reason="dask's distributed isn't there")
def test_a_pool_over_the_executor_of_dask(program: Path) -> None:
    distributed: Any = importlib.import_module("distributed")
    with distributed.Client(n_workers=1, threads_per_worker=2, processes=False, dashboard_address=None) as client:
        pool = Pool(2, program=program, executor=client.get_executor())
        assert [int(it.text) for it in pool.ask_each(Request(("echo",), b"%d" % it) for it in range(20))] == list(range(20))


def test_a_study_over_processes(worker: Worker) -> None:
    kind = scripts.pairs(DECK, modules=[5], bits=[0, 1])
    with ProcessPoolExecutor(2) as executor, Pool(program=worker.program, executor=executor) as pool:
        assert lvdc.study(DECK, kind, worker=pool, at_once=40) == lvdc.study(DECK, kind, worker=worker)


def test_a_study_comes_row_by_row(worker: Worker) -> None:
    rows = lvdc.study_each(DECK, scripts.pairs(DECK), worker=worker, at_once=10)
    assert next(rows).name == "F0000001"
    rows.close()  # type: ignore[attr-defined]


STUDY = """
import os, sys
import lvdc
deck = lvdc.Deck.read(open(sys.argv[1]).read())
for count, row in enumerate(lvdc.study_each(deck, lvdc.scripts.pairs(deck, modules=[5]), keep=sys.argv[2], at_once=50), 1):
    if count == int(sys.argv[3]):
        os.kill(os.getpid(), 9)
"""


def test_a_study_that_was_killed_goes_on_to_the_same_bytes(worker: Worker, tmp_path: Path) -> None:
    kind = scripts.pairs(DECK, modules=[5])
    whole = lvdc.study(DECK, kind, worker=worker, keep=tmp_path / "whole")
    text = (tmp_path / "whole").read_text()
    assert text == "".join(f"{it}\n" for it in whole) + text.split("\n")[-2] + "\n"
    assert lvdc.StudyRows.read(text).scripts == len(whole) == len(kind)
    names = {**os.environ, "PYTHONPATH": str(TOP / "clients" / "python" / "src"), "LVDC_WORKER": str(worker.program)}
    words = [sys.executable, "-c", STUDY, str(TOP / "examples" / "multiply.deck"), str(tmp_path / "kept")]
    for count in (120, len(kind) * 99 // 100):
        assert subprocess.run([*words, str(count)], env=names, check=False).returncode == -signal.SIGKILL
        assert 0 < (tmp_path / "kept").stat().st_size < (tmp_path / "whole").stat().st_size
    with open(tmp_path / "kept", "a", encoding="ascii") as file:
        file.write("SCRIPT F00")
    began = time.monotonic()
    assert lvdc.study(DECK, kind, worker=worker, keep=tmp_path / "kept", at_once=77) == whole
    assert (tmp_path / "kept").read_text() == text
    assert time.monotonic() - began < 30
    assert lvdc.study(DECK, kind, worker=worker, keep=tmp_path / "kept") == whole


def test_a_study_whose_rows_have_not_come_to_the_disk_goes_on(worker: Worker, tmp_path: Path) -> None:
    kind = scripts.pairs(DECK, modules=[5])
    whole = lvdc.study(DECK, kind, worker=worker, keep=tmp_path / "kept", at_once=50)
    text, marks = (tmp_path / "kept").read_bytes(), (tmp_path / "kept.made-of").read_bytes()
    for size, behind in ((len(text) // 2, b""), (0, b""), (len(text), b"\0" * 100), (len(text) // 3, b"12 ab")):
        (tmp_path / "kept").write_bytes(text[:size])
        (tmp_path / "kept.made-of").write_bytes(marks + behind)
        assert lvdc.study(DECK, kind, worker=worker, keep=tmp_path / "kept", at_once=70) == whole
        assert (tmp_path / "kept").read_bytes() == text
        assert lvdc.study(DECK, kind, worker=worker, keep=tmp_path / "kept") == whole


def test_two_studies_at_once_are_not_at_work_in_one_file(worker: Worker, tmp_path: Path) -> None:
    kind = scripts.pairs(DECK, modules=[5])
    first = lvdc.study_each(DECK, kind, worker=worker, keep=tmp_path / "kept", at_once=50)
    rows = [next(first)]
    with pytest.raises(FileExistsError, match="another study is at work"):
        lvdc.study(DECK, kind, worker=worker, keep=tmp_path / "kept")
    rows += first
    assert list(lvdc.study(DECK, kind, worker=worker, keep=tmp_path / "kept")) == rows


def test_a_file_of_another_study_is_refused(worker: Worker, tmp_path: Path) -> None:
    kind = scripts.pairs(DECK, modules=[3])
    lvdc.study(DECK, kind, worker=worker, keep=tmp_path / "kept")
    for deck, other in ((DECK, scripts.pairs(DECK, modules=[4])), (lvdc.Deck(DECK.program, DECK.count + 1), kind),
                        (DECK, scripts.pairs(DECK, modules=[3], bits=[0])), (DECK, scripts.pairs(DECK, modules=[3, 4]))):
        with pytest.raises(ValueError, match="name a new file"):
            lvdc.study(deck, other, worker=worker, keep=tmp_path / "kept")
    (tmp_path / "mine").write_text("mine")
    with pytest.raises(FileExistsError, match="name a new file"):
        lvdc.study(DECK, kind, worker=worker, keep=tmp_path / "mine")
    assert (tmp_path / "mine").read_text() == "mine"
