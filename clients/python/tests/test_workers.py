"""Workers and pools, over a stand-in that dies, sleeps and writes what is no reply."""
import os
import threading
import time
from collections.abc import Iterator
from pathlib import Path

import pytest

from lvdc import NoMemory, NotACommand, NoWorker, Pool, Refused, Request, TimeLimit, Worker, WorkerFailed, ask
from lvdc.workers import find_worker, frame_of


@pytest.fixture
def fake(program: Path) -> Iterator[Worker]:
    """A worker over the stand-in."""
    with Worker(program) as worker:
        yield worker


def starts(program: Path) -> int:
    """How often the stand-in was started."""
    return len((program.parent / "log").read_text().splitlines())


def test_one_process_answers_many_requests(fake: Worker, program: Path) -> None:
    for text in [b"", b"A\n", bytes(range(256)) * 5000]:
        assert fake.ask(["echo"], text).text == text
    assert starts(program) == 1


def test_the_streams_of_a_worker_block(fake: Worker) -> None:
    """One that doesn't block is a read or a write that fails, where nothing is there or there is no room."""
    assert fake.ask(["blocking"]).text == b"[True, True]"


def test_a_worker_that_has_gone_is_started_again(fake: Worker, program: Path) -> None:
    assert fake.ask(["die", "once"]).text == b"done\n"
    assert starts(program) == 2


def test_a_worker_that_dies_twice_has_failed_and_goes_on(fake: Worker, program: Path) -> None:
    with pytest.raises(WorkerFailed):
        fake.ask(["die"])
    assert starts(program) == 2
    assert fake.ask(["echo"], b"X").text == b"X"


@pytest.mark.parametrize("word", ["garbage", "more"])
def test_what_is_no_reply_is_a_failure(fake: Worker, word: str) -> None:
    with pytest.raises(WorkerFailed):
        fake.ask([word])


def test_a_time_limit_ends_the_worker_alone(fake: Worker) -> None:
    began = time.monotonic()
    with pytest.raises(TimeLimit):
        fake.ask(["sleep", "30"], limit=0.3)
    assert time.monotonic() - began < 5
    assert fake.ask(["echo"], b"X", limit=20).text == b"X"


def test_a_worker_is_safe_from_threads(fake: Worker) -> None:
    wrong: list[int] = []

    def go(number: int) -> None:
        """Asks again and again, and notes wrong replies."""
        text = b"%d" % number * 1000
        wrong.extend(number for _ in range(50) if fake.ask(["echo"], text).text != text)

    threads = [threading.Thread(target=go, args=(it,)) for it in range(8)]
    for thread in threads:
        thread.start()
    for thread in threads:
        thread.join()
    assert not wrong


def test_a_pool_answers_in_order(program: Path) -> None:
    with Pool(3, program=program) as pool:
        requests = (Request(("echo",), b"%d" % it) for it in range(200))
        assert [int(it.text) for it in pool.ask_each(requests)] == list(range(200))
        requests = (Request(("echo",), b"%d" % it) for it in range(50))
        assert [int(it.text) for it in pool.ask_each(requests, chunk=7)] == list(range(50))
        assert starts(program) <= 3
        with pytest.raises(WorkerFailed):
            list(pool.ask_each([Request(("echo",)), Request(("die",)), Request(("echo",))]))
        assert pool.ask(["echo"], b"X").text == b"X"


def test_an_exception_ends_a_pool_at_once(program: Path) -> None:
    began = time.monotonic()
    with pytest.raises(KeyboardInterrupt), Pool(2, program=program) as pool:
        threading.Thread(target=lambda: pytest.raises(WorkerFailed, pool.ask, ["sleep", "30"]), daemon=True).start()
        pool.ask(["echo"])
        raise KeyboardInterrupt
    assert time.monotonic() - began < 10


def test_a_killed_worker_isnt_started_again(fake: Worker, program: Path) -> None:
    fake.ask(["echo"])
    fake.kill()
    with pytest.raises(WorkerFailed):
        fake.ask(["echo"])
    assert starts(program) == 1


def test_a_child_has_a_worker_of_its_own(fake: Worker, program: Path) -> None:
    fake.ask(["echo"])
    child = os.fork()
    if child == 0:
        fine = fake.ask(["echo"], b"child").text == b"child"
        fake.close()
        os._exit(0 if fine else 1)
    assert os.waitstatus_to_exitcode(os.waitpid(child, 0)[1]) == 0
    assert fake.ask(["echo"], b"parent").text == b"parent"
    assert starts(program) == 2


def test_statuses_are_told_apart(fake: Worker) -> None:
    assert ask(["status", "5"], "text\n", worker=fake) == "text\n"
    with pytest.raises(NotACommand):
        ask(["status", "1"], "usage\n", worker=fake)
    with pytest.raises(NoMemory):
        ask(["status", "9"], worker=fake)
    with pytest.raises(Refused) as caught:
        ask(["status", "10"], "REFUSED Device 014\n", worker=fake)
    assert (caught.value.cause, caught.value.status) == ("Device", 10)


@pytest.mark.parametrize("words", [[], ["a"] * 9, ["two words"], ["\n"], ["A" * 250]])
def test_words_that_fit_no_frame_are_refused_here(words: list[str]) -> None:
    with pytest.raises(ValueError, match="words"):
        frame_of(words, b"")


def test_a_worker_is_found_or_it_is_said_what_to_do(program: Path, monkeypatch: pytest.MonkeyPatch) -> None:
    monkeypatch.setenv("LVDC_WORKER", str(program))
    assert find_worker() == program.resolve()
    monkeypatch.setenv("LVDC_WORKER", str(program.parent / "none"))
    with pytest.raises(NoWorker, match="LVDC_WORKER names"):
        find_worker()
    monkeypatch.delenv("LVDC_WORKER")
    monkeypatch.setenv("PATH", str(program.parent))
    assert find_worker().name == "lvdc-worker"


def test_a_program_that_is_none(tmp_path: Path) -> None:
    with pytest.raises(NoWorker, match="is no program"):
        Worker(tmp_path / "none")


def test_a_program_in_this_folder_is_not_looked_for_elsewhere(program: Path, monkeypatch: pytest.MonkeyPatch) -> None:
    monkeypatch.chdir(program.parent)
    assert Worker(f"./{program.name}").program == program.resolve()
    with pytest.raises(NoWorker, match="is no program"):
        Worker("./ls")


def test_a_program_that_cant_be_started(tmp_path: Path) -> None:
    broken = tmp_path / "broken"
    broken.write_text("#!/none\n")
    broken.chmod(0o755)
    with pytest.raises(NoWorker, match="can't be started"):
        Worker(broken).ask(["run"])
