"""What the lab's page may ask: a few requests of lvdc-worker, each over the deck that comes with it. Nothing is kept between them."""
import re
import threading
import time

from gate import Refusal
from lvdc.pools import Pool
from lvdc.workers import NoWorker, Reply, TimeLimit, WorkerFailed

MOST_SECONDS = 2.0
MOST_SECONDS_WAITED = 1.0
# a question that has waited too long in a line of others
LEAST_SECONDS = 0.001
MOST_STEPS = 6000
MOST_ANSWER = 8_388_608
WHOLE = [["run"], ["run", "--through"], ["form"], ["asm"]]
STATE = re.compile("save/(?:0|[1-9][0-9]{0,6})")
WINDOW = re.compile("trace/(?:--through/)?(?:0|[1-9][0-9]{0,6})/([1-9][0-9]{0,3})")


def words_of(path: str) -> list[str]:
    """The words of a request, which stand in its path parted by slashes. Raises Refusal."""
    words = path.split("/")
    window = WINDOW.fullmatch(path)
    if words in WHOLE or STATE.fullmatch(path) or (window is not None and int(window[1]) <= MOST_STEPS):
        return words
    raise Refusal(404, f"This can't be asked. A window of a trace has at most {MOST_STEPS} steps.")


class Asker:
    """Asks the workers of a pool, as many questions at once as there are workers."""

    def __init__(self, pool: Pool) -> None:
        self._pool, self._free = pool, threading.Semaphore(len(pool))

    def asked(self, words: list[str], deck: bytes, since: float) -> Reply:
        """What a worker answers, within the limits of time and length; the time counts since this moment. Raises Refusal."""
        if not self._free.acquire(timeout=max(0.0, since + MOST_SECONDS_WAITED - time.monotonic())):
            raise Refusal(503, "Too many ask at once. Ask again in a second.")
        try:
            reply = self._pool.ask(words, deck, max(LEAST_SECONDS, since + MOST_SECONDS - time.monotonic()))
        except TimeLimit as late:
            raise Refusal(504, f"The answer took more than {MOST_SECONDS:.0f} seconds. Take fewer instruction times.") from late
        except WorkerFailed as failed:
            raise Refusal(502, "The worker has ended while it was asked.") from failed
        except NoWorker as none:
            raise Refusal(502, "The worker can't be started.") from none
        finally:
            self._free.release()
        if len(reply.text) > MOST_ANSWER:
            raise Refusal(507, f"The answer has more than {MOST_ANSWER} bytes. Take fewer instruction times.")
        return reply
