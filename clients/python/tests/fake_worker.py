"""A stand-in for lvdc-worker: it answers what the word says, and keeps its number of starts in a file where it is named."""
import os
import sys
import time


def main() -> None:
    """Answers frames until the input ends."""
    log = os.environ.get("FAKE_WORKER_LOG")
    if log:
        with open(log, "a", encoding="ascii") as file:
            file.write("started\n")
    while line := sys.stdin.buffer.readline():
        _, size, *words = line.decode().split()
        given = sys.stdin.buffer.read(int(size))
        status, text = answer(words, given, log)
        sys.stdout.buffer.write(b"REPLY %d %d\n" % (status, len(text)) + text)
        sys.stdout.buffer.flush()


def answer(words: list[str], given: bytes, log: str | None) -> tuple[int, bytes]:
    """The status and the text of a request."""
    match words:
        case ["echo"]:
            return 0, given
        case ["status", number]:
            return int(number), given
        case ["sleep", seconds]:
            time.sleep(float(seconds))
        case ["blocking"]:
            return 0, repr([os.get_blocking(stream) for stream in (0, 1)]).encode()
        case ["die"]:
            os._exit(3)
        case ["die", "once"] if log and sum(1 for _ in open(log, encoding="ascii")) == 1:
            os._exit(3)
        case ["garbage"]:
            sys.stdout.buffer.write(b"REPLY what\n")
        case ["more"]:
            sys.stdout.buffer.write(b"REPLY 0 1\nABC")
            sys.stdout.buffer.flush()
            time.sleep(10)
    return 0, b"done\n"


if __name__ == "__main__":
    main()
