"""The devices at the ports (docs/MACHINE.md, "Ports and devices"; docs/FORMATS.md, "Command lines")."""
from collections.abc import Sequence


class Device:
    """A device that holds nothing and answers 0: each kind changes what it does otherwise."""
    kind = ""

    def __init__(self, port: int) -> None:
        self.port = port
        self.words: list[int] = []

    def supply(self, word: int) -> None:
        """Puts a word behind those that the device has."""

    def read(self, time: int) -> int:
        """The word that is read at this time."""
        return 0

    def write(self, word: int) -> None:
        """Takes a word."""


class Tape(Device):
    kind = "Tape"

    def supply(self, word: int) -> None:
        self.words.append(word)

    def read(self, time: int) -> int:
        return self.words.pop(0) if self.words else 0


class Latch(Device):
    kind = "Latch"

    def __init__(self, port: int) -> None:
        super().__init__(port)
        self.words = [0]

    def read(self, time: int) -> int:
        return self.words[0]

    def write(self, word: int) -> None:
        self.words = [word]


class Ticker(Device):
    kind = "Ticker"

    def read(self, time: int) -> int:
        return time % 2**26


class Recorder(Device):
    kind = "Recorder"

    def write(self, word: int) -> None:
        self.words.append(word)


def of_the_program() -> list[Device]:
    """The sixteen devices that the program brings."""
    return [Tape(port) for port in range(0o14)] + [Latch(0o14), Latch(0o15), Ticker(0o16), Recorder(0o17)]


def at_port(devices: Sequence[Device], port: int | None) -> Device | None:
    """The device at a port, or None."""
    return next((device for device in devices if device.port == port), None)


def supplied(devices: list[Device], supplies: Sequence[tuple[int, int]]) -> list[Device]:
    """The same devices, with the (port, word) of TAPE lines."""
    for port, word in supplies:
        device = at_port(devices, port)
        assert device is not None, "a TAPE line names a port without a device"
        device.supply(word)
    return devices


def read_port(devices: Sequence[Device], port: int, time: int) -> int:
    """The word that a port answers; 0 where no device is."""
    device = at_port(devices, port)
    return device.read(time) if device else 0


def write_port(devices: Sequence[Device], port: int, word: int) -> None:
    """Writes a word to a port."""
    device = at_port(devices, port)
    if device:
        device.write(word)


def unplug(devices: list[Device], unplugs: Sequence[tuple[int, int]], time: int) -> None:
    """Takes the devices away whose UNPLUG lines have this time."""
    for port, when in unplugs:
        if when == time:
            devices[:] = [device for device in devices if device.port != port]
