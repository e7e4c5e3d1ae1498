"""What is read from the built programs, which are ELF files of 64 bits."""
import pathlib
import struct
from collections.abc import Iterator
from typing import NamedTuple

DYNAMIC_SYMBOLS = 11
GLOBAL = 1
UNDEFINED = 0


class Section(NamedTuple):
    """A section: its sort, where it begins, how long it is, and the section that goes with it."""
    sort: int
    begin: int
    size: int
    other: int


def sections(data: bytes) -> list[Section]:
    """The sections of a program."""
    if data[:6] != b"\x7fELF\x02\x01":
        raise ValueError("it is no ELF file of 64 bits")
    table, = struct.unpack_from("<Q", data, 0x28)
    size, count = struct.unpack_from("<HH", data, 0x3a)
    return [Section(*struct.unpack_from("<4xI16xQQI", data, table + at * size)) for at in range(count)]


def symbols(data: bytes) -> Iterator[str]:
    """The names of the symbols that another library must have."""
    found = sections(data)
    for it in found:
        if it.sort == DYNAMIC_SYMBOLS:
            for name, info, section in struct.iter_unpack("<IBxH16x", data[it.begin:it.begin + it.size]):
                if section == UNDEFINED and info >> 4 == GLOBAL:
                    begin = found[it.other].begin + name
                    yield data[begin:data.index(0, begin)].decode()


def imported(program: str) -> set[str]:
    """The names that a program takes from other libraries; weak ones, which may be missing, left out."""
    return set(symbols(pathlib.Path(program).read_bytes()))
