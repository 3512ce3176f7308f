"""The ids of records, granules of locks and their modes."""
from __future__ import annotations

import enum
from typing import NamedTuple, Union

from .faults import BadGlobalId, TooLong

#: A record has no more bytes than this in files of any version; the program refuses more than 4,000 in those of version 1.
LONGEST_RECORD = 12_000
#: The name of a prepared transaction has one byte at least, and no more than this in files of any version; in those of version 1 no more than 64.
LONGEST_NAME = 255

# Numbers of stores and pages, and of slots, are below these.
MOST_PAGES, MOST_SLOTS = 1 << 32, 1 << 16


class Rid(NamedTuple):
    """The id of a record: its store, the page in it, and the slot of the page, each from 0. It stays while the record is there."""

    store: int
    page: int
    slot: int

    def __str__(self) -> str:
        store, page, slot = self
        if 0 <= store < MOST_PAGES and 0 <= page < MOST_PAGES and 0 <= slot < MOST_SLOTS:
            return f"{store:d}.{page:d}.{slot:d}"
        raise ValueError(f"no id of a record: {self!r}")

    @classmethod
    def of(cls, text: str) -> Rid:
        """The id of a text such as `0.0.0`."""
        store, page, slot = text.split(".")
        return cls(int(store), int(page), int(slot))


class Mode(enum.Enum):
    """
    A mode of locks: to read (SH), to read and then change (UD), to change (EX), and the intentions to do so below (IS, IX, SIX).
    """

    IS = "IS"
    IX = "IX"
    SH = "SH"
    SIX = "SIX"
    UD = "UD"
    EX = "EX"


class Volume(enum.Enum):
    """The granule of all stores."""

    ALL = "v"


VOLUME = Volume.ALL

#: What may be locked: all stores, a store by its number, a page as a pair, a record by its id.
Granule = Union[Volume, int, "tuple[int, int]", Rid]
#: What is taken for the bytes of a record or of a name.
Bytes = Union[bytes, bytearray, memoryview]

# A line that the program does not know ends it for all who use the store: so each word is looked at before it is sent.


def text_of_rid(rid: Rid) -> str:
    if not isinstance(rid, Rid):
        raise TypeError(f"the id of a record is a Rid, not {rid!r}")
    return str(rid)


def text_of_number(number: int, below: int = MOST_PAGES) -> str:
    """A store or a page, by its number, or another one that the program takes up to this."""
    if not isinstance(number, int):
        raise TypeError(f"a number is an int, not {number!r}")
    if not 0 <= number < below:
        raise ValueError(f"no number from 0 to {below - 1}: {number!r}")
    return f"{number:d}"


def text_of_granule(granule: Granule) -> str:
    """The word for a granule. A number that no line of the program has is a `ValueError`."""
    if isinstance(granule, Volume):
        return granule.value
    if isinstance(granule, Rid):
        return str(granule)
    if isinstance(granule, int):
        return text_of_number(granule)
    told = f"a granule is VOLUME, a store's number, a pair of store and page, or a Rid, not {granule!r}"
    if not isinstance(granule, tuple):
        raise TypeError(told)
    if len(granule) != 2:
        raise ValueError(told)
    return ".".join(map(text_of_number, granule))


def text_of_mode(mode: Mode) -> str:
    if not isinstance(mode, Mode):
        raise TypeError(f"a mode of a lock is a Mode, not {mode!r}")
    return mode.value


def bytes_of(given: Bytes) -> bytes:
    if not isinstance(given, (bytes, bytearray, memoryview)):
        raise TypeError(f"bytes are wanted, not {type(given).__name__}")
    return bytes(given)


def text_of_name(name: Bytes) -> str:
    """The word for a global id. One of no byte is no word, and one of very many no line, so both are refused before."""
    name = bytes_of(name)
    if not 1 <= len(name) <= LONGEST_NAME:
        raise BadGlobalId((), f"a name of {len(name)} bytes")
    return name.hex()


def text_of_record(record: Bytes) -> str:
    """The bytes of a record. The program refuses those that are too long too, but for what is no line any more."""
    record = bytes_of(record)
    if len(record) > LONGEST_RECORD:
        raise TooLong((), f"a record of {len(record)} bytes")
    return record.hex() or "-"


def record_of(text: str) -> bytes:
    return b"" if text == "-" else bytes.fromhex(text)
