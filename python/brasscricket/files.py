"""The two files of a store, what the program is told of them, and the system's cache of them."""
from __future__ import annotations

import dataclasses
import os
import stat
from collections.abc import Sequence


@dataclasses.dataclass(frozen=True)
class Shape:
    """What a store is made with. Of one that is there only `frames` counts: all else is in its labels."""

    #: How many pages of 8,192 bytes each part of it has.
    stores: Sequence[int] = (1024,)
    #: The length of the log in bytes.
    log_bytes: int = 1 << 26
    #: How many locks there are at once at most: 16 to 4,096.
    max_locks: int = 4096
    #: How many pages are in memory at once: 8 to 1,024.
    frames: int = 256


def paths_of(path: str) -> tuple[str, str]:
    """The log's file and the volume's."""
    return f"{path}.log", f"{path}.volume"


def is_to_make(path: str) -> bool:
    """Whether the store is to be made: neither file is there. One without the other is no store, and nothing is made over it."""
    there = [os.path.exists(it) for it in paths_of(path)]
    if any(there) and not all(there):
        lost, found = sorted(paths_of(path), key=os.path.exists)
        raise FileNotFoundError(f"{found} is there, and {lost} is not: a store is both")
    return not any(there)


def settings_of(path: str, shape: Shape, is_new: bool) -> str:
    """The settings by which the program opens or makes the store."""
    log, volume = paths_of(os.path.abspath(path))
    lines = {
        "devices": quoted("files"),
        "format": str(is_new).lower(),
        "log_path": quoted(log),
        "volume_path": quoted(volume),
        "log_bytes": shape.log_bytes,
        "stores": [*shape.stores],
        "max_locks": shape.max_locks,
        "pool": shape.frames,
        "wrong_lines": quoted("refuse"),
    }
    return "".join(f"{key} = {value}\n" for key, value in lines.items())


def quoted(text: str) -> str:
    """A basic string of TOML."""
    text.encode("utf-8")
    escaped = (f"\\u{ord(it):04x}" if it in '"\\' or ord(it) < 32 or ord(it) == 127 else it for it in text)
    return f'"{"".join(escaped)}"'


def drop_cache(path: str) -> None:
    """
    Drops what the system's cache has of both files. After a sync that failed it may show bytes that are not on the disk, and a
    program that begins over them builds on what is lost.
    """
    for it in paths_of(path):
        try:
            file = os.open(it, os.O_RDONLY | os.O_NONBLOCK | os.O_CLOEXEC)
        except OSError:
            # The program says so itself.
            continue
        try:
            if stat.S_ISREG(os.fstat(file).st_mode):
                written(file)
                os.posix_fadvise(file, 0, 0, os.POSIX_FADV_DONTNEED)
        finally:
            os.close(file)


def written(file: int) -> None:
    try:
        os.fsync(file)
    except OSError:
        # What could not be written goes with the cache, as after a loss of power: nobody was told that it is durable.
        pass
