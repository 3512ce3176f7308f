"""Refuses a running program some of its allocations, and calls of its files: by the libraries tools/lib/memory.c and tools/lib/device.c, which it shares a file of numbers with."""
import mmap
import os
import shutil
import struct
import subprocess

from programs import ROOT

# How a call of a file is refused: once; it and every later one; or it is short, which is no refusal.
ONCE, FROM_THEN_ON, SHORT = 1, 2, 3
WORD = struct.Struct("@l")


def built(name, room):
    """The library, compiled into this folder; None if there is no cc."""
    if not shutil.which("cc"):
        return None
    library = f"{room}/{name}.so"
    if not os.path.exists(library):
        subprocess.run(["cc", "-O1", "-shared", "-fPIC", "-o", library, f"{ROOT}/tools/lib/{name}.c", "-ldl"], check=True)
    return library


class Shared:
    """Numbers that a program shares with this one."""

    def __init__(self, path, count):
        self.path = path
        with open(path, "wb") as file:
            file.write(bytes(count * WORD.size))
        with open(path, "r+b") as file:
            self.memory = mmap.mmap(file.fileno(), count * WORD.size)

    def __getitem__(self, place):
        return WORD.unpack_from(self.memory, place * WORD.size)[0]

    def __setitem__(self, place, number):
        WORD.pack_into(self.memory, place * WORD.size, number)


def preloaded(environment, library):
    """The environment with one library more, before those that it has."""
    before = environment.get("LD_PRELOAD", "")
    return {**environment, "LD_PRELOAD": f"{library}:{before}" if before else library, "ASAN_OPTIONS": "verify_asan_link_order=0"}


class Allocations:
    """Those of a program that runs so."""

    def __init__(self, library, room):
        self.shared = Shared(f"{room}/allocations", 2)
        self.environment = {**preloaded(dict(os.environ), library), "MEMORY_CONTROL": self.shared.path}

    def refuse(self, count):
        """So many of the next ones are refused."""
        self.shared[0] = count

    @property
    def left(self):
        return self.shared[0]

    @property
    def refused(self):
        return self.shared[1]


class Calls:
    """The calls of two files by a program that runs so."""

    def __init__(self, library, room, paths):
        self.shared, self.library, self.paths = Shared(f"{room}/calls", 5), library, paths

    def environment(self, before=None):
        return {**preloaded(dict(os.environ) if before is None else before, self.library), "DEVICE_CONTROL": self.shared.path, "DEVICE_FILES": " ".join(str(os.stat(it).st_ino) for it in self.paths)}

    def refuse(self, place, number, way):
        """The call of this number of a file, from here on, is refused in this way."""
        self.shared[2 * place + 1] = way
        self.shared[2 * place] = number

    def refuse_none(self):
        for place in range(5):
            self.shared[place] = 0

    @property
    def refused(self):
        """How many were refused, or cut short."""
        return self.shared[4]
