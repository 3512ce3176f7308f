"""The library that counts the allocations of a program, and refuses some: tools/lib/memory.c, preloaded. For tools/check-memory and tools/check-formats."""
import os
import shutil
import subprocess

from programs import ROOT


def library_in(room):
    """The library, compiled into this folder; None if there is no cc."""
    if not shutil.which("cc"):
        return None
    library = f"{room}/memory.so"
    subprocess.run(["cc", "-O1", "-shared", "-fPIC", "-o", library, f"{ROOT}/tools/lib/memory.c", "-ldl"], check=True)
    return library


def refusing(library, failing, row=1):
    """The environment in which so many allocations in a row fail, from this one on."""
    return {**os.environ, "LD_PRELOAD": library, "MEMORY_FAILS": str(failing), "MEMORY_ROW": str(row)}


def counted(library, room, play):
    """How many allocations a program asks for that is played in an environment."""
    count = f"{room}/count"
    play({**os.environ, "LD_PRELOAD": library, "MEMORY_COUNT": count})
    asked = 0
    if os.path.isfile(count):
        with open(count, encoding="utf-8") as file:
            asked = int(file.read() or 0)
        os.remove(count)
    if not asked:
        raise SystemExit("FAILED: no allocation was counted: is the program one that is --sanitized?")
    return asked
