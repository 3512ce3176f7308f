"""The notes of tools/lib/power.c: what a program has done to each file, one note after another."""
import os
import shutil
import struct
import subprocess

from programs import ROOT

HEAD = struct.Struct("@3l")
REPLACED, RESIZED, NAMED, BYTES_SYNCED, SYNCED, FAILED, DROPPED = b"rlnbsfd"


def built_library(room):
    """The library that is preloaded; none if there is no compiler."""
    compiler = shutil.which("cc")
    if compiler is None:
        return None
    library = f"{room}/power.so"
    subprocess.run([compiler, "-shared", "-fPIC", "-O1", "-o", library, f"{ROOT}/tools/lib/power.c"], check=True)
    return library


def noting(library, notes):
    """The environment of a program that notes what it does."""
    return {**os.environ, "LD_PRELOAD": library, "POWER_NOTES": notes, "ASAN_OPTIONS": "verify_asan_link_order=0"}


def notes_of(path):
    """Each note of a file: what it is of, and its bytes. A kill may have cut off the last one: what it was to be of was not done."""
    found = []
    with open(path, "rb") as file:
        while len(head := file.read(HEAD.size)) == HEAD.size:
            kind, at, count = HEAD.unpack(head)
            if len(content := file.read(count)) == count:
                found.append((kind, at, content))
    return found


def kinds_of(folder, path):
    """What the notes of a file, or of a folder, are of."""
    noted = os.path.join(folder, str(os.stat(path).st_ino))
    return [kind for kind, _, _ in notes_of(noted)] if os.path.exists(noted) else []


def add_note(folder, inode, kind):
    """A note with no bytes, of the file with this inode."""
    with open(os.path.join(folder, str(inode)), "ab") as file:
        file.write(HEAD.pack(kind, 0, 0))
