"""A loss of power over the files of a folder: what the notes of tools/lib/power.c say that no sync has covered goes, or a part of it. For check-power."""
import os
import shutil
import subprocess

from notes import BYTES_SYNCED, NAMED, REPLACED, RESIZED, SYNCED, noting, notes_of

SECTOR = 512
# What a file has then: of each write that was not synced what was there before, noise, or what was written; a part of them; or for each of them another of these.
PICKS = ("old", "part", "noise", "new", "each")


def not_synced(notes):
    """The notes of what no sync has made durable, the newest first. A length, and a name, needs an fsync."""
    found = []
    bytes_stay = all_stays = False
    for kind, at, old in reversed(notes):
        all_stays = all_stays or kind == SYNCED
        bytes_stay = bytes_stay or all_stays or kind == BYTES_SYNCED
        if (kind == REPLACED and not bytes_stay) or (kind in (RESIZED, NAMED) and not all_stays):
            found.append((kind, at, old))
    return found


def torn(old, new, chance):
    """Bytes whose sectors are each as they were, as they were written, or noise."""
    sectors = [(old[at : at + SECTOR], new[at : at + SECTOR]) for at in range(0, len(old), SECTOR)]
    return b"".join(chance.choice((before, after, chance.randbytes(len(before)))) for before, after in sectors)


def left_of(pick, old, new, chance):
    """What is left of a write of new bytes over old ones."""
    if pick == "each":
        pick = chance.choice(("old", "noise", "new", "torn"))
    if pick == "torn":
        return torn(old, new, chance)
    if pick == "noise":
        return chance.randbytes(len(old))
    return new if pick == "new" or (pick == "part" and chance.random() < 0.5) else old


def take_back(path, unsynced, chance):
    """What the file has after a loss of power."""
    pick = chance.choice(PICKS)
    with open(path, "r+b") as file:
        for kind, at, old in unsynced:
            file.seek(at)
            if kind == REPLACED:
                left = left_of(pick, old, file.read(len(old)), chance)
                file.seek(at)
                file.write(left)
            elif pick in ("old", "noise") or (pick != "new" and chance.random() < 0.5):
                file.truncate(0)
                file.write(old)


class Power:
    """The power of a folder: it can be lost. How programs run there is with it."""

    def __init__(self, library, room, chance, skipped=""):
        self.notes, self.folder, self.chance = f"{room}/notes", f"{room}/pair", chance
        os.mkdir(self.notes)
        os.mkdir(self.folder)
        self.how = {"env": {**noting(library, self.notes), "POWER_SKIPS": skipped}}
        if skipped:
            # What is to be noticed is told of by the check, and not by the program.
            self.how["stderr"] = subprocess.DEVNULL

    def inode(self, name):
        return os.stat(f"{self.folder}/{name}").st_ino

    def lose(self, names=None):
        """Of what was not synced something goes, of these files or else of all, and nothing is noted any more. Answers the files that had something."""
        unsynced = {int(name): not_synced(notes_of(f"{self.notes}/{name}")) for name in os.listdir(self.notes)}
        lost = [name for name in names or sorted(os.listdir(self.folder)) if unsynced.get(self.inode(name))]
        for name in lost:
            take_back(f"{self.folder}/{name}", unsynced[self.inode(name)], self.chance)
        for _, _, name in unsynced.get(os.stat(self.folder).st_ino, []):
            if names is None or name.decode() in names:
                os.remove(os.path.join(self.folder, name.decode()))
        self.begin_again()
        return lost

    def begin_again(self):
        """What is there is on the disk."""
        shutil.rmtree(self.notes)
        os.mkdir(self.notes)
