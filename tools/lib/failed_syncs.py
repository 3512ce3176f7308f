"""A sync that fails once, over a system that forgets what it did not write: for check-power.

That is how Linux does it: the pages that a failed sync could not write are read as they were written, and are marked clean, so that later syncs answer well and write none of them, unless
something more was written to such a page. The disk does not have them. Here the program runs over tools/lib/power.c, which fails one sync of one file and notes all; what the disk has is
worked out from the notes; and who drops the cache reads that from then on.
"""
import itertools
import os
import subprocess

import cache
import pipes
from lives import STORES, Failure, Pair
from notes import BYTES_SYNCED, FAILED, REPLACED, SYNCED, add_note, kinds_of, notes_of, noting

PAGE = 4_096
FILES = ("log", "volume")
WAYS = ("crash", "a new process")
# So often `crash` is asked for after a failure, and so many syncs of a run of threads fail at most, one in each run.
CRASHES, MOST_IN_THREADS = 3, 12
COMMITS_BEFORE, COMMITS_AFTER = 12, 25
# A transaction has one record of so many bytes at most: so some frames end on another page of the system than they begin on.
LONGEST = 2_000


def pages_of(at, count):
    return range(at // PAGE, (at + count - 1) // PAGE + 1)


class Played:
    """A file as the program reads it, and as the disk has it."""

    def __init__(self, path, notes):
        with open(path, "rb") as it:
            self.read = bytearray(it.read())
        steps = [self.taken_back(*note) for note in reversed(notes)]
        # Before the first note all was on the disk.
        self.disk, self.waiting = bytearray(self.read), set()
        for step in reversed(steps):
            self.play(*step)

    def taken_back(self, kind, at, old):
        """Undoes a note, and answers what it did."""
        if kind != REPLACED:
            return kind, at, b""
        new = bytes(self.read[at : at + len(old)])
        self.read[at : at + len(old)] = old
        return kind, at, new

    def play(self, kind, at, new):
        if kind == REPLACED:
            self.read[at : at + len(new)] = new
            self.waiting.update(pages_of(at, len(new)))
        elif kind in (BYTES_SYNCED, SYNCED):
            for page in self.waiting:
                self.disk[page * PAGE : (page + 1) * PAGE] = self.read[page * PAGE : (page + 1) * PAGE]
            self.waiting.clear()
        elif kind == FAILED:
            self.waiting.clear()


class System:
    """What tools/lib/cache.py asks of the system, played over the notes of a pair."""

    def __init__(self, power):
        self.power = power

    def __getattr__(self, name):
        return getattr(os, name)

    def fsync(self, file):
        add_note(self.power.notes, os.fstat(file).st_ino, SYNCED)

    def posix_fadvise(self, file, *_):
        inode = os.fstat(file).st_ino
        for name in FILES:
            path = f"{self.power.folder}/{name}"
            if os.stat(path).st_ino == inode:
                self.power.drop(path)


class Device:
    """A pair of files whose syncs can fail, and whose power can be lost."""

    def __init__(self, program, library, room):
        self.notes, self.folder, self.program = f"{room}/notes", f"{room}/pair", program
        os.makedirs(self.notes)
        os.mkdir(self.folder)
        self.environment = noting(library, self.notes)

    def inode(self, name):
        return os.stat(f"{self.folder}/{name}").st_ino

    def noted(self, path):
        return f"{self.notes}/{os.stat(path).st_ino}"

    def played(self, path):
        noted = self.noted(path)
        return Played(path, notes_of(noted) if os.path.exists(noted) else [])

    def lay(self, path, content):
        """From here on the file is this, all of it on the disk."""
        with open(path, "r+b") as it:
            it.write(content)
        if os.path.exists(self.noted(path)):
            os.remove(self.noted(path))

    def drop(self, path):
        found = self.played(path)
        if found.waiting:
            raise Failure(f"the cache of {path} was to be dropped before it was synced")
        self.lay(path, found.disk)

    def lose(self):
        for name in FILES:
            self.lay(f"{self.folder}/{name}", self.played(f"{self.folder}/{name}").disk)

    def pair(self, failing=None):
        """How the program runs on it, with a sync that fails or none: a file, and the number of the sync."""
        more = {"POWER_FAILS": f"{self.inode(failing[0])} {failing[1]}"} if failing else {}
        # Why it refuses an open goes to its standard error, and is wanted here.
        return Pair(self.program, self.folder, env={**self.environment, **more}, stderr=subprocess.DEVNULL)

    def make(self):
        """Makes the pair anew, and all of it is on the disk."""
        Pair(self.program, self.folder).dump(True)
        for name in os.listdir(self.notes):
            os.remove(f"{self.notes}/{name}")


def records_of(lines):
    """What a dump shows; none if it is refused."""
    if any("fault" in line for line in lines):
        return None
    return dict(line.split(" ") for line in lines if line != "empty")


class Client:
    """One that commits a record at a time, of which each store gets one. Of what it was acknowledged it knows what the store had after each commit; the last one of a run that was refused, or
    never answered, may be there or not."""

    def __init__(self, chance):
        self.chance, self.states, self.unsure = chance, [{}], {}

    def commit(self, run):
        """Whether the commit was acknowledged."""
        key, content = f"{self.chance.randrange(STORES)}.0.0", self.chance.randbytes(self.chance.randint(1, LONGEST)).hex()
        line = f"1 update {key} {content}" if key in self.states[-1] else f"1 insert {key[:-4]} {content}"
        if "fault" in run.ask("1 begin") or "fault" in run.ask(line):
            return False
        self.unsure = {key: content}
        if run.ask("1 commit") != "1: committed":
            return False
        self.states.append({**self.states[-1], **self.unsure})
        self.unsure = {}
        return True

    def work(self, run, count, writes_back=False):
        """Commits so many times, with pages written back and checkpoints made between if that is asked for. Whether it came through: a refusal ends it, and the program's end."""
        try:
            for number in range(count):
                if not self.commit(run):
                    return False
                if writes_back and number % 5 == 3 and any("fault" in run.ask(line) for line in ("flush", "checkpoint")):
                    return False
        except pipes.Ended:
            return False
        return True

    @property
    def acknowledged(self):
        return len(self.states) - 1

    def begin_again(self, run):
        """Takes what a pair that was opened again shows for what is there: it has all that was acknowledged, and what is not known may be one of it."""
        found = records_of(run.answers(["dump"]))
        if found not in (self.states[-1], {**self.states[-1], **self.unsure}):
            raise Failure("a pair that was opened again does not have what was acknowledged before")
        if found != self.states[-1]:
            self.states.append(found)
        self.unsure = {}

    def shown(self, found):
        """How many of the commits are there, the first ones; none if the pair shows something else, or nothing at all."""
        return max((number for number, state in enumerate(self.states) if state == found), default=0)


def syncs_of(device, chance):
    """How often each file is synced in a run whose syncs do not fail."""
    device.make()
    run = device.pair().run()
    if not Client(chance).work(run, COMMITS_BEFORE, True):
        raise Failure("a run with no failure is refused")
    run.end()
    return {name: sum(kind in (BYTES_SYNCED, SYNCED) for kind in kinds_of(device.notes, f"{device.folder}/{name}")) for name in FILES}


def is_opened_again(run):
    """Whether one `crash` of some opens the pair."""
    try:
        return any(run.ask("crash") == "opened" for _ in range(CRASHES))
    except pipes.Ended:
        return False


def one_failure(device, chance, failing, by_crash):
    """One sync fails; the pair is opened again, by `crash` if the program does that, or by a new process; commits go on; and the power is lost. Answers whether the process whose sync had failed
    has opened it, how many commits were acknowledged, and how many of these are there."""
    device.make()
    client = Client(chance)
    run = device.pair(failing).run()
    if client.work(run, COMMITS_BEFORE, True):
        raise Failure(f"nothing is refused though sync {failing[1]} of the {failing[0]} fails")
    goes_on = by_crash and is_opened_again(run)
    if not goes_on:
        run.end()
        run = device.pair().run()
    client.begin_again(run)
    if not client.work(run, COMMITS_AFTER):
        raise Failure(f"a pair that was opened again after sync {failing[1]} of the {failing[0]} failed refuses calls")
    run.kill()
    run.end()
    device.lose()
    return goes_on, client.acknowledged, client.shown(records_of(Pair(device.program, device.folder).output(False, ["dump"])))


def failed_syncs(device, chance, drops=True):
    """Each sync of a run fails once, and the pair is opened again in both ways. Yields of each case the file, the number of the sync, the way, whether the process whose sync had failed has opened
    the pair again, how many commits were acknowledged, and how many of these are there. If the cache is not dropped before a start, some are to be lost."""
    was, dropping = cache.os, pipes.drop_cache
    cache.os = System(device)
    if not drops:
        pipes.drop_cache = lambda *_: None
    try:
        for name, count in syncs_of(device, chance).items():
            for number, way in itertools.product(range(1, count + 1), WAYS):
                yield name, number, way, *one_failure(device, chance, (name, number), way == "crash")
    finally:
        cache.os, pipes.drop_cache = was, dropping


def require_refusals_after_threads(device):
    """A sync that fails while threads count a record up, in workers of their own: the process opens the pair no more. Answers how many syncs failed."""
    failures = 0
    for name, number in itertools.product(FILES, range(1, MOST_IN_THREADS + 1)):
        device.make()
        printed = device.pair((name, number)).output(False, ["1 begin", "1 insert 0 00*8", "1 commit", "threads 3 4 0.0.0", *["crash"] * CRASHES, "dump"])
        failed = next((at for at, line in enumerate(printed) if "fault 23" in line), None)
        if failed is not None:
            failures += 1
            if any(line == "opened" or "fault" not in line for line in printed[failed:]):
                raise Failure(f"sync {number} of the {name} failed beside threads, and the process has opened the pair again: {printed}")
    return failures


def require_no_loss(cases):
    """Answers how many there were, and how many commits were acknowledged."""
    cases = list(cases)
    lost = [it for it in cases if it[-1] != it[-2]]
    if lost:
        name, number, way, _, acknowledged, shown = max(lost, key=lambda it: it[-2] - it[-1])
        raise Failure(f"{len(lost)} of {len(cases)} failed syncs were believed, the worst sync {number} of the {name}, with the pair opened again by {way}: {acknowledged} commits were acknowledged, and {shown} are there")
    opened = [f"{number} of the {name}" for name, number, _, is_opened, *_ in cases if is_opened]
    if opened:
        raise Failure(f"the process whose sync had failed has opened the pair again, after {len(opened)} of these failures, such as that of sync {opened[0]}")
    return len(cases), sum(acknowledged for *_, acknowledged, _ in cases)
