"""Losses of power while sixteen clients work in threads, each with a thread of its own, over one pair of files: for check-power."""
import os
import random
import signal
import subprocess

from formats import STREAM_AT, read_anchors
from lives import Failure
from losses import Power
from refusing import FROM_THEN_ON, ONCE, SHORT, Calls, built
from turmoil import ALIKE, CLIENTS, FILES, KINDS, Turmoil, ended
from watching import Watch

MOST_OPENS_CUT = 2
# How many losses there are at most until it is noticed that a sync does nothing.
LOSSES_TO_SEE = 10
# So many losses have to show something: most of them are of both files, most opens are cut off, and a checkpoint moves the anchor within as many at least once, and in one a call of a file was refused.
LOSSES_TO_SHOW = 20
# How the call is picked at which a run loses its power, each as often as it is named, and how many it makes at most: one with writes that are not synced in both files, any one, or one since the anchor
# began to move. After so many it ends at the latest.
WAYS = ("both",) * 5 + ("any",) + ("moved",) * 2
CALLS_WITH_BOTH, CALLS, CALLS_SINCE_MOVED, MOST_CALLS = 600, 1_500, 60, 3_000
# .. and an open.
CALLS_OF_OPEN = 8
# In one of so many runs a call of one of the files is refused before, at the latest one of this number.
REFUSED_OF, CALLS_TO_REFUSE = 4, 600
# How many microseconds a sync takes.
SLOW = 1_000
NEVER = 10**9


class Tally:
    """What was seen."""

    def __init__(self):
        self.lost = []
        self.acknowledged = self.more = self.opens = self.opens_cut = self.moves = self.refused = 0

    @property
    def with_both(self):
        return self.lost.count(list(FILES))

    def shows(self):
        losses = len(self.lost)
        is_rare = any((count + 1) * LOSSES_TO_SHOW < losses for count in (self.moves, self.refused))
        return self.acknowledged and 2 * self.with_both >= losses and 2 * self.opens_cut >= self.opens and not is_rare

    def __str__(self):
        return (f"{len(self.lost)} losses of power amid {CLIENTS} threads, at {self.with_both} of which both files had writes that were not synced: {self.acknowledged} commits were acknowledged, and each was "
                f"there after every loss; {self.more} others were there; {self.opens_cut} of {self.opens} opens between lost their power too; the anchor moved {self.moves} times; of {self.refused} runs a call of a file "
                "was refused before")


class Losing:
    """A pair whose power is lost in turn amid threads and amid opens."""

    def __init__(self, program, library, room, chance, skipped=""):
        self.power, self.chance, self.tally = Power(library, room, chance, skipped), chance, Tally()
        self.turmoil = Turmoil(program, self.power.folder, **self.power.how)
        self.turmoil.make()
        self.power.begin_again()
        self.counters = {client: 0 for client in range(CLIENTS)}
        self.calls = Calls(built("device", room), room, [f"{self.power.folder}/{it}" for it in FILES])

    def moves(self):
        """How often the anchor of the log has been moved."""
        with open(f"{self.power.folder}/log", "rb") as log:
            return read_anchors(log.read())[1].sequence - 1

    def ending(self, slow, calls, with_both=NEVER, since_moved=NEVER):
        """The environment of a run that is killed at such a call."""
        log, volume = map(self.power.inode, FILES)
        return {"env": {**self.power.how["env"], "POWER_ENDS": f"{log} {volume} {with_both} {calls} {slow} {STREAM_AT} {since_moved}"}}

    def some_call(self):
        """One at which a run is killed."""
        way = self.chance.choice(WAYS)
        if way == "both":
            return self.ending(SLOW, MOST_CALLS, with_both=self.chance.randint(1, CALLS_WITH_BOTH))
        if way == "moved":
            return self.ending(SLOW, MOST_CALLS, since_moved=self.chance.randint(1, CALLS_SINCE_MOVED))
        return self.ending(SLOW, self.chance.randint(1, CALLS))

    def refusing(self, how):
        """The environment of a run of which a call of a file is refused, if it comes to that call before it is killed."""
        self.calls.refuse_none()
        if self.chance.randrange(REFUSED_OF):
            return how
        self.calls.refuse(self.chance.randrange(len(FILES)), self.chance.randint(1, CALLS_TO_REFUSE), self.chance.choice((ONCE, FROM_THEN_ON, SHORT)))
        # The program tells of it, which is no failure.
        return {"env": self.calls.environment(how["env"]), "stderr": subprocess.DEVNULL}

    def run_until_lost(self, job):
        """The power is lost amid threads. Answers the files that had writes which were not synced."""
        self.turmoil.notes.clear()
        run = self.turmoil.run(job, **self.refusing(self.some_call()))
        Watch(self.turmoil.notes, run, CLIENTS).until(lambda _: False)
        printed, status = ended("a run", run)
        self.tally.refused += self.calls.refused > 0
        if status != -signal.SIGKILL and not (status > 0 and self.calls.refused):
            raise Failure(f"a run ended by itself: status {status}, {printed!r}")
        return self.power.lose(FILES)

    def open_until_lost(self):
        """The power is lost amid an open, or after it. Answers whether amid it."""
        printed, status = ended("an open", self.turmoil.look(**self.ending(0, self.chance.randint(1, CALLS_OF_OPEN))))
        if status not in (0, -signal.SIGKILL):
            raise Failure(f"an open is refused: status {status}, {printed!r}")
        self.power.lose(FILES)
        return status != 0

    def one_loss(self):
        tally = self.tally
        job = self.chance.choice((ALIKE, KINDS))
        tally.lost.append(self.run_until_lost(job))
        for _ in range(self.chance.randint(0, MOST_OPENS_CUT)):
            tally.opens += 1
            tally.opens_cut += self.open_until_lost()
        before = sum(self.counters.values())
        self.counters, more = self.turmoil.require_what_was_answered(self.counters, job)
        tally.acknowledged += sum(self.counters.values()) - before - more
        tally.more += more
        tally.moves = self.moves()

    def lose(self, losses):
        """So many losses of power, one after another. Answers what was seen."""
        for number in range(1, losses + 1):
            try:
                self.one_loss()
            except Failure as failure:
                raise Failure(f"loss {number}: {failure}") from None
        return self.tally


def sees(losing):
    """Whether some of a few losses is noticed."""
    try:
        losing.lose(LOSSES_TO_SEE)
    except Failure:
        return True
    return False


def losses_in_threads(program, library, room, losses, seed):
    """So many losses of power on one pair. Answers what was seen."""
    for name in ("kept", "fdatasync"):
        os.mkdir(f"{room}/{name}")
    tally = Losing(program, library, f"{room}/kept", random.Random(seed)).lose(losses)
    if not sees(Losing(program, library, f"{room}/fdatasync", random.Random(seed), "fdatasync")):
        raise Failure(f"in {LOSSES_TO_SEE} losses it is not noticed that fdatasync does nothing")
    if losses >= LOSSES_TO_SHOW and not tally.shows():
        raise Failure(f"the losses show too little: {tally}")
    return tally
