"""A pair of files, and transactions on it until its program is killed: for check-kills and check-power. What fails says so by an exit."""
import collections
import random
import threading

from pipes import Child, Ended

LONGEST_RUN = 0.3
# More pages than frames, so that pages are written back to make room for others.
STORES = 12
SETTINGS = f'devices = "files"\nlog_path = "log"\nvolume_path = "volume"\nlog_bytes = 300000\nstores = {[1] * STORES}\npool = 8\n'
# The session that resolves, and how many are in doubt at once.
RESOLVER, MOST_IN_DOUBT = 901, 4


class Failure(Exception):
    """What was seen is not as it has to be."""


class Pair:
    """The log and the volume of a folder, and how the program runs on them."""

    def __init__(self, program, folder, **how):
        self.program, self.folder, self.how = program, folder, how

    def run(self, is_anew=False):
        return Child(self.program, f"format = {str(is_anew).lower()}\n{SETTINGS}", self.folder, **self.how)

    def output(self, is_anew, script):
        """What a whole script prints, line by line."""
        run = self.run(is_anew)
        for line in script:
            run.send(line)
        return run.end().split("\n")[:-1]

    def dump(self, is_anew=False):
        """What an open shows: each record by its id, and the names of those in doubt."""
        lines = self.output(is_anew, ["1 indoubt", "dump"])
        if not lines or any("fault" in line for line in lines):
            raise Failure(f"the pair is not opened: {lines}")
        count = int(lines[0].removeprefix("1: indoubt "))
        names, records = lines[1 : count + 1], lines[count + 1 :]
        return {} if records == ["empty"] else dict(line.split(" ") for line in records), [name.split(" ")[0] for name in names]


def kill_later(run, seconds):
    timer = threading.Timer(seconds, run.kill)
    timer.start()
    return timer


def write_back(run):
    """Writes pages with undecided changes to the volume, which an open behind a kill has to undo."""
    for line in ["force", "flush"]:
        if "fault" in run.ask(line):
            raise Failure(f"{line} was refused")


# What is committed, and for each one in doubt, by its name, what it has written: none for what it took away.
State = collections.namedtuple("State", "records doubts")


def overlaid(records, writes):
    """The records with these written over them."""
    return {key: found for key, found in {**records, **writes}.items() if found is not None}


def shown(state):
    """What a dump shows of a state, and who is in doubt in it."""
    records = state.records
    for writes in state.doubts.values():
        records = overlaid(records, writes)
    return records, sorted(state.doubts)


class Stream:
    """Transactions, some of which are prepared or committed lazily, and what they come to."""

    def __init__(self, seed):
        self.chance = random.Random(seed)
        self.is_full = False
        self.number = 0
        # What was acknowledged, and what was asked behind it, in its order, each with its ticket if it has one: an open shows one of these.
        self.acknowledged, self.asked = State({}, {}), []
        self.start(({}, []))

    @property
    def state(self):
        """What the next transaction finds."""
        return self.asked[-1][1] if self.asked else self.acknowledged

    def may_show(self, found):
        """Whether an open may show this."""
        return found in [shown(self.acknowledged), *(shown(state) for _, state in self.asked)]

    def shows_later(self, found):
        """.. of which not all was acknowledged."""
        return found != shown(self.acknowledged)

    def start(self, found):
        """An open has shown this: it is one of these, or a pair made anew. A checkpoint that was begun is dropped."""
        self.has_begun = False
        known = [state for state in (self.acknowledged, *(state for _, state in self.asked)) if shown(state) == found]
        self.acknowledged, self.asked = known[-1] if known else State(found[0], {}), []
        self.session = 1

    def acknowledge(self, count):
        """The first of those that were asked are durable, so many. Answers how many."""
        if count:
            self.acknowledged = self.asked[count - 1][1]
            del self.asked[:count]
        return count

    def new_bytes(self):
        self.number += 1
        return f"{self.number:08x}" * self.chance.randint(1, 20)

    def change(self, run, writes):
        """One change, and its answer. Records that were acknowledged are changed as often as new ones come; none of those that one in doubt has locked."""
        locked = {key for others in self.state.doubts.values() for key in others}
        records = overlaid(self.state.records, writes)
        free = sorted(set(records) - locked)
        kind = self.chance.choice(["insert", "insert", "update", "delete"]) if free else "insert"
        found = None if kind == "delete" else self.new_bytes()
        key = self.chance.choice(free) if kind != "insert" else str(self.chance.randrange(STORES))
        said = run.ask(f"{self.session} {kind} {key} {found or ''}".rstrip())
        if "fault" in said:
            self.is_full = self.is_full or "LogFull" in said
            if kind != "insert":
                # The record stays locked, as if it was written as it is.
                writes[key] = records[key]
        else:
            writes[said.removeprefix(f"{self.session}: at ") if kind == "insert" else key] = found

    def demand(self, run, line, wanted):
        said = run.ask(line)
        if said != wanted:
            raise Failure(f"{line!r} was answered by {said!r}")

    def checkpoint(self, run):
        """A whole checkpoint, or a half of one. Of one that is begun the other half comes later, with other lines between. One that would free too little is refused at its begin."""
        line = "checkpoint end" if self.has_begun else self.chance.choice(["checkpoint", "checkpoint begin"])
        said = run.ask(line)
        if "fault" in said and (self.has_begun or "LogFull" not in said):
            raise Failure(f"{line!r} was answered by {said!r}")
        self.has_begun = said.startswith("checkpoint begun")

    def decide(self, run):
        """A resolve of one in doubt, from the session of another transaction or of none."""
        name = self.chance.choice(sorted(self.state.doubts))
        others = {key: writes for key, writes in self.state.doubts.items() if key != name}
        is_commit = self.chance.random() < 0.5
        records = overlaid(self.state.records, self.state.doubts[name]) if is_commit else self.state.records
        self.asked.append((None, State(records, others)))
        self.demand(run, f"{RESOLVER} resolve {name} {'commit' if is_commit else 'abort'}", f"{RESOLVER}: resolved")
        return self.acknowledge(len(self.asked))

    def prepare(self, run, writes):
        """The session stays in its transaction until that is decided, so another one goes on."""
        name = f"{self.chance.randrange(2**16):04x}{self.number:08x}"
        self.asked.append((None, State(self.state.records, {**self.state.doubts, name: writes})))
        said = run.ask(f"{self.session} prepare {name}")
        if "LogFull" in said:
            self.is_full = True
            del self.asked[-1]
            self.demand(run, f"{self.session} abort", f"{self.session}: aborted")
            return 0
        if said != f"{self.session}: prepared":
            raise Failure(f"a prepare was answered by {said!r}")
        self.session = self.session % (RESOLVER - 1) + 1
        return self.acknowledge(len(self.asked))

    def commit_lazily(self, run, records):
        """A commit that is answered by its ticket alone."""
        self.asked.append((None, State(records, self.state.doubts)))
        said = run.ask(f"{self.session} lazy")
        ticket = said.removeprefix(f"{self.session}: ticket ")
        if not ticket.isdigit():
            raise Failure(f"a lazy commit was answered by {said!r}")
        if any(earlier is not None and earlier >= int(ticket) for earlier, _ in self.asked):
            raise Failure(f"ticket {ticket} came behind a greater one")
        self.asked[-1] = (int(ticket), self.asked[-1][1])

    def ask_for_tickets(self, run):
        """Asks whether one of the lazy commits is durable, behind a force at times: then it has to be. Answers how many are acknowledged with it."""
        if is_forced := self.chance.random() < 0.3:
            write_back(run)
        index = self.chance.randrange(len(self.asked))
        said = run.ask(f"durable {self.asked[index][0]}")
        if said not in ("durable yes", "durable no") or (is_forced and said != "durable yes"):
            raise Failure(f"a ticket was answered by {said!r}")
        return self.acknowledge(index + 1 if said == "durable yes" else 0)

    def transaction(self, run):
        """One transaction, behind a resolve of another at times. Answers how many decisions were acknowledged."""
        count = self.decide(run) if self.state.doubts and self.chance.random() < 0.4 else 0
        if "LogFull" in run.ask(f"{self.session} begin"):
            self.is_full = True
            return count
        writes = {}
        for _ in range(self.chance.randint(1, 8)):
            self.change(run, writes)
            if self.chance.random() < 0.2:
                write_back(run)
            if self.chance.random() < 0.1:
                self.checkpoint(run)
        if len(self.state.doubts) < MOST_IN_DOUBT and self.chance.random() < 0.3:
            return count + self.prepare(run, writes)
        records = overlaid(self.state.records, writes)
        if self.chance.random() < 0.5:
            self.commit_lazily(run, records)
            return count + (self.ask_for_tickets(run) if self.chance.random() < 0.3 else 0)
        self.asked.append((None, State(records, self.state.doubts)))
        self.demand(run, f"{self.session} commit", f"{self.session}: committed")
        return count + self.acknowledge(len(self.asked))

    def run_until_killed(self, pair):
        """Answers how many decisions were acknowledged."""
        run = pair.run()
        timer = kill_later(run, self.chance.uniform(0, LONGEST_RUN))
        count = 0
        try:
            while not self.is_full:
                count += self.transaction(run)
        except Ended:
            pass
        timer.join()
        run.end()
        return count
