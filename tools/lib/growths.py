"""Each allocation of the worked rows refused in turn, with the rows' lines sent one by one, or all at once: for tools/check-memory. What a row answers then is judged by what the program answers
if none is refused, line by line.
"""
import collections
import concurrent.futures
import glob
import os
import re
import threading

from allocations import counted, refusing
from pipes import ITS_ANSWER, LAST_LINE, Child, Ended, played
from programs import ROOT

MEMORY, DEVICE, FAILED = "fault 27 Memory", "fault 23 Device", "fault 24 Failed"
PROGRAM_SECONDS = 20
# The rows of one manager; those of devices that do not match, and of bad settings and lines, are in tools/check-damage and tools/check-statuses.
ROWS = """empty_store commit_survives_crash flushed_loser_is_undone loser_shows_nothing failed_force_old failed_force_new waiter_gets_the_old_bytes conversion_to_six
update_mode_refuses_new_readers conversion_deadlock cycle_through_a_queue room_of_an_undecided_delete rollback_to_a_savepoint prepared_survives_crash prepared_change_is_aborted crashes_in_restart
torn_page torn_area size_and_count_limits size_and_count_limits_of_sessions log_fills log_fills_and_wraps answer_at_the_prepare checkpoint_in_two_halves refusals_of_granules threads_count""".split()
# Of a row with threads another allocation has a number in each run.
MOST_AMID_THREADS = 100
# What is asked behind each row, so that what is left is compared whole.
BEHIND = ["log", "locks", "crash", "dump", "1 indoubt", "log"]
# What takes no memory: these lines are never refused it.
TAKES_NONE = ("force", "flush", "checkpoint end")
COUNTED = re.compile(r"0\.0\.0 ([0-9a-f]{16})")


class Wrong(Exception):
    """A row has not ended as it has to."""


class Row:
    """A worked row: its settings, its lines, and what each of them answers if no allocation fails."""

    def __init__(self, program, name):
        self.program, self.name = program, name
        with open(f"{ROOT}/examples/rows/{name}.shore", encoding="utf-8") as file:
            self.settings, _, script = file.read().partition("---\n")
        self.lines = [it for it in script.split("\n") if it and not it.startswith("#")] + BEHIND
        self.wanted = self.answers(self.lines)
        # What is shown if the power is lost behind so many lines.
        self.shown = {}
        # What is answered if a line is left out.
        self.without = {}

    def answers(self, lines, env=None):
        """What each of these lines answers, sent all at once; fewer of them if the run ended. And the status."""
        text = self.settings + "---\n" + "".join(f"{line}\n{LAST_LINE}\n" for line in lines)
        ran = played(self.program, text, env=env, timeout=PROGRAM_SECONDS)
        groups = [[]]
        for line in ran.stdout.split("\n")[:-1]:
            if line.startswith(ITS_ANSWER):
                groups.append([])
            else:
                groups[-1].append(line)
        return groups if ran.returncode else groups[:-1]

    def is_by_threads(self, line):
        """Whether the line shows in which order threads came."""
        return line == "log" and any(it.startswith("threads") for it in self.lines)

    def shown_behind(self, count):
        """What an open shows if the power is lost behind so many lines, all of which are answered."""
        if count not in self.shown:
            self.shown[count] = self.answers([*self.lines[:count], "crash", "dump", "1 indoubt"])[-2:]
        return self.shown[count]

    def wanted_without(self, at):
        """What each line answers if this one is left out."""
        if at not in self.without:
            self.without[at] = self.answers([*self.lines[:at], "# Nothing.", *self.lines[at + 1 :]])
        return self.without[at]


def number_in(dumped):
    """The number that threads have counted, in a dump of it alone; 0 if it is none."""
    found = COUNTED.fullmatch(dumped[0]) if len(dumped) == 1 else None
    return int.from_bytes(bytes.fromhex(found[1]), "little") if found else 0


def is_rollback(line):
    return line.split(" ")[1:2] in (["abort"], ["back"]) or line.endswith(" abort")


def may_be_done_in_part(line):
    """Whether a part of what the line asks may be done as it is refused."""
    return is_rollback(line) or line in ("flush", "checkpoint", "checkpoint end") or line.startswith("threads")


def session_of(line):
    head = line.split(" ")[0]
    return head if head.isdigit() else None


class Talk:
    """A row whose lines are sent one by one, as one allocation fails. What is refused memory is asked once more."""

    def __init__(self, row, library, failing):
        self.row, self.counts = row, collections.Counter()
        self.child = Child(row.program, row.settings, env=refusing(library, failing))
        # The last call of each session, and the fuses that are set for the next open.
        self.calls, self.fuses = {}, []
        late = threading.Timer(PROGRAM_SECONDS, self.child.kill)
        late.start()
        try:
            self.judge()
        except Ended as ended:
            self.judge_end(list(ended.args))
        finally:
            late.cancel()
            self.child.kill()
            self.child.process.communicate()

    def judge_end(self, printed):
        """A run ends only if the memory of the program's own was refused, or its first open."""
        if not printed or printed[-1] not in (MEMORY, f"open {MEMORY}", f"open {DEVICE}"):
            raise Wrong(f"it ended after {printed}")
        self.counts["ended"] += 1

    def judge(self):
        for at, (line, wanted) in enumerate(zip(self.row.lines, self.row.wanted)):
            found = self.answered(line)
            if (DEVICE in str(found) and DEVICE not in str(wanted)) or found == [FAILED] != wanted:
                self.judge_failed(at)
                return
            if sorted(found) != sorted(wanted) and not self.row.is_by_threads(line) and not self.is_counted(found, wanted):
                raise Wrong(f"'{line}' answers {found} in place of {wanted}")

    def is_counted(self, found, wanted):
        """Threads that are refused may have counted a part before they are asked again, and a flush may have written pages; and an open that is asked again may need fewer calls than a fuse lets through."""
        if number_in(wanted) and self.counts["refused"]:
            return number_in(wanted) <= number_in(found) <= 2 * number_in(wanted)
        if self.counts["refused"] and wanted[0].startswith("flushed"):
            return [found[0].partition(" ")[0], int(found[0].partition(" ")[2]) <= int(wanted[0].partition(" ")[2])] == ["flushed", True]
        return bool(self.counts["opens"]) and (found, wanted) == (["opened"], [f"open {DEVICE}"])

    def answered(self, line):
        """What the line answers in the end."""
        session = session_of(line)
        if session:
            self.calls[session] = line
        if line.startswith("nextfuse"):
            self.fuses.append(line)
        found = self.child.answers([line])
        again = []
        for it in found:
            if it == MEMORY:
                if line in TAKES_NONE:
                    raise Wrong(f"'{line}' is refused memory")
                again = [line]
            elif it in (f"open {MEMORY}", f"open {DEVICE}") and self.is_by_memory(line, it):
                self.counts["opens"] += 1
                again = [*self.fuses, line]
            elif it.endswith(f": {MEMORY}"):
                again.append(self.calls[it.partition(":")[0]])
        if again:
            self.counts["refused"] += 1
            self.counts.update(it.split(" ")[1] for it in again if is_rollback(it))
            found = [it for it in found if not it.endswith(MEMORY) and not it.startswith("open fault")] + self.child.answers(again)
            if any(it.endswith(MEMORY) for it in found):
                raise Wrong(f"'{line}' is refused again: {found}")
        if line.startswith("crash"):
            self.fuses = []
        return found

    def is_by_memory(self, line, answer):
        """Whether an open is refused since memory is short: a device in memory fails by it too."""
        return answer.endswith(MEMORY) or answer not in self.row.wanted[self.row.lines.index(line)]

    def judge_failed(self, at):
        """A device in memory has failed, since an allocation of its own did, or threads left no more than the devices: every call is refused until the next open, and that shows what was done by then,
        with the line that failed or without it."""
        self.counts["failed"] += 1
        for line in self.row.lines[at + 1 :]:
            if line.startswith("crash"):
                break
            session = session_of(line)
            wanted = [] if "fuse" in line else [f"{session}: {FAILED}" if session else FAILED]
            if (found := self.child.answers([line])) != wanted:
                raise Wrong(f"'{line}' answers {found} behind a device that has failed")
        self.child.answers(["crash", "crash"])
        shown = [self.child.answers([line]) for line in ("dump", "1 indoubt")]
        least, most = self.row.shown_behind(at), self.row.shown_behind(at + 1)
        if shown not in (least, most) and not (self.row.lines[at].startswith("threads") and number_in(least[0]) <= number_in(shown[0]) <= number_in(most[0])):
            raise Wrong(f"an open behind a device that has failed shows {shown}")


def judge_whole(row, library, failing):
    """The row with all its lines sent at once. What is refused is not asked again: so the lines after it answer as if it had been left out, but that it keeps the locks that it took, which others meet."""
    counts = collections.Counter()
    found = row.answers(row.lines, refusing(library, failing))
    for at, (line, wanted, answered) in enumerate(zip(row.lines, row.wanted, found)):
        if answered == wanted or row.is_by_threads(line):
            continue
        if len(found) < len(row.lines) and at == len(found) - 1:
            if answered[-1:] not in ([MEMORY], [f"open {MEMORY}"], [f"open {DEVICE}"]):
                raise Wrong(f"it ended with {answered}")
            counts["ended"] += 1
            break
        counts["refused"] += 1
        if not any(it.endswith(MEMORY) or it.endswith(DEVICE) for it in answered):
            raise Wrong(f"'{line}' answers {answered} in place of {wanted}, and nothing was refused")
        is_left_out = answered in ([f"{session_of(line)}: {MEMORY}"], [MEMORY]) and not may_be_done_in_part(line)
        if is_left_out and len(set(filter(None, map(session_of, row.lines)))) == 1:
            for later, answer, left_out in list(zip(row.lines, found, row.wanted_without(at)))[at + 1 :]:
                if answer != left_out and later != "locks" and not row.is_by_threads(later):
                    raise Wrong(f"behind a refused '{line}' '{later}' answers {answer}, and without it {left_out}")
            counts["left out"] += 1
        break
    return counts


def tried(row, library, failing):
    """One allocation of a row refused, in both ways."""
    counts = collections.Counter()
    for how, judge in (("one by one", lambda: Talk(row, library, failing).counts), ("at once", lambda: judge_whole(row, library, failing))):
        try:
            counts.update(judge())
        except Wrong as wrong:
            raise SystemExit(f"check-memory: FAILED: row {row.name}, lines sent {how}, as allocation {failing} fails: {wrong}") from None
    return counts


def each_growth_refused(program, library, room, most=None):
    """How many runs of the rows were made, so many of each at most, spread over its allocations; and what was refused in them. Those of the program's start are refused once for rows of the same settings."""
    counts, runs, every, started = collections.Counter(), 0, 0, set()
    with concurrent.futures.ThreadPoolExecutor(os.cpu_count()) as pool:
        for name in ROWS:
            row = Row(program, name)
            before, last = (counted(library, room, lambda env, row=row, lines=lines: row.answers(lines, env)) for lines in ([], row.lines))
            first = before + 1 if row.settings in started else 1
            started.add(row.settings)
            count = last + 1 - first
            wanted = min(count, most or count, MOST_AMID_THREADS if row.is_by_threads("log") else count)
            for found in pool.map(lambda failing, row=row: tried(row, library, failing), [first + at * count // wanted for at in range(wanted)]):
                counts.update(found)
            runs, every = runs + wanted, every + count
    return runs, every, counts
