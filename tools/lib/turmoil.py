"""Runs of the program of crates/turmoil, whose clients work in threads until they are killed, and what an open shows then: for check-threads and check-power."""
import os
import struct
import subprocess

from lives import Failure
from programs import ROOT, tell_help
from watching import kept, stacks_of

CLIENTS, ACCOUNTS, FIRST = 16, 8, 1000
# What the program calls the files of its pair.
FILES = ("log", "volume")
# What clients do: all the same; or each what is of its kind, one of five by its number, of which one commits twice before it notes that.
ALIKE, KINDS = "run", "kinds"
COUNT_OF_KINDS, COMMITS_LAZILY = 5, 2
# How long the log is as a rule, and the shortest that there may be.
LOG_BYTES, LEAST_LOG_BYTES = 1 << 20, 135_168
# Whoever needs so many seconds hangs. Nothing is judged by them but that.
LONGEST = 300


def named_turmoil(arguments):
    """The program that the first argument names by a path with a '/', and otherwise the proved one, which is built if it is not up to date; and the arguments after it."""
    tell_help(arguments)
    if arguments and "/" in arguments[0]:
        return os.path.abspath(arguments[0]), arguments[1:]
    built = subprocess.run([f"{ROOT}/tools/build-program", "turmoil"], stdin=subprocess.DEVNULL, stdout=subprocess.PIPE, text=True, check=False)
    if built.returncode:
        raise SystemExit(1)
    return built.stdout.strip(), arguments


class Notes:
    """What the clients of a run note of what they were answered."""

    def __init__(self, folder):
        self.paths = [f"{folder}/notes.{client}" for client in range(CLIENTS)]

    def clear(self):
        for path in self.paths:
            if os.path.exists(path):
                os.remove(path)

    def of(self, client):
        """Commits, victims, transactions that were rolled back, and those that went back to a savepoint, as the client noted them last."""
        try:
            with open(self.paths[client], "rb") as file:
                text = file.read(32)
        except FileNotFoundError:
            text = b""
        return struct.unpack("<4Q", text) if len(text) == 32 else (0, 0, 0, 0)

    def written_at(self, client):
        """When the client wrote its notes last, by the clock; 0 if it never did."""
        try:
            return os.stat(self.paths[client]).st_mtime
        except FileNotFoundError:
            return 0.0


def most_unanswered(job, client):
    """How many commits of a client may be there that it has not noted."""
    return 2 if job == KINDS and client % COUNT_OF_KINDS == COMMITS_LAZILY else 1


def ended(what, run):
    """What a run printed, and its status, once it has ended."""
    try:
        printed, _ = run.communicate(timeout=LONGEST)
    except subprocess.TimeoutExpired:
        path = kept(stacks_of(run.pid))
        run.kill()
        run.communicate()
        raise Failure(f"{what} hangs: it has not ended after {LONGEST} seconds, and what its threads were at is in {path}") from None
    return printed, run.returncode


class Turmoil:
    """The program over the pair of a folder."""

    def __init__(self, program, folder, **how):
        self.program, self.folder, self.notes, self.how = program, folder, Notes(folder), how

    def begun(self, *words, **how):
        return subprocess.Popen([self.program, *words], stdin=subprocess.DEVNULL, stdout=subprocess.PIPE, text=True, **{**self.how, **how})

    def make(self, log_bytes=LOG_BYTES):
        printed, status = ended("make", self.begun("make", self.folder, str(log_bytes)))
        if status:
            raise Failure(f"no pair is made: status {status}, {printed!r}")

    def run(self, job=ALIKE, **how):
        return self.begun(job, self.folder, str(CLIENTS), **how)

    def look(self, **how):
        return self.begun("look", self.folder, **how)

    def shown(self):
        """What each account has, and for each client how many of its commits took a unit from each account, the next account or the one before it being given it."""
        printed, status = ended("an open", self.look())
        lines = [line.split(" ") for line in printed.splitlines()]
        accounts = [int(line[2]) for line in lines if line[0] == "account"]
        counters = [[int(line[3]) for line in lines if line[:2] == ["counter", str(client)]] for client in range(CLIENTS)]
        if status or len(accounts) != ACCOUNTS or any(len(it) != ACCOUNTS for it in counters):
            raise Failure(f"the pair is not opened, or not all of it is shown: status {status}, {printed!r}")
        return accounts, counters

    def require_what_was_answered(self, before, job=ALIKE):
        """That an open shows each account as the clients' counters tell, so that each transaction is there as a whole or not at all, and of each client as many commits as it had before, or was answered
        last in a run since, or one more, or two. Those in doubt are decided before. Answers how many each client has, and how many are there that were not answered."""
        accounts, counters = self.shown()
        taken = [sum(it) for it in zip(*counters)]
        told = [(FIRST - taken[account] + taken[account ^ 1]) % 2**64 for account in range(ACCOUNTS)]
        if accounts != told:
            raise Failure(f"the accounts have {accounts}, and by the clients' counters {told}")
        found = {client: sum(counters[client]) for client in range(CLIENTS)}
        more = 0
        for client in range(CLIENTS):
            noted = max(self.notes.of(client)[0], before[client])
            if not noted <= found[client] <= noted + most_unanswered(job, client):
                raise Failure(f"client {client} was answered {noted} commits, and {found[client]} are there")
            more += found[client] - noted
        return found, more
