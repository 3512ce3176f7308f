"""A store: the pair of files that one program has open, its transactions, and what holds of all of them."""
from __future__ import annotations

import _thread
import collections
import contextlib
import functools
import os
import queue
import random
import shutil
import threading
import time
import weakref
from collections.abc import Callable, Sequence
from types import TracebackType
from typing import Concatenate, ParamSpec, TypeVar

from .errors import Again, Broken, Fault
from .faults import IsPrepared, LockTableFull, LogFull, NoGlobalId
from .files import Shape, drop_cache, is_to_make, paths_of, settings_of
from .process import Call, Process
from .records import Bytes, Rid, bytes_of, text_of_name, text_of_number
from .transaction import Transaction

Given = ParamSpec("Given")
Result = TypeVar("Result")

#: So many transactions at once, each in a session of its own; one more waits until one ends. There are 256, with those in doubt.
MOST_TRANSACTIONS = 250
# So many calls at once that are of no transaction of theirs.
MOST_ASKING = 50
# A checkpoint is made as often as this part of the log is written, so that it does not fill.
LOG_PARTS = 8
# Who has to make a transaction again waits a random time first, up to so many seconds, twice as many each time up to the seventh.
FIRST_PAUSE, MOST_DOUBLED = 0.0005, 6
# One that is too large for the log or the lock table is made again no oftener than so.
MOST_WITHOUT_ROOM = 9
# Tickets are below this.
MOST_TICKETS = 1 << 63
PROGRAM = "shore_prog"
#: Where the program is, if it is named nowhere else.
PROGRAM_VARIABLE = "BRASSCRICKET_PROGRAM"


def open(path: str | os.PathLike[str], *, stores: Sequence[int] = Shape.stores, log_bytes: int = Shape.log_bytes, max_locks: int = Shape.max_locks,
         frames: int = Shape.frames, program: str | None = None) -> Store:
    """
    The store of the files `path.log` and `path.volume`, which are made if neither is there. `stores` are the pages of each of its
    parts, `log_bytes` the length of its log: a store that is there keeps its own. The program is the proved one, by its path, or by
    `BRASSCRICKET_PROGRAM`, or else `shore_prog` where programs are found.
    """
    named = program or os.environ.get(PROGRAM_VARIABLE) or PROGRAM
    found = shutil.which(named)
    if not found:
        raise FileNotFoundError(f"no program {named}: build shore_prog, and name it by program= or {PROGRAM_VARIABLE}")
    return Store(os.fsdecode(path), Shape(stores, log_bytes, max_locks, frames), found)


class User(weakref.ref[Transaction]):
    """The transaction of a session, as long as somebody has it."""

    session: int


class Store:
    """An open store. Any number of threads may use it. `with` closes it at the end of its block."""

    def __init__(self, path: str, shape: Shape, program: str) -> None:
        is_new = is_to_make(path)
        drop_cache(path)
        self._process = Process(program, settings_of(path, shape, is_new))
        # Who uses a session, and those that nobody has any more and that have not ended: an interrupt came amid their block's end.
        self._users, self._lost = dict[int, User](), collections.deque[User]()
        # Sessions that nobody uses, and those of who asks outside of a transaction: all transactions may wait for a resolve.
        self._free, self._free_to_ask = queue.SimpleQueue[int](), queue.SimpleQueue[int]()
        for session in range(1, MOST_TRANSACTIONS + MOST_ASKING + 1):
            self._give_session(session)
        # The prepared transactions of this process, by their names, whose sessions are in use until they are resolved.
        self._prepared, self._naming = dict[bytes, Transaction](), threading.Lock()
        self._forced, self._forcing = 0, threading.Lock()
        try:
            self.is_durable(0)
            self._freed, self._bytes_a_checkpoint = self._process.written, os.path.getsize(paths_of(path)[0]) // LOG_PARTS
        except BaseException as error:
            self._process.end()
            if isinstance(error, Fault):
                error.call = "open"
            raise

    def __enter__(self) -> Store:
        return self

    def __exit__(self, kind: type[BaseException] | None, error: BaseException | None, trace: TracebackType | None) -> None:
        self.close()

    def close(self) -> None:
        """Ends the program. A transaction that is under way is not there when the store is opened again; one in doubt is."""
        self._process.end()

    def transaction(self, *, lazy: bool = False) -> Transaction:
        """
        A transaction, for a `with`. At the end of the block it commits, and waits until that is durable. One that is lazy does not wait:
        its commit may be lost by a crash until `wait` of its ticket has returned, or the commit of one that came later.
        """
        return Transaction(self, lazy)

    def run(self, work: Callable[Concatenate[Transaction, Given], Result], /, *given: Given.args, **named: Given.kwargs) -> Result:
        """
        What `work` gives for a transaction of its own, which commits then. It is made again, up to a hundred times, as long as it is
        refused by what may go well the next time, such as a deadlock: so it may be called several times. It is called ten times at most
        as it finds the log or the lock table full, and not again once it has committed or prepared by itself.
        """
        for count in range(99):
            txn = self.transaction()
            try:
                with txn:
                    return work(txn, *given, **named)
            except Again as fault:
                lacks_room = isinstance(fault, (LogFull, LockTableFull))
                if txn.is_kept or lacks_room and count >= MOST_WITHOUT_ROOM:
                    raise
                if isinstance(fault, LogFull):
                    self.checkpoint()
                time.sleep(random.uniform(0, FIRST_PAUSE * 2 ** min(count, MOST_DOUBLED)))
        with self.transaction() as txn:
            return work(txn, *given, **named)

    def retried(self, work: Callable[Concatenate[Transaction, Given], Result]) -> Callable[Given, Result]:
        """A decorator: the function is called without its first argument, and runs as `run` has it."""

        @functools.wraps(work)
        def runs(*given: Given.args, **named: Given.kwargs) -> Result:
            return self.run(work, *given, **named)

        return runs

    def wait(self, ticket: int) -> None:
        """Returns once the commit of a ticket is durable. One force is for all who wait."""
        if self._forced >= ticket:
            return
        with self._forcing:
            # Who had it before has forced for all whose commits were answered by then.
            if self._forced < ticket:
                self._forced = max(self._forced, int(self._process.ask_all("force")[0].removeprefix("forced ")))
        if self._forced < ticket:
            raise ValueError(f"no ticket of this store: {ticket}")

    def _committed(self, ticket: int | None) -> None:
        """A transaction has committed. Waits for this ticket, if there is one, and frees the log if that is due."""
        if ticket is not None:
            self.wait(ticket)
        if self._process.written - self._freed > self._bytes_a_checkpoint:
            self.checkpoint()

    def is_durable(self, ticket: int) -> bool:
        """Whether the commit of a ticket is durable."""
        return self._process.ask_all(f"durable {text_of_number(ticket, MOST_TICKETS)}")[0] == "durable yes"

    def checkpoint(self) -> None:
        """
        Writes pages back and makes a checkpoint, which frees the log up to the first record that is needed still. It is made by itself
        each time an eighth of the log is written, and where a call meets a full log. A log that has no room for one stays as it is.
        """
        self._freed = self._process.written
        try:
            # A page is written back only if its last change is durable.
            self._process.ask_all("checkpoint", "force", "flush")
        except Broken:
            raise
        except Fault:
            pass

    def __getitem__(self, rid: Rid) -> bytes:
        """A record, by a transaction of its own."""
        with self.transaction(lazy=True) as txn:
            return txn.get(rid)

    def records(self, store: int = 0) -> dict[Rid, bytes]:
        """All records of a part, by a transaction of its own."""
        with self.transaction(lazy=True) as txn:
            return txn.scan(store)

    def in_doubt(self) -> dict[bytes, int]:
        """The names of the transactions that are prepared and not decided, with their numbers: they wait for `resolve`."""
        lines = [line.split(" ") for line in self._asked("indoubt")[1:]]
        return {bytes.fromhex(name): int(number) for name, number in lines}

    def resolve(self, name: Bytes, *, commit: bool) -> None:
        """Decides a prepared transaction. Once it returns the decision can be lost no more."""
        resolved = self._prepared.get(bytes_of(name))
        try:
            self._asked(f"resolve {text_of_name(name)} {'commit' if commit else 'abort'}")
        except NoGlobalId:
            # It was decided before, by a call that was interrupted perhaps.
            self._drop_prepared(bytes_of(name), resolved)
            raise
        self._drop_prepared(bytes_of(name), resolved)

    def _asked(self, text: str) -> list[str]:
        """What a call outside of a transaction is answered."""
        session = self._free_to_ask.get()
        try:
            lines = self._process.ask(session, text)
        except Fault:
            self._give_session(session)
            raise
        except BaseException:
            self._leave_session(session)
            raise
        self._give_session(session)
        return lines

    def _take_session(self, txn: Transaction) -> int:
        if self._lost:
            # By a thread, which no interrupt meets.
            _thread.start_new_thread(self._leave_lost, ())
        session = self._free.get()
        # What comes as it is collected is no Python: it may come amid anything.
        user = self._users[session] = User(txn, self._lost.append)
        user.session = session
        return session

    def _leave_lost(self) -> None:
        with contextlib.suppress(IndexError):
            while True:
                self._leave_session(self._lost.popleft().session)

    def _give_session(self, session: int) -> None:
        self._users.pop(session, None)
        (self._free if session <= MOST_TRANSACTIONS else self._free_to_ask).put(session)

    def _keep_prepared(self, name: bytes, txn: Transaction) -> None:
        """Its session takes nothing else until it is resolved. One that had the name before is."""
        with self._naming:
            before, self._prepared[name] = self._prepared.get(name), txn
        if before:
            self._give_session(before._session)

    def _drop_prepared(self, name: bytes, resolved: Transaction | None) -> None:
        with self._naming:
            if not resolved or self._prepared.get(name) is not resolved:
                return
            del self._prepared[name]
        self._give_session(resolved._session)

    def _leave_session(self, session: int) -> None:
        """Its call was interrupted. Whether it was prepared by that is not known: then nobody uses the session any more."""

        def ended(abort: Call) -> None:
            if abort.lines[0].split(" ")[:2] != ["fault", str(IsPrepared.number)]:
                self._give_session(session)

        self._users.pop(session, None)
        self._process.leave(session, ended)
