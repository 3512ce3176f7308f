"""A transaction: the calls of one session from its begin to its end."""
from __future__ import annotations

import contextlib
from collections.abc import Iterator
from types import TracebackType
from typing import TYPE_CHECKING

from .errors import Broken, Fault
from .faults import Deadlock, LogFull, MustAbort, WouldBlock
from .records import (Bytes, Granule, Mode, Rid, bytes_of, record_of, text_of_granule, text_of_mode, text_of_name, text_of_number,
                      text_of_record, text_of_rid)

if TYPE_CHECKING:
    from .store import Store


class Transaction:
    """
    It begins with its first call, commits at the end of its `with` block, and is rolled back if an exception leaves the block. One
    thread uses it at a time.

        with store.transaction() as txn:
            rid = txn.insert(b"100")
    """

    def __init__(self, store: Store, is_lazy: bool) -> None:
        self._store, self._is_lazy, self._session = store, is_lazy, 0
        self._is_over = self._is_left = self._is_prepared = False
        #: Its number, from its first call on: the greatest of a cycle of waits is the victim.
        self.number: int | None = None
        #: Once it has committed: what `Store.wait` and `Store.is_durable` are asked of.
        self.ticket: int | None = None

    def __enter__(self) -> Transaction:
        if self._session:
            raise RuntimeError("a transaction has one block")
        self._session = self._store._take_session(self)
        return self

    def __exit__(self, kind: type[BaseException] | None, error: BaseException | None, trace: TracebackType | None) -> None:
        if self._is_left and kind is None:
            raise RuntimeError("a call was interrupted, so the transaction is rolled back")
        try:
            if kind is None and not self._is_over:
                self.commit()
        finally:
            self._roll_back()

    def _roll_back(self) -> None:
        """Ends one that has not ended. What went wrong before is what is told."""
        if self._is_over:
            return
        try:
            self.abort()
        except Broken:
            self._end()
        except Fault:
            self._leave()

    def insert(self, record: Bytes, store: int = 0) -> Rid:
        """A new record in a store. Its id."""
        return Rid.of(self._ask(f"insert {text_of_number(store)} {text_of_record(record)}")[0].removeprefix("at "))

    def get(self, rid: Rid, for_update: bool = False) -> bytes:
        """The record; `for_update` if it is to be changed then, so that two who do so do not meet in a deadlock."""
        return record_of(self._ask(f"{'getu' if for_update else 'get'} {text_of_rid(rid)}")[0].removeprefix("bytes "))

    def update(self, rid: Rid, record: Bytes) -> None:
        self._ask(f"update {text_of_rid(rid)} {text_of_record(record)}")

    def delete(self, rid: Rid) -> None:
        self._ask(f"delete {text_of_rid(rid)}")

    def __getitem__(self, rid: Rid) -> bytes:
        return self.get(rid)

    def __setitem__(self, rid: Rid, record: Bytes) -> None:
        self.update(rid, record)

    def __delitem__(self, rid: Rid) -> None:
        self.delete(rid)

    def scan(self, store: int = 0) -> dict[Rid, bytes]:
        """All records of a store, by their ids, in their order."""
        found = (line.split(" ") for line in self._ask(f"scan {text_of_number(store)}")[1:])
        return {Rid.of(rid): record_of(record) for rid, record in found}

    def lock(self, granule: Granule, mode: Mode = Mode.EX, wait: bool = True) -> bool:
        """
        Locks a granule to the transaction's end. False if it may not wait, and somebody is in the way. A store that is locked in EX
        before a long load spares the locks of its records, of which there are no more than `max_locks`.
        """
        try:
            self._ask(f"{'lock' if wait else 'try'} {text_of_granule(granule)} {text_of_mode(mode)}")
        except WouldBlock:
            return False
        return True

    @contextlib.contextmanager
    def savepoint(self) -> Iterator[None]:
        """
        If an exception leaves the block, what was changed in it is put back, its locks stay, and the exception goes on. A victim of
        a deadlock can only be rolled back whole, which the end of its own block does.
        """
        index = self._ask("savepoint")[0].removeprefix("savepoint ")
        try:
            yield
        except (Deadlock, MustAbort, Broken):
            raise
        except BaseException:
            if not self._is_over:
                self._ask(f"back {index}")
            raise

    def prepare(self, name: Bytes) -> None:
        """
        From now on the transaction can be lost no more, through crashes too. It keeps its locks and waits for `Store.resolve` by this
        name, of 1 to 64 bytes, or to 255 in files of version 2.
        """
        self._ask(f"prepare {text_of_name(name)}")
        self._is_over = self._is_prepared = True
        self._store._keep_prepared(bytes_of(name), self)

    def commit(self) -> None:
        """Commits, and waits until that is durable, or not if the transaction is lazy. The end of the block does so by itself."""
        said = self._ask("lazy")[0]
        self.ticket = int(said.removeprefix("ticket "))
        self._end()
        self._store._committed(None if self._is_lazy else self.ticket)

    @property
    def is_kept(self) -> bool:
        """Whether it has committed, or is prepared: it is not rolled back any more by an exception."""
        return self._is_prepared or self.ticket is not None

    def abort(self) -> None:
        """Puts back all that it has changed. An exception that leaves the block does so by itself."""
        self._check()
        if self.number is not None:
            self._ask("abort")
        self._end()

    def _check(self) -> None:
        if not self._session:
            raise RuntimeError("a transaction is used within its block: with store.transaction() as txn")
        if self._is_over:
            raise RuntimeError("the transaction is over")

    def _ask(self, text: str) -> list[str]:
        self._check()
        try:
            try:
                return self._ask_once(text)
            except LogFull:
                # A refused call has changed nothing, so it may be made again once the log is freed.
                self._store.checkpoint()
                return self._ask_once(text)
        except Fault:
            raise
        except BaseException:
            # An interrupt: the call goes on, and the transaction is rolled back once it is answered.
            self._leave()
            raise

    def _ask_once(self, text: str) -> list[str]:
        """It begins with its first call, in one go."""
        return self._store._process.ask(self._session, text) if self.number is not None else self._begin(text)

    def _begin(self, text: str) -> list[str]:
        process = self._store._process
        begin, call = process.begin_and_ask(self._session, text)
        self.number = int(process.answer(begin)[0].removeprefix("began "))
        return process.answer(call)

    def _leave(self) -> None:
        self._is_over = self._is_left = True
        self._store._leave_session(self._session)

    def _end(self) -> None:
        self._is_over = True
        self._store._give_session(self._session)
