"""The faults of the program, each a class. Made from docs/FAULTS.md by tools/python-faults: not to be changed by hand."""
from __future__ import annotations

from .errors import Again, Broken, Fault


class NoTransaction(Fault):
    number = 1
    cause = "the session has no transaction"
    after = ""
    advice = "begin first"


class AlreadyActive(Fault):
    number = 2
    cause = "a begin, and the session has a transaction; or a resolve, and it is in another one than that"
    after = ""
    advice = "end it first, or resolve from another session"


class TooManyTransactions(Again):
    number = 3
    cause = "a begin, and 256 transactions are in the table, with those in doubt and those whose resolves wait"
    after = ""
    advice = "wait until one ends"


class NoStore(Fault):
    number = 4
    cause = "the volume has no such store"
    after = ""
    advice = "name a store of the settings"


class NoPage(Fault):
    number = 5
    cause = "the store has no such page"
    after = ""
    advice = "name a page of the store"


class NoRecord(Fault):
    number = 6
    cause = "no record is at the id, or the slot is 2,042 or more (of version 2: 4,090)"
    after = ""
    advice = "name one that is there (`dump` lists them)"


class TooLong(Fault):
    number = 7
    cause = "the record has more than 4,000 bytes (of version 2: 12,000)"
    after = ""
    advice = "split it"


class StoreFull(Fault):
    number = 8
    cause = "no page of the store has room for the record in a place that can be locked now, or for an update its own page has none, with what is kept for undo"
    after = ""
    advice = "use another store, or more pages"


class LogFull(Again):
    number = 9
    cause = "the log has no room for the record, its undo and all that is reserved, or its numbers are at their limit. A prepare asks for its record and 34 bytes more; a resolve asks for nothing. A checkpoint's begin asks for its own records, and that its cut leaves room for another one"
    after = "the transaction can still commit, go back or abort, all of which was reserved for; a checkpoint has not begun"
    advice = "end transactions, flush, make a checkpoint: see \"A full log\" below"


class LockTableFull(Again):
    number = 10
    cause = "the lock needs a node, and the table is at its limit (`max_locks`)"
    after = ""
    advice = "for many records of one store, abort and lock the store first (`1 lock 0 EX`, or SH to read): then a record takes no node. Else commit, or format with more (OPERATING.md)"


class BadMode(Fault):
    number = 11
    cause = "a granule of this level does not take the mode"
    after = ""
    advice = "ask another mode"


class Deadlock(Again):
    number = 12
    cause = "the transaction is the victim of a cycle: each of it waits for the next, the last for the first"
    after = "it keeps its locks and changes, and takes only abort"
    advice = "abort, and begin again"


class MustAbort(Fault):
    number = 13
    cause = "the transaction is such a victim, or a rollback of it was interrupted (by Memory, or in a library's hands by NeedForce); or a resolve to commit, after a resolve to abort that was so interrupted"
    after = ""
    advice = "abort; or make an interrupted way back, or resolve to abort, again"


class Busy(Fault):
    number = 14
    cause = "the session's earlier call still waits"
    after = ""
    advice = "resume that call"


class NoSavepoint(Fault):
    number = 15
    cause = "the transaction has no such savepoint"
    after = ""
    advice = "name one that it has"


class TooManySavepoints(Fault):
    number = 16
    cause = "the transaction has 64"
    after = ""
    advice = "go back to one of them, or commit"


class IsPrepared(Fault):
    number = 17
    cause = "the transaction is prepared, and waits for its decision"
    after = ""
    advice = "resolve it"


class BadGlobalId(Fault):
    number = 18
    cause = "the global id is empty, or has more than 64 bytes (of version 2: 255)"
    after = ""
    advice = "give a shorter one, of a byte at least"


class GlobalIdInUse(Fault):
    number = 19
    cause = "a transaction of the table has this global id; so it is until its resolve is answered"
    after = ""
    advice = "choose another"


class NoGlobalId(Fault):
    number = 20
    cause = "no prepared transaction of the table has this global id, or its prepare is not answered yet"
    after = ""
    advice = "ask which are in doubt; it may be decided already, by a record that is not durable yet if that resolve still waits"


class WouldBlock(Again):
    number = 21
    cause = "the lock would have to wait for this transaction, and the call may not wait, or its wait was taken back"
    after = "the transaction goes on, with what it held"
    advice = "try again, or wait"


class NeedForce(Fault):
    number = 22
    cause = "a page can be written only once the log is durable up to this number"
    after = "as after Memory"
    advice = "force, and call again, as a script does by itself"


class Device(Broken):
    number = 23
    cause = "a device failed in this call; or a file cannot be opened, or another program has it open. Of an open standard error says which file, and why"
    after = "every later call answers Failed. A commit whose force failed, or that is not durable yet, a prepare or a resolve under way may have survived or not. `durable N` is answered as before. But a `log` line, which reads the log device alone, changes nothing if its read fails"
    advice = "open the devices again (`crash` in a script). But a file of which a sync failed is opened no more until the program ends: see \"A sync that failed\" below"


class Failed(Broken):
    number = 24
    cause = "an earlier call ended by Device, or by Damaged"
    after = ""
    advice = "open the devices again"


class Damaged(Broken):
    number = 25
    cause = "at this offset the device breaks its format"
    after = "what is damaged is as it was; an open may have written other pages before it met it; if a call met it, every later call answers Failed"
    advice = "restore the device; nothing is mended"


class WrongVersion(Fault):
    number = 26
    cause = "the label is of a version of the formats other than 1 and 2"
    after = ""
    advice = "use the program of that version"


class Memory(Fault):
    number = 27
    cause = "an allocation failed"
    after = "a rollback keeps the steps that it has made, a resolve to abort its decision too, and the same call goes on with the others. For a commit, a prepare and a resolve see \"No force and no flush lacks memory\" below"
    advice = "call again once there is memory"


class NotQuiet(Fault):
    number = 28
    cause = "a transaction is under way, or a resolve waits, as the trail is cut or at a line `threads`. A frame is under way as a world's records are handed over. Or a session is missing as a manager for threads is to be a world again"
    after = ""
    advice = "end them first; open the gate"


class NotFormatted(Fault):
    number = 29
    cause = "the device has no label of its kind"
    after = ""
    advice = "format it"


class WrongPair(Fault):
    number = 30
    cause = "the labels of the two devices differ in version, pair number, lock nodes or stores"
    after = ""
    advice = "open the right pair"


class BadConfig(Fault):
    number = 31
    cause = "a setting is wrong; a line is none of the script; or files would be made anew without a word, or are not ours"
    after = "see below"
    advice = "mend that setting or line"


BY_NUMBER: dict[int, type[Fault]] = {it.number: it for it in (NoTransaction, AlreadyActive, TooManyTransactions, NoStore, NoPage, NoRecord, TooLong, StoreFull, LogFull, LockTableFull, BadMode, Deadlock, MustAbort, Busy, NoSavepoint, TooManySavepoints, IsPrepared, BadGlobalId, GlobalIdInUse, NoGlobalId, WouldBlock, NeedForce, Device, Failed, Damaged, WrongVersion, Memory, NotQuiet, NotFormatted, WrongPair, BadConfig)}

__all__ = ["NoTransaction", "AlreadyActive", "TooManyTransactions", "NoStore", "NoPage", "NoRecord", "TooLong", "StoreFull", "LogFull", "LockTableFull", "BadMode", "Deadlock", "MustAbort", "Busy", "NoSavepoint", "TooManySavepoints", "IsPrepared", "BadGlobalId", "GlobalIdInUse", "NoGlobalId", "WouldBlock", "NeedForce", "Device", "Failed", "Damaged", "WrongVersion", "Memory", "NotQuiet", "NotFormatted", "WrongPair", "BadConfig"]


def fault_of(line: str, call: str, why: str) -> Fault:
    """The fault that a line of the program tells, such as `fault 12 Deadlock 2 1`."""
    number, _, *data = line.removeprefix("open ").split(" ")[1:]
    return BY_NUMBER[int(number)](tuple(data), call, why)
