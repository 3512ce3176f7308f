"""What a call is refused by: the faults of the program, each a class of `faults`, and the end of the program."""
from __future__ import annotations

from typing import ClassVar


class Fault(Exception):
    """
    A call was refused. Unless `after` says otherwise it has changed nothing but locks, which it may have taken and keeps.
    The numbers and texts are those of the program: docs/FAULTS.md.
    """

    number: ClassVar[int] = 0
    cause: ClassVar[str] = ""
    after: ClassVar[str] = ""
    advice: ClassVar[str] = ""

    def __init__(self, data: tuple[str, ...] = (), call: str = "", why: str = "") -> None:
        #: What the fault names: of a Deadlock the transactions of its cycle, of a WouldBlock who is in the way.
        self.data = data
        #: The call that was refused.
        self.call = call
        #: What the program says of the cause beside it, if it does: which file, and the system's reason.
        self.why = why
        super().__init__(data, call, why)

    def __str__(self) -> str:
        name = " ".join([f"{self.number} {type(self).__name__}", *self.data])
        parts = [name + (f" in {self.call}" if self.call else ""), self.why or self.cause, self.advice]
        return ": ".join(it for it in parts if it)


class Again(Fault):
    """The transaction may be made again as it is: `Store.run` does that."""


class Broken(Fault):
    """The store has to be opened again. What was acknowledged is there then."""


class Ended(Broken):
    """
    The program has ended, or was killed. What was acknowledged is there once the store is opened again; a commit, a prepare or a
    resolve under way may be there or not.
    """

    advice = "open the store again"
