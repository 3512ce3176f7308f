"""
The program behind two pipes. A line that is written is a call, and who waits for its answer reads for all who wait: no thread stands
between a caller and the program.
"""
from __future__ import annotations

import _thread
import collections
import os
import queue
import subprocess
import tempfile
import threading
import weakref
from collections.abc import Callable

from .errors import Ended
from .faults import fault_of

READ_AT_ONCE = 1 << 16
# How many bytes of what the program says on standard error are told.
MOST_SAID = 4000
# The sessions of the program are numbered from 1 on, below this.
SESSIONS = 1000
NO_LINE = "fault 31 BadConfig line "
#: Answers of so many lines more as they say.
LISTS = ("scan ", "indoubt ")


class Call:
    """A line that was written, and the lines that it was answered, once it was."""

    __slots__ = ("text", "lines", "then")

    def __init__(self, text: str, then: Callable[[Call], None] | None = None) -> None:
        self.text = text
        self.lines: list[str] = []
        # What is done, by a thread of its own, if nobody waits for the answer any more.
        self.then = then


class Process:
    """The program as it runs on settings. Any number of threads may call it, each by a session of its own."""

    def __init__(self, program: str, settings: str) -> None:
        # A file: into a pipe that nobody reads the program would wait for ever.
        self._said = tempfile.TemporaryFile()
        # In a session of its own, so that an interrupt at the terminal goes to this program alone.
        self._child = subprocess.Popen([program], stdin=subprocess.PIPE, stdout=subprocess.PIPE, stderr=self._said, start_new_session=True)
        assert self._child.stdin and self._child.stdout
        self._into, self._out = self._child.stdin.fileno(), self._child.stdout.fileno()
        self._writing, self._state = threading.Lock(), threading.Lock()
        # The calls of each session that are not answered yet, in their order: one, or a begin and the call behind it.
        self._by_session: list[collections.deque[Call]] = [collections.deque() for _ in range(SESSIONS)]
        self._common: collections.deque[Call] = collections.deque()
        # Those that wait, by what wakes them; and by 0 the one of them that reads.
        self._waiting, self._reader = dict[Call, queue.SimpleQueue[None]](), dict[int, Call]()
        #: How many bytes were written: the log gets about as many.
        self.written = 0
        # What was read last; and, each time a new one, so that an interrupt finds all of it as before or after: what was cut last, what
        # is no whole line of it, lines, how many of them count, and how many are given.
        self._piece = collections.deque[bytes]()
        self._cut: tuple[collections.deque[bytes], str, list[str], int, int] = (collections.deque(), "", [], 0, 0)
        # The line that is given just now, and its call.
        self._given: tuple[list[str], int, Call] | None = None
        self._is_over = self._is_closed = False
        self._last_said = ""
        # The program of a store that nobody has any more, and that was not closed, ends too.
        weakref.finalize(self, self._child.stdin.close)
        RUNNING.add(self)
        self._send(self._common, [], f"{settings}---\n")

    def ask(self, session: int, text: str) -> list[str]:
        """What a call of a session is answered: a line, and those of a list behind it. A `Fault` if it is refused."""
        call = Call(text)
        self._send(self._by_session[session], [call], f"{session} {text}\n")
        return self._answer_of(call)

    def begin_and_ask(self, session: int, text: str) -> tuple[Call, Call]:
        """A begin and the call behind it, which go to the program together, once both are answered. If the begin is refused the call is too."""
        begin, call = Call("begin"), Call(text)
        self._send(self._by_session[session], [begin, call], f"{session} begin\n{session} {text}\n")
        self._wait_for(call)
        return begin, call

    def answer(self, call: Call) -> list[str]:
        """What a call was answered. A `Fault` if it was refused, `Ended` if the program has ended before."""
        if call.lines and not call.lines[0].startswith(("fault ", "open fault ")):
            return call.lines
        # Of a call its first two words: what else it has may be long.
        named = " ".join(call.text.split(" ")[:2])
        if not call.lines:
            raise Ended((), named, self._why())
        raise fault_of(call.lines[0], named, self._why() if call.lines[0].startswith("open ") else "")

    def ask_all(self, text: str, *more: str) -> list[str]:
        """What a line of no session is answered, after other such lines whose answers nobody waits for."""
        calls = [Call(it) for it in (*more, text)]
        self._send(self._common, calls, "".join(f"{it.text}\n" for it in calls))
        return self._answer_of(calls[-1])

    def leave(self, session: int, then: Callable[[Call], None]) -> None:
        """
        Nobody waits for a session's call any more. Once it is answered, its transaction is rolled back; `then` is called with what that
        came to.
        """
        with self._state:
            calls = self._by_session[session]
            if calls and not self._is_over:
                calls[-1].then = lambda _: self._abort(session, then)
                return
        _thread.start_new_thread(self._abort, (session, then))

    def end(self) -> int:
        """Ends the program, and gives its status. What was not committed is not there when the store is opened again."""
        assert self._child.stdin and self._child.stdout
        last = Call("the end")
        with self._writing:
            self._is_closed = True
            self._child.stdin.close()
        self._wait_for(last)
        status, self._last_said = self._child.wait(), self._why()
        with self._state:
            self._child.stdout.close()
            self._said.close()
        return status

    def kill(self) -> None:
        self._child.kill()

    def forget(self) -> None:
        """In a process that was forked: the program is its parent's, and ends as the parent's ends of the pipes are closed."""
        assert self._child.stdin and self._child.stdout
        self._is_over = self._is_closed = True
        self._writing, self._state, self._child.returncode = threading.Lock(), threading.Lock(), 0
        for it in (self._child.stdin, self._child.stdout, self._said):
            it.close()

    def _abort(self, session: int, then: Callable[[Call], None]) -> None:
        self._send(self._by_session[session], [Call("abort", then)], f"{session} abort\n")

    def _send(self, calls: collections.deque[Call], more: list[Call], text: str) -> None:
        """Writes lines, whose answers come after those of the calls before. Amid an interrupt all of them are sent, or none."""
        data, taken = text.encode(), collections.deque[int]()
        with self._writing:
            if self._is_closed:
                return
            self.written += len(data)
            try:
                calls.extend(more)
                while (done := sum(taken)) < len(data):
                    # In one step, so that what was written is known if an interrupt comes just then.
                    taken.extend(map(os.write, (self._into,), (data[done:],)))
            except BrokenPipeError:
                # It has ended: what it printed before is still to be read.
                pass
            except BaseException:
                if not taken:
                    while calls and calls[-1] in more:
                        calls.pop()
                elif sum(taken) < len(data):
                    # Part of a line is none.
                    self._child.kill()
                raise

    def _answer_of(self, call: Call) -> list[str]:
        self._wait_for(call)
        return self.answer(call)

    def _wait_for(self, call: Call) -> None:
        """Until it is answered, or the program has ended. An interrupt may come at any place in here."""
        try:
            woken = self._waiting[call] = queue.SimpleQueue()
            while not (call.lines or self._is_over):
                # It reads for all, unless another one does.
                if self._reader.setdefault(0, call) is call:
                    if self._is_over:
                        # Another one that read has found that out just now.
                        break
                    self._read()
                else:
                    woken.get()
        finally:
            try:
                self._hand_over(call)
            except BaseException:
                self._hand_over(call)
                raise

    def _hand_over(self, call: Call) -> None:
        """It waits no more. Another one that waits reads now; all go on if nothing is left to be read."""
        self._waiting.pop(call, None)
        if self._reader.get(0) is call:
            del self._reader[0]
        if not self._reader or self._is_over:
            for woken in [*self._waiting.values()][: None if self._is_over else 1]:
                woken.put(None)

    def _read(self) -> None:
        """Waits for the program, and gives what it has answered. After an interrupt it goes on where it was."""
        if not self._piece:
            # In one step, so that no byte is lost if an interrupt comes just then.
            self._piece.extend(map(os.read, (self._out,), (READ_AT_ONCE,)))
        piece, rest, lines, count, at = self._cut
        if piece is not self._piece:
            *whole, rest = (rest + self._piece[0].decode("ascii", "replace")).split("\n")
            if at == count:
                lines, at = whole, 0
            else:
                lines[count:] = whole
            self._cut = (self._piece, rest, lines, len(lines), at)
        while self._give():
            pass
        self._is_over = not self._piece[0]
        self._piece = collections.deque()

    def _give(self) -> bool:
        """Gives the first answer to its call, if all its lines are there."""
        piece, rest, lines, count, at = self._cut
        if at == count:
            return False
        before, colon, said = lines[at].partition(": ")
        is_of_session = bool(colon) and before.isdigit()
        said = said if is_of_session else lines[at]
        after = at + 1 + (int(said.split(" ")[1]) if said.startswith(LISTS) else 0)
        if after > count:
            return False
        call = None
        if not said.startswith("waits "):
            calls = self._by_session[int(before)] if is_of_session else self._common
            call = self._given_call(calls, lines, at, after, said)
        self._cut = (piece, rest, lines, count, after)
        if call and call.then:
            try:
                # In one step, so that an interrupt finds it done or not begun. By a thread: who reads must not wait for who writes.
                _thread.start_new_thread(call.then, (call,))
            except RuntimeError:
                # A transaction would stay for ever that nobody ends.
                self._child.kill()
                raise
        return True

    def _given_call(self, calls: collections.deque[Call], lines: list[str], at: int, after: int, said: str) -> Call | None:
        """The call that a line answers, once it has its answer."""
        if not (self._given and self._given[0] is lines and self._given[1] == at):
            if not calls or said.startswith(NO_LINE):
                # A line of this module's that the program does not know: nobody knows any more which answer is whose.
                self._child.kill()
                return None
            self._given = (lines, at, calls[0])
        call = self._given[2]
        call.lines = [said, *lines[at + 1 : after]]
        with self._state:
            if calls and calls[0] is call:
                calls.popleft()
        if woken := self._waiting.pop(call, None):
            woken.put(None)
        return call

    def _why(self) -> str:
        """The end of what the program has said on standard error."""
        with self._state:
            if self._said.closed:
                return self._last_said
            file = self._said.fileno()
            return os.pread(file, MOST_SAID, max(0, os.fstat(file).st_size - MOST_SAID)).decode(errors="replace").strip()


# Those of this process.
RUNNING: weakref.WeakSet[Process] = weakref.WeakSet()


def forget_all() -> None:
    for it in [*RUNNING]:
        it.forget()


os.register_at_fork(after_in_child=forget_all)
