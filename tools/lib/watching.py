"""Watches clients in threads: each has to make a turn now and then. If one makes none for a minute, what each thread of the program is at is kept, for whoever has to find out why."""
import glob
import os
import shutil
import subprocess
import tempfile
import time

from lives import Failure

# Whoever makes no turn for so many seconds hangs. Nothing is judged by them but that.
LONGEST_TURN = 60
POLL = 0.02


def told_of_thread(folder):
    """What the system tells of a thread that nobody debugs."""
    said = []
    for name in ("comm", "wchan", "syscall", "stack"):
        try:
            with open(f"{folder}/{name}", encoding="utf-8", errors="replace") as file:
                said.append(f"{name}: {file.read().strip()}")
        except OSError as error:
            said.append(f"{name}: {error.strerror}")
    return "\n".join([folder, *said])


def stacks_of(process):
    """The stack of each thread by gdb, if it is there, and otherwise what the system tells of each."""
    if shutil.which("gdb"):
        command = ["gdb", "-nx", "-batch", "-p", str(process), "-ex", "set pagination off", "-ex", "thread apply all bt"]
        found = subprocess.run(command, stdin=subprocess.DEVNULL, capture_output=True, text=True, check=False)
        if found.returncode == 0 and "Thread" in found.stdout:
            return found.stdout
    return "\n\n".join(map(told_of_thread, sorted(glob.glob(f"/proc/{process}/task/*"))))


def kept(text):
    """The path of a new file with this text, which stays."""
    file, path = tempfile.mkstemp(prefix="stacks-", suffix=".txt")
    with os.fdopen(file, "w", encoding="utf-8") as it:
        it.write(text)
    return path


class Watch:
    """The clients of a run, by what they note."""

    def __init__(self, notes, run, count):
        self.notes, self.run, self.count, self.began = notes, run, count, time.time()

    def turns(self):
        """A number for each client that is greater after each of its turns; it fails if one made none for too long."""
        now = time.time()
        late = [client for client in range(self.count) if now - max(self.began, self.notes.written_at(client)) > LONGEST_TURN]
        if late and self.run.poll() is None:
            path = kept(stacks_of(self.run.pid))
            self.run.kill()
            raise Failure(f"clients {late} made no turn for {LONGEST_TURN} seconds: what the threads were at is in {path}")
        return [sum(self.notes.of(client)) for client in range(self.count)]

    def until(self, is_enough):
        """Waits until the turns are enough, or the program has ended. Answers whether they were."""
        while not is_enough(self.turns()):
            if self.run.poll() is not None:
                return False
            time.sleep(POLL)
        return True

    def until_all_turned(self):
        """Waits until each client has made a turn since, or the program has ended. Answers whether each has."""
        before = self.turns()
        return self.until(lambda turns: all(one > other for one, other in zip(turns, before)))
