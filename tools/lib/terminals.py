"""The shell on a terminal of its own, for check-shell and check-first-hour."""
import os
import pty
import re
import select
import time

PROMPT, SECONDS = "shore> ", 60
CTRL_C = "\x03"


class Terminal:
    """A command that runs in a folder, on a terminal that lines are typed on."""

    def __init__(self, command, folder):
        self.child, self.end = pty.fork()
        if self.child == 0:
            os.chdir(folder)
            os.execve(command[0], command, {**os.environ, "TERM": "dumb", "INPUTRC": "/dev/null", "SHORE_HISTORY": f"{folder}/history"})

    def shown(self):
        """What comes up to the next prompt, or to the end."""
        text = ""
        while not text.endswith(PROMPT):
            if not select.select([self.end], [], [], SECONDS)[0]:
                raise SystemExit(f"FAILED: no prompt comes in {SECONDS} seconds after {text!r}")
            try:
                text += os.read(self.end, 65_536).decode()
            except OSError:
                break
        return re.sub(r"\x1b\[[^a-zA-Z]*[a-zA-Z]|\r", "", text)

    def types(self, text):
        os.write(self.end, text.removesuffix(CTRL_C).encode())
        if text.endswith(CTRL_C):
            # An interrupt is noticed at once only if the shell waits for a key by then.
            time.sleep(1)
            os.write(self.end, CTRL_C.encode())
        return self.shown()

    def answers(self, line):
        """The lines that are shown after a typed one, up to the next prompt or the end."""
        shown = self.types(f"{line}\n").split("\n")[1:]
        return shown[:-1] if shown[-1:] in ([PROMPT], [""]) else shown

    def program(self):
        """The process of the program that the shell runs now; none if it runs none."""
        with open(f"/proc/{self.child}/task/{self.child}/children", encoding="ascii") as it:
            return [int(number) for number in it.read().split()]

    def status(self):
        """The shell's exit status, once it has ended."""
        return os.waitstatus_to_exitcode(os.waitpid(self.child, 0)[1])
