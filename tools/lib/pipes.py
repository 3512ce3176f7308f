"""The program as a child behind pipes: a line is written, and what it answers is read; or a whole run of it. For examples/client.py, tools/shell and the checks."""
import subprocess

from cache import drop_cache, paths_of

# No call answers as this line does, if nobody else uses its session: so its answer ends those of the lines before it.
LAST_LINE, ITS_ANSWER = "999 commit", "999: "


def played(program, script, folder=None, **how):
    """A whole run of the program on a script, once it has ended. Before it starts, the system's cache of its files is dropped."""
    drop_cache(*paths_of(script, folder))
    return subprocess.run([program], cwd=folder, input=script, capture_output=True, encoding="utf-8", errors="replace", check=False, **how)


class Ended(Exception):
    """The program has ended. What it still printed is with it."""


class Child:
    """The program as it runs on settings, in a folder. Before it starts, the system's cache of its files is dropped."""

    def __init__(self, program, settings, folder=None, **how):
        drop_cache(*paths_of(settings, folder))
        self.process = subprocess.Popen([program], cwd=folder, stdin=subprocess.PIPE, stdout=subprocess.PIPE, text=True, bufsize=1, **how)
        self.send(f"{settings}---")

    def send(self, line):
        try:
            self.process.stdin.write(line + "\n")
        except BrokenPipeError:
            # What it printed before it ended is still to be read.
            pass

    def answer(self):
        """The next line that it prints."""
        line = self.process.stdout.readline()
        if not line.endswith("\n"):
            raise Ended
        return line[:-1]

    def ask(self, line):
        self.send(line)
        return self.answer()

    def answers(self, lines):
        """All that it prints for these lines, none of which is of session 999."""
        found = []
        self.send("\n".join([*lines, LAST_LINE]))
        try:
            while not (line := self.answer()).startswith(ITS_ANSWER):
                found.append(line)
        except Ended:
            raise Ended(*found) from None
        return found

    def kill(self):
        self.process.kill()

    def end(self):
        """The rest of its output, once it has ended."""
        try:
            self.process.stdin.close()
        except BrokenPipeError:
            pass
        rest = self.process.stdout.read()
        self.process.stdout.close()
        self.process.wait()
        return rest

    def status(self):
        return self.process.returncode
