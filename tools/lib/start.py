"""Starts a program over the script at standard input, after a drop of the system's cache of the files that its settings name: for ./shore.

    python3 tools/lib/start.py PROGRAM

Of a file the settings are looked at and stay. From a pipe they have to be taken, so they are handed on, and all that follows them as it comes. Status: the program's; or 128 more than the
signal that ended it.
"""
import os
import signal
import stat
import subprocess
import sys
import threading

sys.dont_write_bytecode = True
from cache import drop_cache, paths_of

# Longer settings are handed on as they are, and the files that they name further on keep their cache.
MOST_OF_SETTINGS, CHUNK = 1 << 20, 1 << 16


def has_settings(taken):
    return b"\n---\n" in b"\n" + taken or len(taken) > MOST_OF_SETTINGS


def drop_for(taken):
    drop_cache(*paths_of(taken.decode(errors="replace")))


def taken_from_pipe():
    """The first bytes of the input, up to the end of the settings at least."""
    taken = b""
    while not has_settings(taken) and (more := os.read(0, CHUNK)):
        taken += more
    return taken


def hand_on(taken, pipe):
    """Hands what was taken to the program, and then what comes, until the input or the program ends."""
    try:
        while taken:
            taken = taken[os.write(pipe, taken) :] or os.read(0, CHUNK)
    except BrokenPipeError:
        pass
    os.close(pipe)


def main():
    program = sys.argv[1]
    try:
        mode = os.fstat(0).st_mode
        if stat.S_ISREG(mode):
            drop_for(os.pread(0, MOST_OF_SETTINGS, os.lseek(0, 0, os.SEEK_CUR)))
        taken = b"" if stat.S_ISREG(mode) else taken_from_pipe()
    except OSError:
        # The program says that its input cannot be read.
        mode = stat.S_IFREG
    if stat.S_ISREG(mode):
        os.execv(program, [program])
    drop_for(taken)
    child = subprocess.Popen([program], stdin=subprocess.PIPE, bufsize=0)
    # The program may end before its input does.
    threading.Thread(target=hand_on, args=(taken, os.dup(child.stdin.fileno())), daemon=True).start()
    child.stdin.close()
    # An interrupt is the program's to answer.
    signal.signal(signal.SIGINT, signal.SIG_IGN)
    status = child.wait()
    os._exit(status if status >= 0 else 128 - status)


if __name__ == "__main__":
    main()
