"""Which program a check runs: the one that its first argument names, by a path with a '/', and otherwise the proved one, that `rt ci` or ./shore --prove has built.

    python3 tools/lib/programs.py [PROGRAM]      prints its path
"""
import os
import signal
import sys

ROOT = os.path.dirname(os.path.dirname(os.path.dirname(os.path.realpath(__file__))))
PROVED = f"{ROOT}/crates/shore_prog/out/shore_prog"


def end_quietly():
    """A reader that has seen enough, such as `head`, ends the command without a word."""
    signal.signal(signal.SIGPIPE, signal.SIG_DFL)


def tell_help(arguments):
    """Prints what a command says of itself, and ends it, if that is asked for."""
    if any(it in ("--help", "-h") for it in arguments):
        end_quietly()
        print(sys.modules["__main__"].__doc__.strip())
        raise SystemExit(0)


def named_program(arguments):
    """The program, and the arguments after it."""
    tell_help(arguments)
    is_named = bool(arguments) and "/" in arguments[0]
    program = os.path.abspath(arguments[0]) if is_named else PROVED
    if not os.access(program, os.X_OK):
        how = "" if is_named else ": run rt ci or ./shore --prove first, or name another, as $(tools/try-program shore_prog) does"
        raise SystemExit(f"no program at {program}{how}")
    return program, arguments[1:] if is_named else arguments


if __name__ == "__main__":
    print(named_program(sys.argv[1:])[0])
