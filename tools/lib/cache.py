"""Drops what the system's cache has of the files of a pair, before a program is started over them.

    python3 tools/lib/cache.py FILE..      does so for these files

A sync that fails may leave bytes that are read as written and that no later sync writes: the system has marked them clean. Whoever begins anew over such a cache builds on what the disk
does not have. So it is dropped, and what is read then is what the disk has. What waits to be written is written first.
"""
import os
import stat
import sys
import tomllib

PATHS = ("log_path", "volume_path")


def settings_of(text):
    """The settings of a text, which may go on after them with a script; none if they are no TOML, which the program tells."""
    try:
        return tomllib.loads(f"\n{text}".partition("\n---\n")[0])
    except tomllib.TOMLDecodeError:
        return {}


def paths_of(text, folder=None):
    """The files that settings name, as a program in the folder finds them."""
    settings = settings_of(text)
    if settings.get("devices") != "files":
        return []
    return [os.path.join(folder or "", settings[key]) for key in PATHS if isinstance(settings.get(key), str)]


def drop_cache(*paths):
    """What is no file, or cannot be opened, is left alone: the program says so itself."""
    for path in paths:
        try:
            file = os.open(path, os.O_RDONLY | os.O_NONBLOCK | os.O_CLOEXEC)
        except (OSError, ValueError):
            continue
        try:
            if stat.S_ISREG(os.fstat(file).st_mode):
                drop_of_file(file, path)
        finally:
            os.close(file)


def drop_of_file(file, path):
    try:
        os.fsync(file)
    except OSError as error:
        # What could not be written is gone with the cache, as after a loss of power. Nobody was told that it is durable.
        print(f"{path}: {error.strerror}: what was not written before is lost", file=sys.stderr)
    os.posix_fadvise(file, 0, 0, os.POSIX_FADV_DONTNEED)


if __name__ == "__main__":
    drop_cache(*sys.argv[1:])
