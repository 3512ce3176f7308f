"""Which modules the prover read for a function, as the files of its checked modules list them, and in which files of the repository these have their text."""
import os
import re

from rests import places_of

_MODULE = re.compile(r"Rattle[.-](\w+)[.-](specs|proofs)(?:\.(.*))?$")
# Modules of a function in which the prover also goes through the proofs of all that it calls.
_GOES_THROUGH = {"Proof", "Tie", "TheLink", "Met"}


def heads_in(folder):
    """Of each checked module below the folder its name, and the modules that it imports or saw."""
    for at, _, names in os.walk(folder):
        for name in names:
            if name.endswith(".oantt") and not name.endswith(".decls.oantt"):
                yield head_of(f"{at}/{name}")


def head_of(file):
    module, read = "", set()
    with open(file, "rb") as it:
        for line in it:
            if not line.startswith(b"--@ ") or line.startswith(b"--@ interface"):
                break
            words = line.split()
            if words[1] == b"module":
                module = words[2].decode()
            elif words[1] in (b"import", b"saw"):
                read.add(words[2].decode())
    return module, read


def files_read(texts, crate, keys, folder):
    """The files of which the proofs of these functions read a module, and those of which their goals or answers do; nothing if no module of one is there."""
    own = [re.escape(f"Rattle-{crate}-{place.rstrip('/').replace('/', '.')}") for key in keys for place in places_of(key)]
    is_own, every, by_goals = re.compile(rf"(?:{'|'.join(own)})(?:\.|$)"), set(), set()
    for module, read in heads_in(folder):
        if is_own.match(module):
            found = {file for it in read for file in files_of(texts, it)}
            every |= found
            by_goals |= set() if module.rpartition(".")[2] in _GOES_THROUGH else found
    return every, by_goals


def files_of(texts, module):
    """The files of the repository in which a module has its text: its own, or those of src/ of which it is made."""
    found = _MODULE.match(module)
    if not found or found[1] not in texts.crates or (found[3] or "").startswith(("Destruct++", "contracts.Destruct++")):
        return ()
    return tuple({f"{it.file.crate}/{it.file.path}" for it in texts.brought(module, None)})
