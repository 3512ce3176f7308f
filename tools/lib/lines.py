"""The lines that a script may have, as docs/SCRIPT.md lists them: to judge one before the program reads it, and to say what is wrong with a wrong one."""
import re

NUMBER = r"0|[1-9][0-9]*"
MODES = ("IS", "IX", "SH", "SIX", "UD", "EX")


def is_number(word, most):
    return bool(re.fullmatch(NUMBER, word)) and int(word) <= most


def are_numbers(word, count):
    """Whether the word is a store, a page or a record, by so many numbers."""
    parts = word.split(".")
    return len(parts) == count and all(is_number(it, most) for it, most in zip(parts, (2**32 - 1, 2**32 - 1, 2**16 - 1)))


def are_bytes(word):
    pairs, star, times = word.partition("*")
    if star:
        return bool(re.fullmatch("[0-9a-f]{2}", pairs)) and is_number(times, 99_999) and times != "0"
    return word == "-" or bool(re.fullmatch("([0-9a-f]{2})+", word))


# The words of a line: whether one is right, and what it has to be.
WORDS = {
    "STORE": (lambda it: are_numbers(it, 1), "the number of a store, such as 0"),
    "RECORD": (lambda it: are_numbers(it, 3), "a record's id STORE.PAGE.SLOT, such as 0.0.0"),
    "GRANULE": (lambda it: it == "v" or any(are_numbers(it, count) for count in (1, 2, 3)), "v (the volume), STORE, STORE.PAGE or STORE.PAGE.SLOT"),
    "MODE": (lambda it: it in MODES, f"one of {', '.join(MODES)}"),
    "BYTES": (are_bytes, "pairs of the digits 0 to 9 and a to f, HH*N for N times one byte, or - for none"),
    "GLOBAL": (lambda it: bool(re.fullmatch("([0-9a-f]{2})+", it)), "a global id: pairs of the digits 0 to 9 and a to f"),
    "OUTCOME": (lambda it: it in ("commit", "abort"), "commit or abort"),
    "N": (lambda it: is_number(it, 2**64 - 1), "a number, such as 0"),
    "THREADS": (lambda it: is_number(it, 16) and it != "0", "a number from 1 to 16"),
    "TIMES": (lambda it: is_number(it, 1_000) and it != "0", "a number from 1 to 1000"),
    "DEVICE": (lambda it: it in ("log", "volume"), "log or volume"),
    "mixed": (lambda it: it == "mixed", "mixed, with a number behind it"),
    "PICK": (lambda it: it in ("old", "new", "noise"), "old, new or noise, or mixed and a number"),
    "HALF": (lambda it: it in ("begin", "end"), "begin or end"),
}

# What a session calls, each after its number; then the other lines.
CALLS = [
    ("begin", "begins a transaction"),
    ("insert STORE BYTES", "puts a record into a store, and answers its id"),
    ("get RECORD", "reads a record"),
    ("getu RECORD", "reads a record that is to be changed, under an update lock"),
    ("update RECORD BYTES", "changes a record"),
    ("delete RECORD", "takes a record away"),
    ("scan STORE", "reads all records of a store"),
    ("lock GRANULE MODE", "locks, and waits if it has to; a store in EX has no locks of its records, for a long load"),
    ("try GRANULE MODE", "locks, or is refused if it would have to wait"),
    ("savepoint", "answers the number of a savepoint"),
    ("back N", "puts back what was changed since savepoint N"),
    ("commit", "ends the transaction; its changes are durable once this is answered"),
    ("lazy", "ends the transaction, and answers the ticket of its changes, which are not durable yet"),
    ("giveup", "takes back its wait for a lock: the call is refused, and the transaction goes on"),
    ("abort", "ends the transaction; its changes are put back"),
    ("prepare GLOBAL", "makes it durable and undecided, by a name of its coordinator's"),
    ("resolve GLOBAL OUTCOME", "decides one that is prepared, from any session in no other"),
    ("indoubt", "those that are prepared and undecided"),
]
OTHERS = [
    ("dump", "every record in place"),
    ("log", "every record of the log that is kept"),
    ("locks", "every node of the lock table"),
    ("durable N", "whether the commit with ticket N is durable"),
    ("threads THREADS TIMES RECORD", "counts a record of 8 bytes up, by so many threads, each so often"),
    ("force", "makes all records of the log durable"),
    ("flush", "writes back all pages whose last change is durable"),
    ("checkpoint", "an open reads the log from here on, but for what transactions and pages still need"),
    ("checkpoint HALF", "begins a checkpoint, or ends it, with other lines between"),
    ("crash", "the power is lost, and the pair is opened again"),
    ("crash mixed N", "the same; the unsynced write i of a device, from 0 on, stands if bit i mod 64 of N is set; in memory alone"),
    ("crash PICK", "the same, with unsynced bytes as before, as written, or noise; in memory alone"),
    ("fuse DEVICE N", "N more writes and syncs pass, then the device fails; in memory alone"),
    ("nextfuse DEVICE N", "the same, from the next crash on; in memory alone"),
]
IN_MEMORY_ALONE = [form for form, what in OTHERS if what.endswith("in memory alone")]


def wrong_word(words, form):
    """What is wrong with these words as this form; None if nothing is."""
    named = form.split(" ")[1:]
    if len(words) - 1 != len(named):
        return f"it has {len(words) - 1} words after '{words[0]}', and '{form}' has {len(named)}"
    for word, name in zip(words[1:], named):
        if not WORDS[name][0](word):
            return f"'{word}' is no {name}: {WORDS[name][1]}"
    return None


def wrong_line(words, forms):
    """What is wrong with these words, none of whose forms they may have."""
    fitting = [form for form, _ in forms if form.split(" ")[0] == words[0]]
    wrongs = [wrong_word(words, form) for form in fitting]
    if not fitting:
        return f"there is no '{words[0]}'"
    return None if None in wrongs else wrongs[-1]


def fault_of(line, has_files=False):
    """What is wrong with a line whose words are separated by one space; None if the program takes it."""
    if line == "" or line.startswith("#"):
        return None
    words = line.split(" ")
    if re.fullmatch("[0-9]+", words[0]):
        if not is_number(words[0], 999) or words[0] == "0":
            return f"'{words[0]}' is no session: a number from 1 to 999"
        return wrong_line(words[1:], CALLS) if words[1:] else f"session {words[0]} calls nothing"
    if any(words[0] == form.split(" ")[0] for form, _ in CALLS):
        return f"a session's number comes first, such as '1 {line}'"
    wrong = wrong_line(words, OTHERS)
    if wrong is None and has_files and any(wrong_word(words, form) is None and words[0] == form.split(" ")[0] for form in IN_MEMORY_ALONE):
        return f"'{line}' is for devices in memory"
    return wrong


def listed():
    """The lines, each with what it does."""
    forms = [*((f"1 {form}", what) for form, what in CALLS), *OTHERS]
    widest = max(len(form) for form, _ in forms)
    return [f"  {form:{widest}}  {what}" for form, what in forms]
