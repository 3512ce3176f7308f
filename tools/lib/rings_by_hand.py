"""Logs of checkpoints, worked by hand, and what is read of each: both anchors, a log that begins behind its first record, and a stream that goes on over its end. They are tried by
tools/check-formats."""
from formats import ACTIVE, ANCHOR, CHANGE, CHECKPOINT_BEGIN, CHECKPOINT_END, COMMIT, COMPENSATION, END, FIRST_ANCHOR, OPEN, PREPARED, ROLLING_BACK, SHUT, STREAM_AT, Anchor, Dirty
from formats import Geometry, Named, Table, Txn, anchor, anchor_record, change, checkpoint_begin, checkpoint_end, compensation, frame, log_file, page, prepare, record, turned_log_file
from logs_by_hand import of_length

# Records of checkpoints as bytes worked by hand, and the tables or the names that they have.
TXNS = [Txn(5, ACTIVE, 6, 7, 8, 0), Txn(9, PREPARED, 10, 11, 12, 13), Txn(258, ROLLING_BACK, 14, 15, 16, 17)]
RECORDS = [
    (checkpoint_begin(), None, "07 0000000000000000 0000000000000000 00000000"),
    (checkpoint_end(2, 3), Table(2, 3, [], []), "08 0000000000000000 0000000000000000 14000000 0200000000000000 0300000000000000 0000 0000"),
    (
        checkpoint_end(0x0102, 0x0304, TXNS, [("0.1", 18), ("3.2", 259)]),
        Table(0x0102, 0x0304, TXNS, [Dirty(0, 1, 18), Dirty(3, 2, 259)]),
        "08 0000000000000000 0000000000000000 af000000 0201000000000000 0403000000000000 0300"
        "0500000000000000 01 0600000000000000 0700000000000000 0800000000000000 0000000000000000"
        "0900000000000000 02 0a00000000000000 0b00000000000000 0c00000000000000 0d00000000000000"
        "0201000000000000 03 0e00000000000000 0f00000000000000 1000000000000000 1100000000000000"
        "0200 00000000 01000000 1200000000000000 03000000 02000000 0301000000000000",
    ),
    (anchor_record(0x0102, 3), Named(0x0102, 3), "09 0000000000000000 0000000000000000 10000000 0201000000000000 0300000000000000"),
]

# The smallest log: its stream has 131,072 bytes.
SMALL, STREAM = Geometry(1, 135_168, 1_024, [2]), 131_072
SETUP = [change(1, 0, "0.0.0", None, b"\xaa"), record(COMMIT, 1, 1)]
# A checkpoint where nobody is under way and each page is written back: two frames of 75 and of 50 bytes.
QUIET = [[checkpoint_begin(), checkpoint_end(3, 2)], [anchor_record(3, 3)]]
# One that begins before a commit and ends behind it.
IN_HALVES = [
    [change(1, 0, "0.0.0", None, b"\xaa"), checkpoint_begin(), record(COMMIT, 1, 1)],
    [checkpoint_end(2, 2, [Txn(1, ACTIVE, 1, 1, 1, 0)], [("0.0", 1)])],
    [anchor_record(2, 1)],
]
# A transaction with a record before the tail and one behind it: the page was written back between them.
ACROSS = [
    [change(1, 0, "0.0.0", None, b"\xaa")],
    [change(1, 1, "0.0.1", None, b"\xbb"), record(COMMIT, 1, 2)],
    [checkpoint_begin(), checkpoint_end(4, 2, [], [("0.0", 2)])],
    [anchor_record(4, 2)],
]
OLD, NEW = b"\xaa" * 1_000, b"\xbb" * 1_000
WRAPPED = b"\xee" * STREAM


def rolled_back(txn, first):
    """Twelve updates of a record and their undo: 25 records of 36,969 bytes."""
    updates = [change(txn, first + it - 1 if it else 0, "0.0.0", NEW if it else OLD, NEW) for it in range(12)]
    answers = [compensation(txn, first + 11 + it, "0.0.0", OLD if it == 11 else NEW, 0 if it == 11 else first + 10 - it) for it in range(12)]
    return [*updates, *answers, record(END, txn, first + 23)]


def rounds():
    """A first record, and four times a rollback and a checkpoint: numbers 1, 2, and 28 in each round. The last round's rollback begins at place 112,390, and crosses the end."""
    groups = [[change(1, 0, "0.0.0", None, OLD), record(COMMIT, 1, 1)]]
    for first, txn in [(3, 2), (31, 4), (59, 5), (87, 6)]:
        begin = first + 25
        groups += [rolled_back(txn, first), [checkpoint_begin(), checkpoint_end(begin, txn + 1 if txn > 2 else 4)], [anchor_record(begin, begin)]]
    return groups


def laid(groups, *anchors, first=1, place=0, older=b""):
    return log_file(SMALL, *groups, anchors=anchors, first=first, place=place, older=older)


def turned():
    """The log of those rounds, as it is before its anchor moves for the fourth time."""
    return turned_log_file(SMALL, *rounds(), anchors=(anchor(3, 56, 56, 75_158), anchor(4, 84, 84, 112_265)))


def with_byte(log, at, byte):
    return log[:at] + byte + log[at + 1 :]


def full(length):
    """Two frames behind a tail, the second with so many bytes of records."""
    first = of_length(1, 7, 65_536)
    return laid([first, of_length(2, 7 + len(first), length)], anchor(9, 9, 7, 100), first=7, place=100)


def numbered(first, at, kinds):
    """Records of these kinds in the frame at this byte, from a number on."""
    return [(number, at, kind) for number, kind in enumerate(kinds, first)]


ROLLBACK = [CHANGE] * 12 + [COMPENSATION] * 12 + [END]
FULL_READ = [*numbered(7, 4_196, [CHANGE] * 9 + [COMMIT]), *numbered(17, 69_745, [CHANGE] * 9 + [COMMIT])]
QUIET_READ = [(3, 4_166, CHECKPOINT_BEGIN), (4, 4_166, CHECKPOINT_END), (5, 4_241, ANCHOR)]
SETUP_READ = [(1, 4_096, CHANGE), (2, 4_096, COMMIT)]
LAST_BYTE = STREAM - 1
# The log; where the anchor is that counts, and what it says; each record with its number, the byte of its frame and its kind; and the byte behind the last frame. Or the fault.
READ = [
    ("no checkpoint", laid([SETUP], anchor()), (1_024, FIRST_ANCHOR, SETUP_READ, 4_166)),
    ("a checkpoint whose anchor has not moved", laid([SETUP, *QUIET], anchor()), (1_024, FIRST_ANCHOR, SETUP_READ + QUIET_READ, 4_291)),
    ("a checkpoint that frees nothing", laid([SETUP, *QUIET], anchor(), anchor(2, 3)), (2_048, Anchor(2, 3, 1, 0), SETUP_READ + QUIET_READ, 4_291)),
    ("a checkpoint that frees the first frame", laid([SETUP, *QUIET], anchor(), anchor(2, 3, 3, 70)), (2_048, Anchor(2, 3, 3, 70), QUIET_READ, 4_291)),
    ("that frame with other bytes", laid(QUIET, anchor(), anchor(2, 3, 3, 70), first=3, place=70, older=WRAPPED), (2_048, Anchor(2, 3, 3, 70), QUIET_READ, 4_291)),
    ("the first anchor closed", laid([SETUP, *QUIET], anchor(gate=SHUT), anchor(2, 3, 3, 70)), (2_048, Anchor(2, 3, 3, 70), QUIET_READ, 4_291)),
    ("the new anchor not open yet", laid([SETUP, *QUIET], anchor(), anchor(2, 3, 3, 70, gate=SHUT)), (1_024, FIRST_ANCHOR, SETUP_READ + QUIET_READ, 4_291)),
    ("half an anchor behind a closed gate", laid([SETUP, *QUIET], anchor(), b"\xee" * 20), (1_024, FIRST_ANCHOR, SETUP_READ + QUIET_READ, 4_291)),
    ("a third anchor, in the first slot", laid([SETUP, *QUIET], anchor(3, 3, 3, 70), anchor(2, 3)), (1_024, Anchor(3, 3, 3, 70), QUIET_READ, 4_291)),
    (
        "a checkpoint in two halves",
        laid(IN_HALVES, anchor(), anchor(2, 2, 1)),
        (2_048, Anchor(2, 2, 1, 0), [*numbered(1, 4_096, [CHANGE, CHECKPOINT_BEGIN, COMMIT]), (4, 4_187, CHECKPOINT_END), (5, 4_298, ANCHOR)], 4_348),
    ),
    (
        "a transaction across the tail",
        laid(ACROSS, anchor(), anchor(2, 4, 2, 49)),
        (2_048, Anchor(2, 4, 2, 49), [*numbered(2, 4_145, [CHANGE, COMMIT]), *numbered(4, 4_215, [CHECKPOINT_BEGIN, CHECKPOINT_END]), (6, 4_306, ANCHOR)], 4_356),
    ),
    (
        "a frame over the end of the stream",
        turned(),
        (2_048, Anchor(4, 84, 84, 112_265), [*numbered(84, 116_361, [CHECKPOINT_BEGIN, CHECKPOINT_END]), (86, 116_436, ANCHOR), *numbered(87, 116_486, ROLLBACK), *numbered(112, 22_396, [CHECKPOINT_BEGIN, CHECKPOINT_END]), (114, 22_471, ANCHOR)], 22_521),
    ),
    ("a gate at the last byte", laid([SETUP], anchor(9, 9, 7, LAST_BYTE), first=7, place=LAST_BYTE, older=WRAPPED), (1_024, Anchor(9, 9, 7, LAST_BYTE), [(7, 135_167, CHANGE), (8, 135_167, COMMIT)], 4_165)),
    ("a head in two parts", laid([SETUP], anchor(9, 9, 7, STREAM - 8), first=7, place=STREAM - 8, older=WRAPPED), (1_024, Anchor(9, 9, 7, STREAM - 8), [(7, 135_160, CHANGE), (8, 135_160, COMMIT)], 4_158)),
    ("a frame up to the end", laid([SETUP], anchor(9, 9, 7, STREAM - 70), first=7, place=STREAM - 70, older=WRAPPED), (1_024, Anchor(9, 9, 7, STREAM - 70), [(7, 135_098, CHANGE), (8, 135_098, COMMIT)], 4_096)),
    ("the second turn", laid([SETUP], anchor(9, 9, 7, STREAM + 5), first=7, place=5, older=WRAPPED), (1_024, Anchor(9, 9, 7, STREAM + 5), [(7, 4_101, CHANGE), (8, 4_101, COMMIT)], 4_171)),
    ("an old frame behind the closed gate", laid([SETUP], anchor(9, 9, 7, 0), first=7, older=bytes(71) + frame(9, SETUP)), (1_024, Anchor(9, 9, 7, 0), [(7, 4_096, CHANGE), (8, 4_096, COMMIT)], 4_166)),
    ("a stream with a byte left for the gate", full(65_509), (1_024, Anchor(9, 9, 7, 100), FULL_READ, 4_195)),
    ("a stream with none left", full(65_510), "25 Damaged log 69745"),
    ("an open gate behind that, over the end", with_byte(laid([SETUP], anchor(9, 9, 7, STREAM - 70), first=7, place=STREAM - 70), STREAM_AT, OPEN), "25 Damaged log 4096"),

    ("a tail in the midst of a frame", laid([SETUP, *QUIET], anchor(), anchor(2, 3, 3, 71)), (2_048, Anchor(2, 3, 3, 71), [], 4_167)),
    ("a tail with another number", laid([SETUP, *QUIET], anchor(), anchor(2, 4, 4, 70)), "25 Damaged log 4166"),
    ("a tail number 0", laid([SETUP], anchor(), anchor(2, 3, 0)), "25 Damaged log 2048"),
    ("the greatest tail number", laid([], anchor(1, 2**46 + 2**32, 2**46 + 2**32)), (1_024, Anchor(1, 2**46 + 2**32, 2**46 + 2**32, 0), [], 4_096)),
    ("a tail number above that", laid([], anchor(1, 2**46 + 2**32 + 1, 2**46 + 2**32 + 1)), "25 Damaged log 1024"),
    ("the greatest place of a tail", laid([], anchor(1, 3, 3, 131_098)), (1_024, Anchor(1, 3, 3, 131_098), [], 4_122)),
    ("a place of a tail above that", laid([], anchor(1, 3, 3, 131_099)), "25 Damaged log 1024"),
    ("the greatest sequence of a checkpoint", laid([], anchor(4, 3)), (1_024, Anchor(4, 3, 1, 0), [], 4_096)),
    ("a sequence above that", laid([], anchor(5, 3)), "25 Damaged log 1024"),
    ("a sequence 0", laid([], anchor(0, 3)), "25 Damaged log 1024"),
    ("a checkpoint before the tail", laid([], anchor(2, 3, 4, 70)), "25 Damaged log 1024"),
    ("no checkpoint and a tail", laid(QUIET, anchor(1, 0, 3, 70), first=3, place=70), (1_024, Anchor(1, 0, 3, 70), QUIET_READ, 4_291)),
    ("a limit broken by the older anchor", laid([SETUP, *QUIET], anchor(1, 0, 0), anchor(2, 3, 3, 70)), (2_048, Anchor(2, 3, 3, 70), QUIET_READ, 4_291)),
    ("one sequence twice", laid([SETUP, *QUIET], anchor(2, 3), anchor(2, 3, 3, 70)), "25 Damaged log 2048"),
    ("both gates closed", laid([SETUP], anchor(gate=SHUT), anchor(2, 3, gate=SHUT)), "25 Damaged log 1024"),
]

# What tools/inspect prints of a log between its label and its transactions.
SHOWN = {
    "a checkpoint in two halves": """\
      1024  anchor A, gate open, sequence 1, checkpoint 0, tail number 1, tail place 0
      2048  anchor B, gate open, sequence 2, checkpoint 2, tail number 1, tail place 0, counts
      4096  frame of 3 records, 78 bytes
            1 Change, transaction 1, previous 0: 0.0.0 none -> aa
            2 CheckpointBegin
            3 Commit, transaction 1, previous 1
      4187  frame of 1 record, 98 bytes
            4 CheckpointEnd of 2, next transaction 2; transactions: 1 active, first 1, last 1, next to undo 1, Prepare 0; dirty pages: 0.0 from 1 on
      4298  frame of 1 record, 37 bytes
            5 Anchor, checkpoint 2, tail number 1
      4348  closed gate: the log ends, 130820 bytes before the file does
""",
    "a head in two parts": """\
      1024  anchor A, gate open, sequence 9, checkpoint 9, tail number 7, tail place 131064, counts
      2048  anchor B, gate closed
    135160  frame of 2 records, 57 bytes, which go on at 4096
            7 Change, transaction 1, previous 0: 0.0.0 none -> aa
            8 Commit, transaction 1, previous 1
      4158  closed gate: the log ends, 131002 bytes before its tail
""",
    "the second turn": """\
      1024  anchor A, gate open, sequence 9, checkpoint 9, tail number 7, tail place 131077, counts
      2048  anchor B, gate closed
      4101  frame of 2 records, 57 bytes
            7 Change, transaction 1, previous 0: 0.0.0 none -> aa
            8 Commit, transaction 1, previous 1
      4171  closed gate: the log ends, 131002 bytes before its tail
""",
    "a tail with another number": """\
      1024  anchor A, gate open, sequence 1, checkpoint 0, tail number 1, tail place 0
      2048  anchor B, gate open, sequence 2, checkpoint 4, tail number 4, tail place 70, counts
      4166  damaged, and reading ends: its first record has the number 3, and 4 is to come
""",
    "both gates closed": """\
            no anchor counts: 25 Damaged log 1024
      1024  anchor A, gate closed
      2048  anchor B, gate closed
      4096  frame of 2 records, 57 bytes
            1 Change, transaction 1, previous 0: 0.0.0 none -> aa
            2 Commit, transaction 1, previous 1
      4166  closed gate: the log ends, 131002 bytes before the file does
""",
}


def page_of(number_of_last, *contents):
    """Page 0.0 with these records, one behind the other."""
    places = [24 + len(b"".join(contents[:it])) for it in range(len(contents))]
    return {0: page((0, 0), number_of_last, [(at, len(it)) for at, it in zip(places, contents)], [(24, b"".join(contents))])}


OPENED, A, B, MOVED = "opened", b"\xaa", b"\xbb", anchor(2, 3, 3, 70)
# Transaction 1 has committed below the tail, and the End behind it lists it still; transaction 2 is under way.
OLDER_END = [
    [change(1, 0, "0.0.0", None, A), checkpoint_begin(), record(COMMIT, 1, 1)],
    [change(2, 0, "0.0.1", None, B), checkpoint_end(2, 2, [Txn(1, ACTIVE, 1, 1, 1, 0)], [("0.0", 1)])],
    [anchor_record(2, 1)],
    [checkpoint_begin(), checkpoint_end(7, 3, [Txn(2, ACTIVE, 4, 4, 4, 0)], [("0.0", 4)])],
    [anchor_record(7, 4)],
]
OLDER_TAIL = 13 + 36 + 21 + 21
IN_DOUBT = [
    [change(1, 0, "0.0.0", None, A), prepare(1, 1, b"g1", ["0.0.0"])],
    [checkpoint_begin(), checkpoint_end(3, 2, [Txn(1, PREPARED, 1, 2, 1, 2)], [("0.0", 1)])],
    [anchor_record(3, 1)],
]


def ends_by_hand():
    """A checkpoint's End behind a Change and a Prepare of transaction 1 and its begin, at number 3; and whether it means what it has to."""
    right = Txn(1, PREPARED, 1, 2, 1, 2)
    entries = [
        (right, True),
        (right._replace(state=ACTIVE), True),
        (right._replace(state=ACTIVE, prepare=3), True),
        (right._replace(state=ACTIVE, prepare=4), False),
        (right._replace(first=0), False),
        (right._replace(first=2), True),
        (right._replace(first=3), False),
        (right._replace(first=4), False),
        (right._replace(last=0), False),
        (right._replace(last=1), True),
        (right._replace(last=3), False),
        (right._replace(following=0), True),
        (right._replace(following=2), False),
        (right._replace(following=4), False),
        (right._replace(prepare=0), False),
        (right._replace(prepare=1), False),
        (right._replace(prepare=4), False),
        (right._replace(txn=2), False),
        (right._replace(txn=2**62), False),
    ]
    for entry, is_right in entries:
        yield f"the entry {tuple(entry)}", checkpoint_end(3, 2, [entry], [("0.0", 1)]), is_right
    for begin, following, dirty, is_right in [
        (0, 2, [], False),
        (1, 2, [], False),
        (4, 2, [], False),
        (3, 0, [], True),
        (3, 2**62, [], True),
        (3, 2**62 + 1, [], False),
        (3, 2, [("0.1", 0)], True),
        (3, 2, [("0.1", 3)], True),
        (3, 2, [("0.1", 4)], False),
        (3, 2, [("0.2", 1)], False),
        (3, 2, [("1.0", 1)], False),
    ]:
        yield f"the begin {begin}, the next number {following}, the pages {dirty}", checkpoint_end(begin, following, [right], dirty), is_right


def logs_behind_a_tail():
    """Logs that begin with number 3, at place 70, with a checkpoint there; the records behind it; and whether these mean what they have to."""
    yield "a transaction that is whole", [change(2, 0, "0.0.0", None, A), record(COMMIT, 2, 5)], True
    yield "one that is cut off, and ends", [change(2, 1, "0.0.0", None, A), change(2, 5, "0.0.1", None, B), record(COMMIT, 2, 6)], True
    yield "one whose last record alone is kept", [record(COMMIT, 2, 2)], True
    yield "one that is cut off, and does not end", [change(2, 1, "0.0.0", None, A)], False
    yield "one that names no record of its own", [change(2, 4, "0.0.0", None, A), record(COMMIT, 2, 5)], False
    yield "one that names none behind the first", [change(2, 1, "0.0.0", None, A), change(2, 0, "0.0.1", None, B), record(COMMIT, 2, 6)], False
    yield "one that names another", [change(2, 1, "0.0.0", None, A), record(COMMIT, 3, 0), record(COMMIT, 2, 6)], False
    yield "one that goes on behind its end", [record(COMMIT, 2, 1), record(COMMIT, 2, 5)], False
    yield "a Compensation of one that is cut off", [compensation(2, 1, "0.0.0", A, 2), record(END, 2, 5)], True
    yield "a Compensation that names no Change of it", [compensation(2, 1, "0.0.0", A, 3), record(END, 2, 5)], False
    yield "an entry of one that is cut off, and has no record", [checkpoint_begin(), checkpoint_end(5, 9, [Txn(2, ACTIVE, 1, 2, 1, 0)])], True
    yield "an entry of one that is cut off, and ends", [record(COMMIT, 2, 2), checkpoint_begin(), checkpoint_end(6, 9, [Txn(2, ACTIVE, 1, 2, 1, 0)])], True
    yield "an entry of one that takes it as cut off", [change(2, 0, "0.0.0", None, A), checkpoint_begin(), checkpoint_end(6, 9, [Txn(2, ACTIVE, 1, 5, 5, 0)])], False
    yield "an End whose begin is cut off", [checkpoint_end(2, 9)], True
    yield "an End whose begin is none", [checkpoint_end(4, 9)], False
    yield "a Prepare of one that is cut off", [prepare(2, 1, b"g", []), record(COMMIT, 2, 5)], True
    yield "a Prepare of one that is cut off, and stays", [prepare(2, 1, b"g", [])], False


def anchored_ends():
    """The transactions that the anchored checkpoint's End lists behind a tail with number 3; the records behind it; and whether that End means what it has to."""
    active, prepared = Txn(2, ACTIVE, 1, 2, 1, 0), Txn(2, PREPARED, 1, 2, 1, 2)
    yield "one that is cut off, and has no record", [active], [], False
    yield "one in doubt that is cut off, and has no record", [prepared], [], False
    yield "one that is cut off, and ends", [active], [record(COMMIT, 2, 2)], True
    yield "one that is cut off, and is rolled back", [active], [compensation(2, 2, "0.0.0", None, 0), record(END, 2, 5)], True
    yield "one that ends, and one that does not", [active, active._replace(txn=3)], [record(COMMIT, 2, 2)], False
    yield "one that is cut off, before a record that names none", [active], [record(COMMIT, 3, 4)], False


def opens_by_hand():
    """Pairs that checkpoints leave, and what an open and a dump print; the frame at 4,166 is that of the checkpoint."""
    gone, whole = [OPENED, "0.0.0 aa"], [OPENED, "0.0.0 aa", "0.0.1 bb"]
    yield "a page that the checkpoint has, written back", laid(IN_HALVES, anchor(), anchor(2, 2)), page_of(1, A), gone
    yield "that page, not written back", laid(IN_HALVES, anchor(), anchor(2, 2)), {}, gone
    yield "a page that the checkpoint has not", laid([SETUP, *QUIET], anchor(), MOVED), page_of(1, A), gone
    yield "redo that begins at the checkpoint", laid([SETUP, *QUIET], anchor(), anchor(2, 3)), {}, [OPENED, "empty"]
    yield "a transaction across the tail, done again", laid(ACROSS, anchor(), anchor(2, 4, 2, 49)), page_of(1, A), whole
    yield "a rollback over the end, done again", turned(), page_of(82, OLD), [OPENED, f"0.0.0 {OLD.hex()}"]
    yield "a rollback over the end, on its page", turned(), page_of(110, OLD), [OPENED, f"0.0.0 {OLD.hex()}"]
    yield "a page above the last number, which redo reads", turned(), page_of(115, OLD), ["open fault 25 Damaged volume 270336", "fault 24 Failed"]
    yield "a page above the last number, which it does not read", laid([SETUP, *QUIET], anchor(), MOVED), page_of(6, A), [OPENED, "fault 25 Damaged volume 270336"]
    yield "a page above the last number, whose kept record it passes over", laid([SETUP, *QUIET], anchor(), anchor(2, 3)), page_of(6, A), [OPENED, "fault 25 Damaged volume 270336"]
    yield "a loser behind an older End", laid(OLDER_END, anchor(3, 7, 4, OLDER_TAIL), anchor(2, 2)), page_of(1, A), gone
    yield "one in doubt before a checkpoint", laid(IN_DOUBT, anchor(), anchor(2, 3)), {}, gone
    for what, log in [("no End", [SETUP, [checkpoint_begin()]]), ("no begin", [SETUP, [anchor_record(3, 3), checkpoint_end(3, 2)]]), ("another begin", [SETUP, [checkpoint_begin(), checkpoint_begin(), checkpoint_end(4, 2)]])]:
        yield f"an anchor whose checkpoint has {what}", laid(log, anchor(), MOVED), {}, ["open fault 25 Damaged log 2048", "fault 24 Failed"]
    yield "an anchor whose checkpoint is not there yet", laid([SETUP, *QUIET], anchor(), anchor(2, 6, 3, 70)), {}, ["open fault 25 Damaged log 2048", "fault 24 Failed"]
    for what, end, is_right in ends_by_hand():
        yield f"an End with {what}", laid([IN_DOUBT[0], [checkpoint_begin(), end]], anchor()), {}, gone if is_right else ["open fault 25 Damaged log 4184", "fault 24 Failed"]
    for what, records, is_right in logs_behind_a_tail():
        log = laid([[checkpoint_begin(), checkpoint_end(3, 9)], records], anchor(), MOVED, first=3, place=70, older=WRAPPED)
        yield what, log, {}, [OPENED] if is_right else ["open fault 25 Damaged log 4241", "fault 24 Failed"]
    for what, txns, records, is_right in anchored_ends():
        log = laid([[checkpoint_begin(), checkpoint_end(3, 9, txns)], *([records] if records else [])], anchor(), MOVED, first=3, place=70, older=WRAPPED)
        yield f"an anchored End that lists {what}", log, {}, [OPENED] if is_right else ["open fault 25 Damaged log 4166", "fault 24 Failed"]
