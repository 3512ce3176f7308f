"""What scripts with checkpoints have to leave in both files, worked by hand: more rows of tools/check-formats, with both anchors, and with the entries of transactions in each of their states."""
from formats import ACTIVE, COMMIT, END, PREPARED, ROLLBACK_DECIDED, ROLLING_BACK, Geometry, Txn, anchor, anchor_record, change, checkpoint_begin, checkpoint_end, compensation, page, prepare
from formats import record
from rings_by_hand import ACROSS, IN_HALVES, OLD, QUIET, SETUP, rounds

SMALL = Geometry(1, 135_168, 1_024, [1, 2])
ONE_PAGE = page((0, 0), 1, [(24, 1)], [(24, b"\xaa")])

BEGUN = "1 begin -> 1: began 1\n1 insert 0 aa -> 1: at 0.0.0\n"
COMMITTED = f"{BEGUN}1 commit -> 1: committed\nflush -> flushed 1\n"

# Two checkpoints of a quiet log. The second one's anchor is the third, in the first slot.
TWICE = f"{COMMITTED}checkpoint -> checkpoint 3 tail 3\ncheckpoint -> checkpoint 6 tail 6\n"
TWICE_FRAMES = [SETUP, *QUIET, [checkpoint_begin(), checkpoint_end(6, 2)], [anchor_record(6, 6)]]
TWICE_ANCHORS = (anchor(3, 6, 6, 195), anchor(2, 3, 3, 70))

# One transaction is under way at the begin, and has committed by the end.
HALVES = f"{BEGUN}checkpoint begin -> checkpoint begun 2\n1 commit -> 1: committed\nflush -> flushed 1\ncheckpoint end -> checkpoint 2 tail 1\n"

# Between both halves one of two is prepared and the other commits, a third begins, and a page is written back: the first End has all of it as it was at its begin. The second has one that is prepared, and the page
# that was not written back.
BETWEEN = """1 begin -> 1: began 1
1 insert 0 aa -> 1: at 0.0.0
2 begin -> 2: began 2
2 insert 1 bb -> 2: at 1.0.0
checkpoint begin -> checkpoint begun 3
1 prepare 67 -> 1: prepared
2 insert 0 cc -> 2: at 0.0.1
2 commit -> 2: committed
3 begin -> 3: began 3
3 insert 1 dd -> 3: at 1.0.1
flush -> flushed 1
checkpoint end -> checkpoint 3 tail 1
checkpoint -> checkpoint 10 tail 1
"""
BETWEEN_FRAMES = [
    [change(1, 0, "0.0.0", None, b"\xaa"), change(2, 0, "1.0.0", None, b"\xbb"), checkpoint_begin(), prepare(1, 1, b"g", ["0.0.0"])],
    [change(2, 2, "0.0.1", None, b"\xcc"), record(COMMIT, 2, 5)],
    [change(3, 0, "1.0.1", None, b"\xdd"), checkpoint_end(3, 3, [Txn(1, ACTIVE, 1, 1, 1, 0), Txn(2, ACTIVE, 2, 2, 2, 0)], [("0.0", 1), ("1.0", 2)])],
    [anchor_record(3, 1)],
    [checkpoint_begin(), checkpoint_end(10, 4, [Txn(1, PREPARED, 1, 4, 1, 4), Txn(3, ACTIVE, 7, 7, 7, 0)], [("1.0", 2)])],
    [anchor_record(10, 1)],
]
BETWEEN_ANCHORS = (anchor(3, 10, 1, 0), anchor(2, 3, 1, 0))
BETWEEN_PAGE = page((0, 0), 5, [(24, 1), (25, 1)], [(24, b"\xaa\xcc")])

# One that is active; one that is prepared; one that went back in part; one that waits; one that has logged nothing, and one that has committed without a force, which are not listed; and one that went back
# as a whole.
STATES = f"""{COMMITTED}1 begin -> 1: began 2
1 insert 0 bb -> 1: at 0.0.1
2 begin -> 2: began 3
2 insert 1 cc -> 2: at 1.0.0
2 lock 1.1 EX -> 2: ok
2 prepare 6731 -> 2: prepared
3 begin -> 3: began 4
3 insert 1 dd -> 3: at 1.0.1
3 savepoint -> 3: savepoint 0
3 insert 1 ee -> 3: at 1.0.2
3 update 0.0.0 ff -> 3: ok
3 back 0 -> 3: ok
4 begin -> 4: began 5
4 insert 0 11 -> 4: at 0.0.2
4 insert 0 22 -> 4: at 0.0.3
4 get 0.0.1 -> 4: waits 0.0.1
5 begin -> 5: began 6
5 get 0.0.2042 -> 5: fault 6 NoRecord
6 begin -> 6: began 7
6 insert 0 33 -> 6: at 0.0.4
6 lazy -> 6: ticket 14
7 begin -> 7: began 8
7 savepoint -> 7: savepoint 0
7 insert 0 44 -> 7: at 0.0.5
7 back 0 -> 7: ok
checkpoint -> checkpoint 17 tail 3
"""
STATES_LISTED = [
    Txn(2, ACTIVE, 3, 3, 3, 0),
    Txn(3, PREPARED, 4, 5, 4, 5),
    Txn(4, ACTIVE, 6, 10, 6, 0),
    Txn(5, ACTIVE, 11, 12, 12, 0),
    Txn(8, ACTIVE, 15, 16, 0, 0),
]
STATES_FRAMES = [
    SETUP,
    [change(2, 0, "0.0.1", None, b"\xbb"), change(3, 0, "1.0.0", None, b"\xcc"), prepare(3, 4, b"g1", ["1.1", "1.0.0"])],
    [
        change(4, 0, "1.0.1", None, b"\xdd"),
        change(4, 6, "1.0.2", None, b"\xee"),
        change(4, 7, "0.0.0", b"\xaa", b"\xff"),
        compensation(4, 8, "0.0.0", b"\xaa", 7),
        compensation(4, 9, "1.0.2", None, 6),
        change(5, 0, "0.0.2", None, b"\x11"),
        change(5, 11, "0.0.3", None, b"\x22"),
        change(7, 0, "0.0.4", None, b"\x33"),
        record(COMMIT, 7, 13),
        change(8, 0, "0.0.5", None, b"\x44"),
        compensation(8, 15, "0.0.5", None, 0),
        checkpoint_begin(),
        checkpoint_end(17, 9, STATES_LISTED, [("0.0", 3), ("1.0", 4)]),
    ],
    [anchor_record(17, 3)],
]

# Behind an open: one in doubt as it was before it, none of those who were rolled back, and the pages that were done again from the first record that they lacked. Then the pages are written back,
# and the tail is the first record of the one in doubt.
REOPENED = """1 begin -> 1: began 1
1 insert 0 aa -> 1: at 0.0.0
1 commit -> 1: committed
1 begin -> 1: began 2
1 update 0.0.0 bb -> 1: ok
1 insert 1 cc -> 1: at 1.0.0
1 prepare 6731 -> 1: prepared
2 begin -> 2: began 3
2 insert 1 dd -> 2: at 1.0.1
force -> forced 6
crash -> opened
checkpoint -> checkpoint 9 tail 1
flush -> flushed 2
checkpoint -> checkpoint 12 tail 3
"""
REOPENED_DOUBT = Txn(2, PREPARED, 3, 5, 4, 5)
REOPENED_FRAMES = [
    SETUP,
    [change(2, 0, "0.0.0", b"\xaa", b"\xbb"), change(2, 3, "1.0.0", None, b"\xcc"), prepare(2, 4, b"g1", ["0.0.0", "1.0.0"])],
    [change(3, 0, "1.0.1", None, b"\xdd")],
    [compensation(3, 6, "1.0.1", None, 0), record(END, 3, 7)],
    [checkpoint_begin(), checkpoint_end(9, 4, [REOPENED_DOUBT], [("0.0", 1), ("1.0", 4)])],
    [anchor_record(9, 1)],
    [checkpoint_begin(), checkpoint_end(12, 4, [REOPENED_DOUBT])],
    [anchor_record(12, 3)],
]
REOPENED_PAGES = [page((0, 0), 3, [(24, 1)], [(24, b"\xbb")]), page((1, 0), 7, [(24, 1), (0, 0)], [(24, b"\xcc\xdd")])]

# `victim_is_listed_as_active`: one that has logged a change, of which nothing is put back yet, and the one that waited for it.
VICTIM = """2 begin -> 2: began 1
1 begin -> 1: began 2
1 insert 0 cc -> 1: at 0.0.0
2 insert 0 a5 -> 2: at 0.0.1
2 delete 0.0.0 -> 2: waits 0.0.0
1 get 0.0.1 -> 1: fault 12 Deadlock 2 1
checkpoint -> checkpoint 3 tail 1
"""
VICTIM_LISTED = [Txn(1, ACTIVE, 2, 2, 2, 0), Txn(2, ACTIVE, 1, 1, 1, 0)]
VICTIM_FRAMES = [
    [change(2, 0, "0.0.0", None, b"\xcc"), change(1, 0, "0.0.1", None, b"\xa5"), checkpoint_begin(), checkpoint_end(3, 3, VICTIM_LISTED, [("0.0", 1)])],
    [anchor_record(3, 1)],
]


def turning():
    """The lines of the four rounds of rings_by_hand: the last one's rollback crosses the end of the stream."""
    old, new = OLD.hex(), "bb*1000"
    lines = ["1 begin -> 1: began 1", f"1 insert 0 {old} -> 1: at 0.0.0", "1 commit -> 1: committed"]
    for first, txn in [(3, 2), (31, 4), (59, 5), (87, 6)]:
        lines += [f"1 begin -> 1: began {txn}", *[f"1 update 0.0.0 {new} -> 1: ok"] * 12, f"1 update 0.0.0 {new} -> 1: fault 9 LogFull", "1 abort -> 1: aborted"]
        # In the first round another transaction begins, which logs nothing.
        lines += ["1 begin -> 1: began 3", "1 abort -> 1: aborted"] if txn == 2 else []
        lines += [f"force -> forced {first + 24}", "flush -> flushed 1", f"checkpoint -> checkpoint {first + 25} tail {first + 25}"]
    return "".join(f"{it}\n" for it in lines)


TURNED_PAGE = page((0, 0), 110, [(24, 1_000)], [(24, OLD)])
# A frame takes 13 bytes beside its records: those of the last checkpoint begin behind the 36,982 of the last rollback's.
TURNED_ANCHORS = (anchor(5, 112, 112, 112_390 + 36_982), anchor(4, 84, 84, 112_265))
LEAST = Geometry(1, 135_168, 1_024, [2])

# A rollback of which an allocation fails. Of each kind: the geometry; its lines, of which the last is refused; for each number of changes that may be put back by then the frames of the log, behind
# which is a checkpoint, and both anchors; and the numbers that are met at least: to put back a change that was made of nothing takes no memory.
REFUSED = "fault 27 Memory"
CHANGES = [
    change(2, 0, "0.0.0", b"\xaa", b"\xbb" * 2),
    change(2, 3, "0.0.0", b"\xbb" * 2, b"\xcc" * 3),
    change(2, 4, "1.0.0", None, b"\xdd"),
    change(2, 5, "0.0.0", b"\xcc" * 3, b"\xee" * 4),
]
MADE = "1 update 0.0.0 bb*2 -> 1: ok\n1 update 0.0.0 cc*3 -> 1: ok\n1 insert 1 dd -> 1: at 1.0.0\n1 update 0.0.0 ee*4 -> 1: ok\n"
SETUP_AND_BEGIN = f"{BEGUN}1 commit -> 1: committed\n1 begin -> 1: began 2\n"
# What is to be undone next, once so many changes are put back, and what each Compensation makes of its record.
FOLLOWING = [6, 5, 4, 3, 0]
IMAGES = [("0.0.0", b"\xcc" * 3), ("1.0.0", None), ("0.0.0", b"\xbb" * 2), ("0.0.0", b"\xaa")]
DIRTY = [("0.0", 1), ("1.0", 5)]


def put_back(count, number):
    """The Compensations of so many of these changes, the newest first, from a number on, directly behind another record of the transaction."""
    return [compensation(2, number + it - 1, *IMAGES[it], FOLLOWING[it + 1]) for it in range(count)]


def interrupted(count):
    """An abort, or a way back before the first change, that has put so many changes back: with the first of them the transaction is rolling back."""
    begin, entry = 7 + count, Txn(2, ROLLING_BACK if count else ACTIVE, 3, 6 + count, FOLLOWING[count], 0)
    records = [*CHANGES, *put_back(count, 7), checkpoint_begin(), checkpoint_end(begin, 3, [entry], DIRTY)]
    return [SETUP, records, [anchor_record(begin, 1)]], (anchor(), anchor(2, begin, 1, 0))


def decided(count):
    """A resolve to abort: its decision is logged, and so many changes are put back. None: it was refused before its decision."""
    if count is None:
        begin, records, entry = 8, [], Txn(2, PREPARED, 3, 7, 6, 7)
    else:
        begin, records = 9 + count, [record(ROLLBACK_DECIDED, 2, 7), *put_back(count, 9)]
        entry = Txn(2, ROLLING_BACK, 3, 8 + count, FOLLOWING[count], 7)
    prepared = [*CHANGES, prepare(2, 6, b"g", ["0.0.0", "1.0.0"])]
    return [SETUP, prepared, [*records, checkpoint_begin(), checkpoint_end(begin, 3, [entry], DIRTY)], [anchor_record(begin, 1)]], (anchor(), anchor(2, begin, 1, 0))


PARTS = {it: interrupted(it) for it in range(5)}
INTERRUPTED = [
    ("an abort", SMALL, f"{SETUP_AND_BEGIN}{MADE}1 abort -> 1: {REFUSED}\n", PARTS, [0, 2, 3]),
    ("a way back", SMALL, f"{SETUP_AND_BEGIN}1 savepoint -> 1: savepoint 0\n{MADE}1 back 0 -> 1: {REFUSED}\n", PARTS, [0, 2, 3]),
    ("a resolve to abort", SMALL, f"{SETUP_AND_BEGIN}{MADE}1 prepare 67 -> 1: prepared\n2 resolve 67 abort -> 2: {REFUSED}\n", {it: decided(it) for it in [None, *range(5)]}, [0, 2, 3]),
]

# The geometry and the script; the frames; the pages, the table of the area, and its images; and both anchors.
WRITTEN = [
    ("a checkpoint of a quiet log", SMALL, TWICE[: TWICE.index("checkpoint 3 tail 3\n") + 20], [SETUP, *QUIET], {0: ONE_PAGE}, [0], [ONE_PAGE], (anchor(), anchor(2, 3, 3, 70))),
    ("two checkpoints", SMALL, TWICE, TWICE_FRAMES, {0: ONE_PAGE}, [0], [ONE_PAGE], TWICE_ANCHORS),
    ("a checkpoint in two halves", SMALL, HALVES, IN_HALVES, {0: ONE_PAGE}, [0], [ONE_PAGE], (anchor(), anchor(2, 2, 1, 0))),
    ("one whose tables change before its end", SMALL, BETWEEN, BETWEEN_FRAMES, {0: BETWEEN_PAGE}, [0], [BETWEEN_PAGE], BETWEEN_ANCHORS),
    (
        "a transaction across the tail",
        SMALL,
        f"{BEGUN}force -> forced 1\nflush -> flushed 1\n1 insert 0 bb -> 1: at 0.0.1\n1 commit -> 1: committed\ncheckpoint -> checkpoint 4 tail 2\n",
        ACROSS,
        {0: ONE_PAGE},
        [0],
        [ONE_PAGE],
        (anchor(), anchor(2, 4, 2, 49)),
    ),
    ("transactions in each state", SMALL, STATES, STATES_FRAMES, {0: ONE_PAGE}, [0], [ONE_PAGE], (anchor(), anchor(2, 17, 3, 70))),
    ("one in doubt behind an open", SMALL, REOPENED, REOPENED_FRAMES, dict(enumerate(REOPENED_PAGES)), [0, 1], REOPENED_PAGES, (anchor(3, 12, 3, 70), anchor(2, 9, 1, 0))),
    ("a victim", SMALL, VICTIM, VICTIM_FRAMES, {}, [], [], (anchor(), anchor(2, 3, 1, 0))),
    ("a ring that has turned", LEAST, turning(), rounds(), {0: TURNED_PAGE}, [0], [TURNED_PAGE], TURNED_ANCHORS),
]
# The pairs of these of which each byte is changed.
CHANGED = ["transactions in each state", "one in doubt behind an open", "a ring that has turned"]
