"""What scripts have to leave in both files, worked by hand: the rows of tools/check-formats."""
from formats import COMMIT, END, OPEN, ROLLBACK_DECIDED, Geometry, anchor, change, compensation, frame, label, page, prepare, record, volume_file

# Bytes worked by hand, on which what is made above is tried first.
TWO_STORES = Geometry(7, 135_168, 1_024, [2, 3])
MANY_STORES = Geometry(0x0807060504030201, 0x030201, 4_095, [258, *[1] * 63])
OF_VERSION_2 = Geometry(7, 266_240, 1_024, [1, 2], 2)
BY_HAND = [
    (label("log", 135_168, TWO_STORES)[:44], "a54c010000200000 0700000000000000 0010020000000000 0004000002000000 0200000003000000 00000000"),
    (label("volume", 311_296, TWO_STORES)[:44], "a556010000200000 0700000000000000 00c0040000000000 0004000002000000 0200000003000000 00000000"),
    (label("log", 266_240, OF_VERSION_2)[:44], "a54c020000400000 0700000000000000 0010040000000000 0004000002000000 0100000002000000 00000000"),
    (label("volume", 581_632, OF_VERSION_2)[:44], "a556020000400000 0700000000000000 00e0080000000000 0004000002000000 0100000002000000 00000000"),
    (label("log", 0x030201, MANY_STORES)[:40], "a54c010000200000 0102030405060708 0102030000000000 ff0f000040000000 0201000001000000"),
    (anchor(), "a500000000000000 0100000000000000 0000000000000000 0100000000000000 0000000000000000"),
    (anchor(2, 5, 3, 70), "a500000000000000 0200000000000000 0500000000000000 0300000000000000 4600000000000000"),
    (change(1, 0, "0.0.0", None, b"\xaa"), "01 0100000000000000 0000000000000000 0f000000 00000000 00000000 0000 00 01 0100 aa"),
    (change(258, 3, "3.2.1", b"\xbb", b"\xcc\xdd"), "01 0201000000000000 0300000000000000 13000000 03000000 02000000 0100 01 0100 bb 01 0200 ccdd"),
    (compensation(258, 4, "3.2.1", b"\xbb", 769), "02 0201000000000000 0400000000000000 16000000 03000000 02000000 0100 01 0100 bb 0103000000000000"),
    (compensation(258, 5, "3.2.1", None, 0), "02 0201000000000000 0500000000000000 13000000 03000000 02000000 0100 00 0000000000000000"),
    (record(COMMIT, 1, 1), "03 0100000000000000 0100000000000000 00000000"),
    (record(END, 258, 6), "04 0201000000000000 0600000000000000 00000000"),
    (prepare(1, 1, b"g1", ["0.0.0"]), "05 0100000000000000 0100000000000000 12000000 02 6731 01000000 03 00000000 00000000 0000"),
    (
        prepare(258, 7, b"\0", ["v", "2", "3.1", "3.2.1"]),
        "05 0201000000000000 0700000000000000 32000000 01 00 04000000"
        "00 00000000 00000000 0000 01 02000000 00000000 0000 02 03000000 01000000 0000 03 03000000 02000000 0100",
    ),
    (record(ROLLBACK_DECIDED, 258, 8), "06 0201000000000000 0800000000000000 00000000"),
    (frame(3, [record(COMMIT, 1, 1)]), "a5 15000000 0300000000000000 03 0100000000000000 0100000000000000 00000000"),
    (page((0, 0))[:24], "00000000 00000000 0000000000000000 0000 0020 00000000"),
    (page((3, 2), 7, [(24, 1), (25, 2)], [(24, b"\xaa\xbb\xcc")])[:28], "03000000 02000000 0700000000000000 0200 f81f 00000000 aabbcc 00"),
    (page((3, 2), 7, [(24, 1), (25, 2)])[-12:], "00000000 19000200 18000100"),
    (page((3, 2), 7, [(24, 1), (25, 2)], [(24, b"\xaa\xbb\xcc")], 2)[:28], "03000000 02000000 0700000000000000 0200 f83f 00000000 aabbcc 00"),
    (page((3, 2), 7, [(24, 1), (25, 2)], version=2)[16_372:], "00000000 19000200 18000100"),
    (volume_file(TWO_STORES, numbers=[1, 4], gate=OPEN)[4_096:4_116], "a5000000 02000000 01000000 04000000 00000000"),
    (volume_file(OF_VERSION_2)[532_480 + 16_384 :][:24], "01000000 00000000 0000000000000000 0000 0040 00000000"),
]

# What is written, worked by hand: scripts with their answers, the records of each frame, and pages with their records where they have to be.
SMALL = Geometry(1, 135_168, 1_024, [1, 2])
FULL, LONG = b"\xee" * 4_000, Geometry(1, 262_144, 1_024, [17])

FIRST = """1 begin -> 1: began 1
1 insert 0 aa -> 1: at 0.0.0
1 insert 0 bbcc -> 1: at 0.0.1
1 insert 0 - -> 1: at 0.0.2
1 insert 0 dd*3 -> 1: at 0.0.3
1 commit -> 1: committed
flush -> flushed 1
"""
FIRST_FRAME = [
    change(1, 0, "0.0.0", None, b"\xaa"),
    change(1, 1, "0.0.1", None, b"\xbb\xcc"),
    change(1, 2, "0.0.2", None, b""),
    change(1, 3, "0.0.3", None, b"\xdd" * 3),
    record(COMMIT, 1, 4),
]
FIRST_PAGE = page((0, 0), 4, [(24, 1), (25, 2), (27, 0), (27, 3)], [(24, b"\xaa\xbb\xcc\xdd\xdd\xdd")])

# A shorter record where the old one is, a longer one behind all others, and a delete: what stood there stays.
SECOND = """1 begin -> 1: began 2
1 update 0.0.1 ee -> 1: ok
1 update 0.0.3 ff*5 -> 1: ok
1 delete 0.0.0 -> 1: ok
1 commit -> 1: committed
flush -> flushed 1
"""
SECOND_FRAME = [
    change(2, 0, "0.0.1", b"\xbb\xcc", b"\xee"),
    change(2, 6, "0.0.3", b"\xdd" * 3, b"\xff" * 5),
    change(2, 7, "0.0.0", b"\xaa", None),
    record(COMMIT, 2, 8),
]
SECOND_PAGE = page((0, 0), 8, [(0, 0), (25, 1), (27, 0), (30, 5)], [(24, b"\xaa\xee\xcc\xdd\xdd\xdd" + b"\xff" * 5)])

# A slot that has become empty is filled behind all others, and so is one whose record had no bytes; the last slot stays though it becomes empty.
THIRD = """1 begin -> 1: began 3
1 insert 0 1122 -> 1: at 0.0.0
1 update 0.0.2 33 -> 1: ok
1 delete 0.0.3 -> 1: ok
1 commit -> 1: committed
flush -> flushed 1
"""
THIRD_FRAME = [change(3, 0, "0.0.0", None, b"\x11\x22"), change(3, 10, "0.0.2", b"", b"\x33"), change(3, 11, "0.0.3", b"\xff" * 5, None), record(COMMIT, 3, 12)]
THIRD_PAGE = page((0, 0), 12, [(35, 2), (25, 1), (37, 1), (0, 0)], [(24, b"\xaa\xee\xcc\xdd\xdd\xdd" + b"\xff" * 5 + b"\x11\x22\x33")])

# The gap is too small for the 200 bytes: the others are moved together, and behind them stays what stood there.
MOVED = """1 begin -> 1: began 1
1 insert 0 aa*3000 -> 1: at 0.0.0
1 insert 0 bb*3000 -> 1: at 0.0.1
1 insert 0 cc*2000 -> 1: at 0.0.2
1 commit -> 1: committed
1 begin -> 1: began 2
1 delete 0.0.0 -> 1: ok
1 commit -> 1: committed
1 begin -> 1: began 3
1 insert 0 dd*200 -> 1: at 0.0.0
1 commit -> 1: committed
flush -> flushed 1
"""
MOVED_FRAMES = [
    [
        change(1, 0, "0.0.0", None, b"\xaa" * 3_000),
        change(1, 1, "0.0.1", None, b"\xbb" * 3_000),
        change(1, 2, "0.0.2", None, b"\xcc" * 2_000),
        record(COMMIT, 1, 3),
    ],
    [change(2, 0, "0.0.0", b"\xaa" * 3_000, None), record(COMMIT, 2, 5)],
    [change(3, 0, "0.0.0", None, b"\xdd" * 200), record(COMMIT, 3, 7)],
]
MOVED_PAGE = page(
    (0, 0),
    7,
    [(5_024, 200), (24, 3_000), (3_024, 2_000)],
    [(24, b"\xbb" * 3_000), (3_024, b"\xcc" * 2_000), (5_024, b"\xdd" * 200), (5_224, b"\xbb" * 800), (6_024, b"\xcc" * 2_000)],
)

# A longer record in the gap, and then a new slot for which the others are moved together, in the order of their slots.
NEW_SLOT = """1 begin -> 1: began 4
1 update 0.0.2 ee*2900 -> 1: ok
1 commit -> 1: committed
1 begin -> 1: began 5
1 insert 0 ff*1900 -> 1: at 0.0.3
1 commit -> 1: committed
flush -> flushed 1
"""
NEW_SLOT_FRAMES = [
    [change(4, 0, "0.0.2", b"\xcc" * 2_000, b"\xee" * 2_900), record(COMMIT, 4, 9)],
    [change(5, 0, "0.0.3", None, b"\xff" * 1_900), record(COMMIT, 5, 11)],
]
NEW_SLOT_PAGE = page(
    (0, 0),
    11,
    [(24, 200), (224, 3_000), (3_224, 2_900), (6_124, 1_900)],
    [(24, b"\xdd" * 200), (224, b"\xbb" * 3_000), (3_224, b"\xee" * 2_900), (6_124, b"\xff" * 1_900), (8_024, b"\xee" * 100)],
)

# Each kind of record, its images absent, empty and full; an abort, and a way back to a savepoint.
KINDS = """1 begin -> 1: began 1
1 insert 0 aa -> 1: at 0.0.0
1 insert 1 - -> 1: at 1.0.0
1 insert 1 ee*4000 -> 1: at 1.0.1
1 commit -> 1: committed
2 begin -> 2: began 2
2 update 0.0.0 ccdd -> 2: ok
2 update 0.0.0 - -> 2: ok
2 update 0.0.0 ee*4000 -> 2: ok
2 delete 1.0.1 -> 2: ok
2 delete 1.0.0 -> 2: ok
2 abort -> 2: aborted
3 begin -> 3: began 3
3 insert 1 11 -> 3: at 1.0.2
3 savepoint -> 3: savepoint 0
3 insert 1 22 -> 3: at 1.0.3
3 back 0 -> 3: ok
3 commit -> 3: committed
"""
KINDS_FRAMES = [
    [change(1, 0, "0.0.0", None, b"\xaa"), change(1, 1, "1.0.0", None, b""), change(1, 2, "1.0.1", None, FULL), record(COMMIT, 1, 3)],
    [
        change(2, 0, "0.0.0", b"\xaa", b"\xcc\xdd"),
        change(2, 5, "0.0.0", b"\xcc\xdd", b""),
        change(2, 6, "0.0.0", b"", FULL),
        change(2, 7, "1.0.1", FULL, None),
        change(2, 8, "1.0.0", b"", None),
        compensation(2, 9, "1.0.0", b"", 8),
        compensation(2, 10, "1.0.1", FULL, 7),
        compensation(2, 11, "0.0.0", b"", 6),
        compensation(2, 12, "0.0.0", b"\xcc\xdd", 5),
        compensation(2, 13, "0.0.0", b"\xaa", 0),
        record(END, 2, 14),
        change(3, 0, "1.0.2", None, b"\x11"),
        change(3, 16, "1.0.3", None, b"\x22"),
        compensation(3, 17, "1.0.3", None, 16),
        record(COMMIT, 3, 18),
    ],
]

# One that is prepared and rolled back, one that is prepared with nothing and committed, and one that stays in doubt.
DOUBTS = """1 begin -> 1: began 1
1 insert 0 aa -> 1: at 0.0.0
1 commit -> 1: committed
1 begin -> 1: began 2
1 update 0.0.0 bbcc -> 1: ok
1 insert 1 dd -> 1: at 1.0.0
1 lock 1.1 EX -> 1: ok
1 prepare 6731 -> 1: prepared
2 begin -> 2: began 3
2 prepare 00 -> 2: prepared
3 resolve 6731 abort -> 3: resolved
3 resolve 00 commit -> 3: resolved
4 begin -> 4: began 4
4 insert 1 ee -> 4: at 1.0.0
4 prepare 6731 -> 4: prepared
"""
DOUBTS_FRAMES = [
    [change(1, 0, "0.0.0", None, b"\xaa"), record(COMMIT, 1, 1)],
    [change(2, 0, "0.0.0", b"\xaa", b"\xbb\xcc"), change(2, 3, "1.0.0", None, b"\xdd"), prepare(2, 4, b"g1", ["1.1", "0.0.0", "1.0.0"])],
    [prepare(3, 0, b"\0", [])],
    [record(ROLLBACK_DECIDED, 2, 5), compensation(2, 7, "1.0.0", None, 3), compensation(2, 8, "0.0.0", b"\xaa", 0), record(END, 2, 9)],
    [record(COMMIT, 3, 6)],
    [change(4, 0, "1.0.0", None, b"\xee"), prepare(4, 12, b"g1", ["1.0.0"])],
]

# Two pages in one batch, and then one alone: the second image stays in the area.
PAIR = "1 begin -> 1: began 1\n1 insert 0 aa -> 1: at 0.0.0\n1 insert 1 bb -> 1: at 1.0.0\n1 commit -> 1: committed\nflush -> flushed 2\n"
PAIR_FRAME = [change(1, 0, "0.0.0", None, b"\xaa"), change(1, 1, "1.0.0", None, b"\xbb"), record(COMMIT, 1, 2)]
PAIR_PAGES = [page((0, 0), 1, [(24, 1)], [(24, b"\xaa")]), page((1, 0), 2, [(24, 1)], [(24, b"\xbb")])]
ONE = "1 begin -> 1: began 2\n1 update 1.0.0 cc -> 1: ok\n1 commit -> 1: committed\nflush -> flushed 1\n"
ONE_FRAME, ONE_PAGE = [change(2, 0, "1.0.0", b"\xbb", b"\xcc"), record(COMMIT, 2, 4)], page((1, 0), 4, [(24, 1)], [(24, b"\xcc")])

# 33 pages: a batch of 32, and one of the last page.
MANY = Geometry(1, 135_168, 1_024, [1] * 33)
BATCHES = "".join(["1 begin -> 1: began 1\n", *(f"1 insert {it} aa -> 1: at {it}.0.0\n" for it in range(33)), "1 commit -> 1: committed\nflush -> flushed 33\n"])
BATCHES_FRAME = [*(change(1, it, f"{it}.0.0", None, b"\xaa") for it in range(33)), record(COMMIT, 1, 33)]
BATCHES_PAGES = [page((it, 0), it + 1, [(24, 1)], [(24, b"\xaa")]) for it in range(33)]

# The longest record and the longest global id of version 2, beside a record of no bytes.
LONGER = f"""1 begin -> 1: began 1
1 insert 0 ee*12000 -> 1: at 0.0.0
1 insert 0 - -> 1: at 0.0.1
1 commit -> 1: committed
2 begin -> 2: began 2
2 insert 1 bb -> 2: at 1.0.0
2 prepare {"67" * 255} -> 2: prepared
flush -> flushed 2
"""
LONGER_FRAMES = [
    [change(1, 0, "0.0.0", None, b"\xee" * 12_000), change(1, 1, "0.0.1", None, b""), record(COMMIT, 1, 2)],
    [change(2, 0, "1.0.0", None, b"\xbb"), prepare(2, 4, b"g" * 255, ["1.0.0"])],
]
LONGER_PAGES = [page((0, 0), 2, [(24, 12_000), (12_024, 0)], [(24, b"\xee" * 12_000)], 2), page((1, 0), 4, [(24, 1)], [(24, b"\xbb")], 2)]


def filled(last):
    """Sixteen full records, and one more, whose length decides whether the Commit is in their frame."""
    inserts = [f"1 insert 0 ee*{4_000 if it < 16 else last} -> 1: at 0.{it // 2}.{it % 2}\n" for it in range(17)]
    changes = [change(1, it, f"0.{it // 2}.{it % 2}", None, FULL if it < 16 else FULL[:last]) for it in range(17)]
    return "".join(["1 begin -> 1: began 1\n", *inserts, "1 commit -> 1: committed\n"]), changes, [record(COMMIT, 1, 17)]


FITS, FITS_CHANGES, FITS_COMMIT = filled(920)
PARTS, PARTS_CHANGES, PARTS_COMMIT = filled(921)
# The geometry and the script; the frames; the pages, the table of the area, and its images.
WRITTEN = [
    ("a pair made anew", TWO_STORES, "", [], {}, [], []),
    ("a pair of 64 stores", MANY_STORES, "", [], {}, [], []),
    ("records behind one another", SMALL, FIRST, [FIRST_FRAME], {0: FIRST_PAGE}, [0], [FIRST_PAGE]),
    ("updates and a delete", SMALL, FIRST + SECOND, [FIRST_FRAME, SECOND_FRAME], {0: SECOND_PAGE}, [0], [SECOND_PAGE]),
    ("empty slots", SMALL, FIRST + SECOND + THIRD, [FIRST_FRAME, SECOND_FRAME, THIRD_FRAME], {0: THIRD_PAGE}, [0], [THIRD_PAGE]),
    ("records moved together", SMALL, MOVED, MOVED_FRAMES, {0: MOVED_PAGE}, [0], [MOVED_PAGE]),
    ("records moved together for a new slot", SMALL, MOVED + NEW_SLOT, MOVED_FRAMES + NEW_SLOT_FRAMES, {0: NEW_SLOT_PAGE}, [0], [NEW_SLOT_PAGE]),
    ("each kind of record", SMALL, KINDS, KINDS_FRAMES, {}, [], []),
    ("prepared transactions", SMALL, DOUBTS, DOUBTS_FRAMES, {}, [], []),
    ("two pages", SMALL, PAIR, [PAIR_FRAME], {0: PAIR_PAGES[0], 1: PAIR_PAGES[1]}, [0, 1], PAIR_PAGES),
    ("two pages and then one", SMALL, PAIR + ONE, [PAIR_FRAME, ONE_FRAME], {0: PAIR_PAGES[0], 1: ONE_PAGE}, [1], [ONE_PAGE, PAIR_PAGES[1]]),
    ("33 pages", MANY, BATCHES, [BATCHES_FRAME], dict(enumerate(BATCHES_PAGES)), [32], [BATCHES_PAGES[32], *BATCHES_PAGES[1:32]]),
    ("a frame as long as may be", LONG, FITS, [FITS_CHANGES + FITS_COMMIT], {}, [], []),
    ("a byte more than a frame has", LONG, PARTS, [PARTS_CHANGES, PARTS_COMMIT], {}, [], []),
    ("a pair of version 2 made anew", OF_VERSION_2, "", [], {}, [], []),
    ("the longest of version 2", OF_VERSION_2, LONGER, LONGER_FRAMES, {0: LONGER_PAGES[0], 1: LONGER_PAGES[1]}, [0, 1], LONGER_PAGES),
]
