"""Logs that no run leaves, each with what is in question in it, as groups of records: tools/check-formats lays them in frames."""
from formats import COMMIT, END, ROLLBACK_DECIDED, change, compensation, prepare, record
from formats_by_hand import FULL


def near(byte):
    """Values that are tried in place of one."""
    return sorted({0, 1, 2, 3, 4, 5, 9, 0x10, 0x40, 0xA5, 0xFF, byte ^ 1, byte ^ 0x80, (byte + 1) % 256, (byte - 1) % 256} - {byte})


def put(content, offset, piece):
    return content[:offset] + piece + content[offset + len(piece) :]


def of_length(txn, first, length):
    """The records of a transaction that commits, so many bytes in all, if it changes one full record again and again."""
    texts, left = [], length - 21
    while left:
        size = min(left, 8_037)
        images = FULL[: (size - 37) // 2], FULL[: (size - 36) // 2]
        texts.append(change(txn, first + len(texts) - 1 if texts else 0, "0.0.0", *images))
        left -= size
    return [*texts, record(COMMIT, txn, first + len(texts) - 1)]


def logs_by_hand():
    """Logs that no run leaves, and what is in question in each."""
    insert = change(1, 0, "0.0.0", None, b"\xaa")
    for kind in range(10):
        yield f"kind {kind} with no payload", [[insert, record(kind, 1, 1)]]
        yield f"kind {kind} with a payload", [[insert, record(kind, 1, 1, b"\0")]]
        yield f"kind {kind} with the payload of a Change", [[record(kind, 1, 0, insert[21:])]]
        yield f"kind {kind} with the payload of a Compensation", [[insert, record(kind, 1, 1, compensation(1, 1, "0.0.0", None, 0)[21:])]]
    for images in [(None, None), (None, FULL), (FULL, FULL), (None, FULL + b"\xee"), (FULL + b"\xee", None), (b"", b""), (b"", None)]:
        yield "images", [[change(1, 0, "0.0.0", *images), record(COMMIT, 1, 1)]]
    for txn in [0, 1, 2**62 - 1, 2**62, 2**64 - 1]:
        yield f"transaction {txn}", [[change(txn, 0, "0.0.0", None, b"\xaa"), record(COMMIT, txn, 1)]]
    for slot in ["0.0.3", "0.0.2040", "0.0.2041", "0.0.2042", "0.0.65535", "0.1.0", "0.2.0", "1.2.9", "1.3.0", "2.0.0", "4294967295.0.0"]:
        for length in [0, 1, 4, 5, 8]:
            yield f"{length} bytes at {slot}", [[change(1, 0, slot, None, FULL[:length]), record(COMMIT, 1, 1)]]
    for length in [156, 157]:
        inserts = [change(1, it, f"0.0.{it}", None, FULL[:size]) for it, size in enumerate([4_000, 4_000, length])]
        yield f"{length} bytes behind two full records", [[*inserts, record(COMMIT, 1, 3)]]
    for previous in [0, 1, 2, 3]:
        yield f"a previous number {previous}", [[insert, change(1, previous, "0.0.1", None, b"\xbb"), record(COMMIT, 1, 2)]]
    # Which of two is named tells that frames are read before records are judged, and these before any is done on its page.
    for previous in [2, 3]:
        yield f"an End too early, and then a record behind {previous}", [[insert, record(END, 1, 1)], [change(2, previous, "0.0.1", None, b"\xbb")]]
    for slot in [2_041, 2_042]:
        yield f"a record with no room, and then one in slot {slot}", [[change(1, 0, "0.1.2041", None, b"\xaa")], [change(1, 1, f"0.0.{slot}", None, b"")]]
    yield "a frame of no record", [[insert, record(COMMIT, 1, 1)], []]
    yield "a record behind the end of its transaction", [[insert, record(COMMIT, 1, 1), change(1, 2, "0.0.1", None, b"\xbb")]]
    yield "an End with a change to undo", [[insert, record(END, 1, 1)]]
    yield "an end with no change", [[record(END, 1, 0), record(COMMIT, 2, 0)]]


def longest_by_hand(sizes):
    """Logs with images, global ids and slots as long and as high as some version allows, and a byte or a slot more; and a page that is filled, and a byte more."""
    insert = change(1, 0, "0.0.0", None, b"\xaa")
    for length in [4_000, 4_001, 12_000, 12_001]:
        image = b"\xee" * length
        yield f"an image after of {length} bytes", [[change(1, 0, "0.0.0", None, image), record(COMMIT, 1, 1)]]
        yield f"an image before of {length} bytes", [[change(1, 0, "0.0.0", image, None), record(COMMIT, 1, 1)]]
        yield f"a Compensation of {length} bytes", [[change(1, 0, "0.0.0", image, None), compensation(1, 1, "0.0.0", image, 0), record(END, 1, 2)]]
        yield f"an image of {length} bytes of one to undo", [[change(1, 0, "0.0.0", image, None)]]
    for length in [1, 64, 65, 255]:
        yield f"a global id of {length} bytes", [[insert, prepare(1, 1, b"g" * length, ["0.0.0"])]]
    for slot in [2_041, 2_042, 4_089, 4_090]:
        yield f"slot {slot}", [[change(1, 0, f"0.0.{slot}", None, b""), record(COMMIT, 1, 1)]]
        yield f"a granule of slot {slot}", [[prepare(1, 0, b"g", [f"0.0.{slot}"])]]
    full = (sizes.page - 24) // (sizes.record + 4)
    rest = sizes.page - 24 - full * (sizes.record + 4) - 4
    for length in [rest, rest + 1]:
        lengths = [*[sizes.record] * full, length]
        inserts = [change(1, it, f"0.0.{it}", None, b"\xee" * size) for it, size in enumerate(lengths)]
        yield f"records of {lengths} bytes", [[*inserts, record(COMMIT, 1, len(inserts))]]


def prepares_by_hand():
    """Prepares as no run leaves them, and records behind them that may not follow."""
    insert = change(1, 0, "0.0.0", None, b"\xaa")
    for length in [0, 1, 63, 64, 65, 255]:
        yield f"a global id of {length} bytes", [[insert, prepare(1, 1, b"g" * length, ["0.0.0"])]]
    for granules in [[], ["0.0"], ["0"], ["v"], ["0.0.1"], ["0.1"], ["1"], ["0.0.0", "0.0.0"], ["0.0.0", "0.0"], ["0.0", "0.0.0"], ["v", "0", "0.0", "0.0.0"], ["1", "0.0.0"]]:
        yield f"the granules {granules}", [[insert, prepare(1, 1, b"g", granules)]]
        yield f"the granules {granules}, and then a Commit", [[insert, prepare(1, 1, b"g", granules), record(COMMIT, 1, 2)]]
        yield f"the granules {granules} of a change that was put back", [[insert, compensation(1, 1, "0.0.0", None, 0), prepare(1, 2, b"g", granules)]]
    for granule in ["2", "4294967295", "0.2", "1.2", "1.3", "2.0", "0.1.2041", "0.1.2042", "0.2.0", "1.2.65535"]:
        yield f"the granule {granule}", [[prepare(1, 0, b"g", [granule])]]
    right = prepare(1, 0, b"g", ["0.0.1"])
    for offset in range(21, len(right)):
        for value in near(right[offset]):
            yield f"byte {offset} of a Prepare is {value:#x}", [[put(right, offset, bytes([value]))]]
    followers = {
        "a Change": lambda it: change(1, it, "0.0.0", b"\xaa", b"\xbb"),
        "a Compensation": lambda it: compensation(1, it, "0.0.0", None, 0),
        "a Commit": lambda it: record(COMMIT, 1, it),
        "an End": lambda it: record(END, 1, it),
        "a Prepare": lambda it: prepare(1, it, b"h", ["0.0.0"]),
        "a RollbackDecided": lambda it: record(ROLLBACK_DECIDED, 1, it),
    }
    prepared = prepare(1, 1, b"g", ["0.0.0"])
    for first, one in followers.items():
        yield f"{first} behind a Change", [[insert, one(1)]]
        yield f"{first} behind a Prepare", [[insert, prepared, one(2)]]
        yield f"{first} behind a RollbackDecided", [[insert, prepared, record(ROLLBACK_DECIDED, 1, 2), one(3)]]
        for second, other in followers.items():
            yield f"{first} and {second} behind a RollbackDecided", [[insert, prepared, record(ROLLBACK_DECIDED, 1, 2)], [one(3), other(4)]]


def doubts_by_hand():
    """Two that are prepared, of which the first is in doubt, decided or ended as the second is."""
    ends = {
        "in doubt": [],
        "committed": [record(COMMIT, 1, 1)],
        "being rolled back": [record(ROLLBACK_DECIDED, 1, 1)],
        "rolled back": [record(ROLLBACK_DECIDED, 1, 1), record(END, 1, 2)],
    }
    pairs = [(["0.0.0"], ["0.0.0"]), (["0.0.0"], ["0.0.1"]), (["0.0"], ["0.0.1"]), (["0.0.1"], ["0.0"]), (["0"], ["0.1"]), (["0.1"], ["0"]), (["0"], ["1"]), (["v"], ["1"]), (["1.0.0"], ["v"]), (["v"], []), (["0.0"], ["0.1"])]
    for end, records in ends.items():
        for first, second in pairs:
            behind = prepare(2, 0, b"h", second)
            yield f"{first}, {end}, and then {second}", [[prepare(1, 0, b"g", first), *records], [behind]]
            yield f"{first}, and then {second}, and then {end}", [[prepare(1, 0, b"g", first)], [behind], *([records] if records else [])]
        for names in [(b"g", b"g"), (b"g", b"gg"), (b"gg", b"g"), (b"g", b"h")]:
            yield f"the names {names}, the first {end}", [[prepare(1, 0, names[0], []), *records], [prepare(2, 0, names[1], [])]]
