"""The formats of the two files of a pair, as docs/DEFINITIONS.md has them under "Bytes", in each version: made for tools/check-formats, and read as an open reads them. What it makes of them is in
tools/lib/opening.py.

Nothing here comes from the code of the program, nor from what it wrote.
"""
import collections
import struct

OPEN, SHUT = b"\xa5", b"\x00"
LETTERS = {"log": b"\x4c", "volume": b"\x56"}
ANCHORS_AT, STREAM_AT = (1_024, 2_048), 4_096
GATE_AT, TABLE_AT, IMAGES_AT = 4_096, 4_100, 8_192
MOST_OF_A_BATCH, MOST_OF_A_FRAME, LONGEST_FRAME = 32, 65_536, 65_549
# What a version gives: the bytes of a page and its most slots, the most bytes of a record and of a global id, the fewest of a log, and where the pages begin.
Sizes = collections.namedtuple("Sizes", "page slots record name least_log pages_at")
VERSIONS = {1: Sizes(8_192, 2_042, 4_000, 64, 135_168, 270_336), 2: Sizes(16_384, 4_090, 12_000, 255, 266_240, 532_480)}
OF_A_PAGE = {it.page: it for it in VERSIONS.values()}
# A record's text knows no version: these are the most of any.
MOST_OF_AN_IMAGE, MOST_OF_A_NAME = 12_000, 255
CHANGE, COMPENSATION, COMMIT, END, PREPARE, ROLLBACK_DECIDED, CHECKPOINT_BEGIN, CHECKPOINT_END, ANCHOR = 1, 2, 3, 4, 5, 6, 7, 8, 9
ACTIVE, PREPARED, ROLLING_BACK = 1, 2, 3
MOST_GRANULES, MOST_TXNS, MOST_DIRTY, LAST_OPENED = 4_096, 256, 1_024, 2**46 + 2**32

Geometry = collections.namedtuple("Geometry", "pair log_bytes locks stores version", defaults=[1])
# What a label says of its pair.
Label = collections.namedtuple("Label", "pair locks stores version")
Record = collections.namedtuple("Record", "kind txn previous at before after following name granules table named", defaults=[None] * 4)
# What a CheckpointEnd has, with an entry for each transaction and for each dirty page.
Table = collections.namedtuple("Table", "begin next txns dirty")
Txn = collections.namedtuple("Txn", "txn state first last following prepare")
Dirty = collections.namedtuple("Dirty", "store page recovery")
# What an Anchor record names.
Named = collections.namedtuple("Named", "checkpoint tail")
# An anchor behind its gate, and what it is in a log that no checkpoint has moved it in.
Anchor = collections.namedtuple("Anchor", "sequence checkpoint tail place")
FIRST_ANCHOR = Anchor(sequence=1, checkpoint=0, tail=1, place=0)
# What stands at a place of a log: a frame, with the number of its first record, its records and how many bytes they have; or none, and why that is no closed gate.
Frame = collections.namedtuple("Frame", "place first records length why", defaults=[None])


# What is written.


def number(size, value):
    return value.to_bytes(size, "little")


def label(device, length, geometry):
    fields = LETTERS[device] + number(2, geometry.version) + number(4, VERSIONS[geometry.version].page) + number(8, geometry.pair) + number(8, length) + number(4, geometry.locks)
    stores = b"".join(number(4, pages) for pages in [len(geometry.stores), *geometry.stores])
    return (OPEN + fields + stores).ljust(512, b"\0")


def anchor(sequence=1, checkpoint=0, tail=1, place=0, gate=OPEN):
    return gate + bytes(7) + b"".join(number(8, it) for it in (sequence, checkpoint, tail, place))


def image(content):
    return b"\0" if content is None else b"\1" + number(2, len(content)) + content


def record(kind, txn, previous, payload=b""):
    return number(1, kind) + number(8, txn) + number(8, previous) + number(4, len(payload)) + payload


def rid(text):
    store, page, slot = map(int, text.split("."))
    return number(4, store) + number(4, page) + number(2, slot)


def change(txn, previous, at, before, after):
    return record(CHANGE, txn, previous, rid(at) + image(before) + image(after))


def compensation(txn, previous, at, after, following):
    return record(COMPENSATION, txn, previous, rid(at) + image(after) + number(8, following))


def granule(text):
    """The bytes of a granule: its level, and its ids, 0 below it."""
    ids = [] if text == "v" else text.split(".")
    return number(1, len(ids)) + rid(".".join([*ids, "0", "0", "0"][:3]))


def prepare(txn, previous, name, granules):
    return record(PREPARE, txn, previous, number(1, len(name)) + name + number(4, len(granules)) + b"".join(map(granule, granules)))


def checkpoint_begin():
    return record(CHECKPOINT_BEGIN, 0, 0)


def checkpoint_end(begin, following, txns=(), dirty=()):
    """The number of its begin, that of the next transaction, a Txn for each transaction, and for each dirty page its name with its recovery number."""
    entries = [number(8, it.txn) + number(1, it.state) + b"".join(number(8, number_of) for number_of in it[2:]) for it in txns]
    pages = [rid(f"{page}.0")[:8] + number(8, recovery) for page, recovery in dirty]
    tables = [number(2, len(them)) + b"".join(them) for them in (entries, pages)]
    return record(CHECKPOINT_END, 0, 0, number(8, begin) + number(8, following) + b"".join(tables))


def anchor_record(checkpoint, tail):
    return record(ANCHOR, 0, 0, number(8, checkpoint) + number(8, tail))


def frame(first, records):
    texts = b"".join(records)
    return OPEN + number(4, len(texts)) + number(8, first) + texts


def byte_of(log, place):
    """The byte of a log at which a place of its stream stands."""
    return STREAM_AT + place % max(len(log) - STREAM_AT, 1)


def row_from(log, place):
    """The stream of a log once around, from a place on."""
    at = byte_of(log, place)
    return log[at:] + log[STREAM_AT:at]


def laid_at(log, place, content):
    """A log in which this stands from a place on: in two parts if the end of the stream lies between."""
    row, before_end = row_from(log, place), len(log) - byte_of(log, place)
    row = (content + row[len(content) :])[: len(row)]
    return log[:STREAM_AT] + row[before_end:] + row[:before_end]


def log_file(geometry, *groups, label_of=None, anchors=(anchor(),), first=1, place=0, older=b""):
    """The log with these anchors, and a frame for each group of records, the first of which has this number and place. The stream had these older bytes."""
    content = label("log", geometry.log_bytes, label_of or geometry).ljust(ANCHORS_AT[0], b"\0") + anchors[0]
    content = content.ljust(ANCHORS_AT[1], b"\0") + b"".join(anchors[1:])
    content = (content.ljust(STREAM_AT, b"\0") + older).ljust(geometry.log_bytes, b"\0")
    frames = b""
    for group in groups:
        frames += frame(first, group)
        first += len(group)
    return laid_at(content, place, frames + SHUT)


def turned_log_file(geometry, *groups, anchors=(anchor(),)):
    """The same of frames that may be longer than the stream together: each is laid over what stood there."""
    log, first, place = log_file(geometry, anchors=anchors), 1, 0
    for group in groups:
        text = frame(first, group)
        log = laid_at(log, place, text + SHUT)
        first, place = first + len(group), place + len(text)
    return log


def page(place, last=0, entries=(), pieces=(), version=1):
    """A page: the number of its last change, for each slot where its record is and how long, and what stands at some offsets."""
    size = VERSIONS[version].page
    content = bytearray(size)
    for offset, piece in pieces:
        content[offset : offset + len(piece)] = piece
    content[:24] = struct.pack("<IIQHHI", *place, last, len(entries), size - 4 * len(entries), 0)
    for slot, entry in enumerate(entries):
        content[size - 4 * (slot + 1) : size - 4 * slot] = struct.pack("<HH", *entry)
    return bytes(content)


def places_of(stores):
    return [(store, index) for store, count in enumerate(stores) for index in range(count)]


def volume_file(geometry, pages=(), numbers=(), images=(), gate=SHUT, label_of=None):
    """The volume with these pages, by their numbers; the others are empty. The table has these numbers, and the area these images."""
    places, pages, sizes = places_of(geometry.stores), dict(pages), VERSIONS[geometry.version]
    content = label("volume", sizes.pages_at + sizes.page * len(places), label_of or geometry).ljust(GATE_AT, b"\0") + gate + bytes(3)
    content += b"".join(number(4, it) for it in [len(numbers), *numbers] if numbers)
    content = (content.ljust(IMAGES_AT, b"\0") + b"".join(images)).ljust(sizes.pages_at, b"\0")
    return content + b"".join(pages.get(at) or page(place, version=geometry.version) for at, place in enumerate(places))


# What is read.


class Refused(Exception):
    """The fault that an open of the files is refused with, and why, if that is not seen from the fault."""

    def __init__(self, fault, why=""):
        super().__init__(fault)
        self.why = why


class NoText(Exception):
    """Bytes are no text of a frame, of a record or of a page, and why."""


def damaged(device, offset, why=""):
    return Refused(f"25 Damaged {device} {offset}", why)


def demand(is_right, why):
    if not is_right:
        raise NoText(why)


def field(content, offset, size):
    return int.from_bytes(content[offset : offset + size], "little")


def read_label(device, content):
    head, size = content[:512], len(content)
    if size < 4_096 or head[:2] != OPEN + LETTERS[device]:
        raise Refused("29 NotFormatted")
    version = field(head, 2, 2)
    if version not in VERSIONS:
        raise Refused("26 WrongVersion")
    sizes = VERSIONS[version]
    pair, length, locks, count = field(head, 8, 8), field(head, 16, 8), field(head, 24, 4), field(head, 28, 4)
    may_be_long = device == "volume" or sizes.least_log <= size <= 1_073_741_824
    fields = [(4, field(head, 4, 4) == sizes.page), (16, length == size and may_be_long), (24, 16 <= locks <= 4_096), (28, 1 <= count <= 64)]
    stores = [field(head, 32 + 4 * it, 4) for it in range(min(count, 64))]
    fields += [(32 + 4 * it, pages > 0 and sum(stores[: it + 1]) <= 65_536) for it, pages in enumerate(stores)]
    fields += [(32 + 4 * count, not any(head[32 + 4 * count :])), (16, device == "log" or size == sizes.pages_at + sizes.page * sum(stores))]
    for offset, is_right in fields:
        if not is_right:
            raise damaged(device, offset)
    return Label(pair, locks, stores, version)


def anchor_in(log, at):
    """The anchor that stands here, whether or not its gate is open."""
    return Anchor(*(field(log, at + it, 8) for it in (8, 16, 24, 32)))


def read_anchors(log):
    """Where the one is that counts, and what it says: of the open ones that of the greater sequence."""
    slots = [at for at in ANCHORS_AT if log[at : at + 1] == OPEN]
    for at in slots:
        if any(log[at + 1 : at + 8]):
            raise damaged("log", at)
    counting = sorted((anchor_in(log, at), at) for at in slots)
    if not counting or [it.sequence for it, _ in counting].count(counting[-1][0].sequence) > 1:
        raise damaged("log", ANCHORS_AT[len(counting) // 2])
    counts, at = counting[-1]
    has_tail = 1 <= counts.tail <= LAST_OPENED and counts.place <= LONGEST_FRAME * (counts.tail - 1)
    if not (has_tail and 1 <= counts.sequence <= counts.checkpoint + 1 and (counts.checkpoint == 0 or counts.checkpoint >= counts.tail)):
        raise damaged("log", at, "it is out of its limits")
    return at, counts


class Text:
    """Bytes that are read from their front."""

    def __init__(self, content):
        self.rest = content

    def take(self, size):
        if size > len(self.rest):
            raise NoText(f"{size} bytes are to come, and {len(self.rest)} are left")
        taken, self.rest = self.rest[:size], self.rest[size:]
        return taken

    def number(self, size):
        return int.from_bytes(self.take(size), "little")

    def image(self):
        tag = self.number(1)
        content = self.take(self.number(2)) if tag else None
        demand(tag <= 1, f"the first byte of an image is {tag:#04x}")
        demand(len(content or b"") <= MOST_OF_AN_IMAGE, f"an image has {len(content or b'')} bytes")
        return content

    def granule(self):
        level, ids = self.number(1), (self.number(4), self.number(4), self.number(2))
        demand(level <= 3 and not any(ids[level:]), f"a granule has the level {level} and the ids {ids}")
        return (level, *ids)

    def prepare(self):
        length = self.number(1)
        name = self.take(length)
        demand(1 <= length <= MOST_OF_A_NAME, f"a global id has {length} bytes")
        count = self.number(4)
        demand(count <= MOST_GRANULES, f"a Prepare has {count} granules")
        granules = [self.granule() for _ in range(count)]
        demand(all(a < b for a, b in zip(granules, granules[1:])), "the granules of a Prepare do not rise")
        return name, granules

    def txn(self):
        entry = Txn(self.number(8), self.number(1), *(self.number(8) for _ in range(4)))
        demand(entry.txn > 0, "an entry of a CheckpointEnd has the transaction 0")
        demand(ACTIVE <= entry.state <= ROLLING_BACK, f"an entry of a CheckpointEnd has the state {entry.state}")
        return entry

    def dirty(self):
        return Dirty(self.number(4), self.number(4), self.number(8))

    def entries(self, what, most, read, key):
        count = self.number(2)
        demand(count <= most, f"a CheckpointEnd has {count} {what}")
        entries = [read() for _ in range(count)]
        keys = [it[:key] for it in entries]
        demand(all(a < b for a, b in zip(keys, keys[1:])), f"the {what} of a CheckpointEnd do not rise")
        return entries

    def table(self):
        begin, following = self.number(8), self.number(8)
        return Table(begin, following, self.entries("transactions", MOST_TXNS, self.txn, 1), self.entries("dirty pages", MOST_DIRTY, self.dirty, 2))

    def record(self):
        kind, txn, previous = self.number(1), self.number(8), self.number(8)
        payload = Text(self.take(self.number(4)))
        at = (payload.number(4), payload.number(4), payload.number(2)) if kind in (CHANGE, COMPENSATION) else None
        before = payload.image() if kind == CHANGE else None
        after = payload.image() if at else None
        following = payload.number(8) if kind == COMPENSATION else None
        name, granules = payload.prepare() if kind == PREPARE else (None, None)
        table = payload.table() if kind == CHECKPOINT_END else None
        named = Named(payload.number(8), payload.number(8)) if kind == ANCHOR else None
        demand(CHANGE <= kind <= ANCHOR, f"a record has the kind {kind}")
        if kind >= CHECKPOINT_BEGIN:
            demand((txn, previous) == (0, 0), f"a record of a checkpoint has the transaction {txn} and the previous number {previous}")
        else:
            demand(txn > 0, "a record has the transaction 0")
        demand(not payload.rest, f"{len(payload.rest)} bytes of a record's payload belong to nothing")
        demand(kind != CHANGE or before is not None or after is not None, "a Change has no image")
        return Record(kind, txn, previous, at, before, after, following, name, granules, table, named)


def read_frame(row, at, first):
    """The records of the frame at an offset of a stream in a row, the first of which has this number, and where the next frame is."""
    head = Text(row[at + 1 : at + 1 + LONGEST_FRAME])
    length, number_of_first = head.number(4), head.number(8)
    demand(number_of_first == first, f"its first record has the number {number_of_first}, and {first} is to come")
    demand(1 <= length <= MOST_OF_A_FRAME, f"its records have {length} bytes")
    texts, records = Text(head.take(length)), []
    demand(head.rest, "no byte is left for the gate after it")
    while texts.rest:
        records.append(texts.record())
        demand(records[-1].previous < first + len(records) - 1, f"record {first + len(records) - 1} has the previous number {records[-1].previous}")
    return records, at + 13 + length


def frames_of(log, counts):
    """Each frame from the tail on, and what stands behind the last."""
    row, at, first = row_from(log, counts.place), 0, counts.tail
    while row[at : at + 1] == OPEN:
        try:
            read, following = read_frame(row, at, first)
        except NoText as why:
            yield Frame(counts.place + at, first, [], 0, str(why))
            return
        yield Frame(counts.place + at, first, read, following - at - 13)
        at, first = following, first + len(read)
    yield Frame(counts.place + at, first, [], 0)


def read_frames(log, counts):
    """Each record with the offset of its frame, and the place of the closed gate after the last frame."""
    frames = list(frames_of(log, counts))
    if frames[-1].why:
        raise damaged("log", byte_of(log, frames[-1].place), frames[-1].why)
    return [(byte_of(log, it.place), read) for it in frames for read in it.records], frames[-1].place


def read_entries(content, place, last):
    """Where the record of each slot is and how long; of bytes that are a text of the page with a number up to the last one. How many they are tells the version."""
    sizes = OF_A_PAGE[len(content)]
    store, index, lsn, count, table, zero = struct.unpack("<IIQHHI", content[:24])
    demand((store, index) == place, f"it names the page {store}.{index}")
    demand(zero == 0, "its bytes 20 to 23 are not zero")
    demand(lsn <= last, f"its number is {lsn}, and the log ends at {last}")
    demand(count <= sizes.slots, f"it has {count} slots")
    demand(table == sizes.page - 4 * count, f"its slot table begins at {table}, for {count} slots")
    entries = [struct.unpack_from("<HH", content, sizes.page - 4 * (slot + 1)) for slot in range(count)]
    behind = 24
    for offset, length in sorted(it for it in entries if it != (0, 0)):
        demand(length <= sizes.record, f"a record at {offset} has {length} bytes")
        demand(offset >= (behind if length else 24), f"a record at {offset} begins before {behind if length else 24}")
        demand(offset + length <= table, f"a record at {offset} ends at {offset + length}, and the slot table begins at {table}")
        behind = max(behind, offset + length)
    return entries


def read_page(content, place, last):
    """What is in each slot; None if the bytes are no text of the page with a number up to the last one."""
    try:
        entries = read_entries(content, place, last)
    except NoText:
        return None
    return [None if it == (0, 0) else content[it[0] : it[0] + it[1]] for it in entries]
