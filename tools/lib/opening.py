"""What an open makes of the two files of a pair: it is refused, or shows records, and leaves files. An open's order of checks is that of "Refuses an open" of docs/DEFINITIONS.md.
What its records mean is in tools/lib/analysis.py. Nothing here comes from the code of the program.
"""
import collections
import itertools

from analysis import Analysis
from formats import CHECKPOINT_BEGIN, COMPENSATION, END, GATE_AT, IMAGES_AT, LAST_OPENED, LONGEST_FRAME, MOST_OF_A_BATCH, MOST_OF_A_FRAME, OPEN, SHUT, STREAM_AT
from formats import TABLE_AT, VERSIONS, NoText, Record, Refused, byte_of, compensation, damaged, field, frame, laid_at, places_of, read_anchors, read_entries, read_frames, read_label, read_page
from formats import record


class Opening:
    """What an open has to make of two files: it is refused, or shows pages, and leaves these files."""

    def __init__(self, log, volume):
        self.log, self.volume, self.shown = log, volume, {}
        # The records that are done again, by their numbers, and the numbers of the changes that are undone, by their transactions.
        self.redone, self.undone = [], {}
        # Those in doubt, in the order of their Prepares, and the locks that are given back to them: by granule and transaction.
        self.doubts, self.locks = [], {}
        try:
            self.open()
            self.lines = ["opened", *self.dumped()]
            has_failed = any(it.startswith("fault") for it in self.lines)
            self.lines_of_doubts = ["1: fault 24 Failed", "fault 24 Failed"] if has_failed else self.told_in_doubt()
        except Refused as refusal:
            self.lines, self.why = [f"open fault {refusal}", "fault 24 Failed"], refusal.why
            self.lines_of_doubts = ["1: fault 24 Failed", "fault 24 Failed"]

    def open(self):
        of_log = read_label("log", self.log)
        if of_log != read_label("volume", self.volume):
            raise Refused("30 WrongPair")
        self.most_locks, self.stores, self.sizes = of_log.locks, of_log.stores, VERSIONS[of_log.version]
        self.places = places_of(self.stores)
        self.anchor_at, self.counts = read_anchors(self.log)
        self.records, self.end = read_frames(self.log, self.counts)
        self.replay()
        self.told = Analysis(self.stores, self.places, self.sizes, self.counts.tail, self.records)
        table = self.checkpoint()
        unmeant = self.told.first_unmeant(self.counts.checkpoint)
        if unmeant:
            raise damaged("log", self.frame_of(unmeant), f"record {unmeant} does not go with those before it, or with the volume")
        self.doubts = self.told.doubts()
        for index, txn in enumerate(self.doubts):
            self.give_back_locks(txn, [self.prepare_of(it).name for it in self.doubts[:index]])
        self.judge_room()
        self.redo(table)
        self.undo()
        self.keep_claims()

    def record(self, number):
        return self.told.record(number)

    def frame_of(self, number):
        """The offset of the frame of a record."""
        return self.records[number - self.counts.tail][0]

    def last(self):
        return self.counts.tail + len(self.records) - 1

    def checkpoint(self):
        """The table of the checkpoint that the anchor names; None if it names none. The log has to have that, its begin and its end."""
        named = self.counts.checkpoint
        table = self.told.end_of(named)
        if named and not (table and named <= self.last() and self.record(named).kind == CHECKPOINT_BEGIN):
            raise damaged("log", self.anchor_at, f"the log has no checkpoint that begins at {named}")
        return table if named else None

    def judge_room(self):
        """Each record takes of the room what it would in a frame of its own; and for each in doubt its undo is reserved for, and two records more."""
        reserved = sum(68 + sum(52 + self.cost_of_image(self.record(it).before) for it in self.told.unanswered[txn]) for txn in self.doubts)
        kept = self.end - self.counts.place + 13 * (len(self.records) - len({at for at, _ in self.records}))
        if kept + reserved + LONGEST_FRAME > len(self.log) - STREAM_AT or self.last() + reserved >= LAST_OPENED:
            raise damaged("log", self.anchor_at, "the records leave no room for the longest frame")

    def redo(self, table):
        """Does each record on its page that lacks it. A page that the checkpoint's table has lacks none before its recovery number, and any other none before the begin."""
        recoveries = {(it.store, it.page): it.recovery for it in table.dirty} if table else {}
        begin = table.begin if table else 1
        for number, (at, read) in enumerate(self.records, self.counts.tail):
            if read.at and number >= min(begin, recoveries.get(read.at[:2], begin)) and self.page(read.at)[0] < number:
                self.put(number, at, read)
                self.redone.append(number)

    def replay(self):
        """Lays the images of an open area into place."""
        if self.volume[GATE_AT : GATE_AT + 1] != OPEN:
            return
        table = [field(self.volume, TABLE_AT + 4 * it, 4) for it in range(MOST_OF_A_BATCH + 1)]
        count, least = table[0], 0
        if not 1 <= count <= MOST_OF_A_BATCH:
            raise damaged("volume", TABLE_AT, f"a batch has {count} pages")
        for index, entry in enumerate(table[1:]):
            if not (least <= entry < len(self.places) if index < count else entry == 0):
                raise damaged("volume", TABLE_AT + 4 * (index + 1), f"entry {index} of a batch of {count} is {entry}")
            least = entry + 1
        after = bytearray(self.volume)
        for index, entry in enumerate(table[1 : count + 1]):
            image_at = IMAGES_AT + self.sizes.page * index
            text = self.volume[image_at : image_at + self.sizes.page]
            self.judge_page(image_at, text, self.places[entry], 2**64)
            after[self.offset_of(entry) : self.offset_of(entry + 1)] = text
        after[GATE_AT : GATE_AT + 1] = SHUT
        self.volume = bytes(after)

    def offset_of(self, entry):
        """Where the page of this number begins on the volume."""
        return self.sizes.pages_at + self.sizes.page * entry

    def judge_page(self, offset, content, place, last):
        """The bytes at this offset of the volume have to be a text of the page."""
        try:
            read_entries(content, place, last)
        except NoText as why:
            raise damaged("volume", offset, str(why)) from None

    @staticmethod
    def cost_of_image(content):
        return 1 if content is None else 3 + len(content)

    def prepare_of(self, txn):
        return self.record(self.told.prepared[txn])

    def give_back_locks(self, txn, names):
        """EX on each granule of a Prepare, and IX above it; or that Prepare is refused."""
        at, read = self.frame_of(self.told.prepared[txn]), self.prepare_of(txn)
        if read.name in names:
            raise damaged("log", at, f"two in doubt have the global id {read.name.hex()}")
        for level, *ids in read.granules:
            for above in range(level + 1):
                granule = (above, *ids[:above], *[0] * (3 - above))
                modes = self.locks.setdefault(granule, {})
                mode = "EX" if above == level or modes.get(txn) == "EX" else "IX"
                if any("EX" in (mode, held) for other, held in modes.items() if other != txn):
                    raise damaged("log", at, f"two in doubt cannot both hold {granule}")
                modes[txn] = mode
        if sum(map(len, self.locks.values())) > self.most_locks:
            raise damaged("log", at, f"those in doubt need more than {self.most_locks} lock nodes")

    def keep_claims(self):
        """Each page keeps what those in doubt may put back, and has to have the room."""
        claims = collections.defaultdict(int)
        for number_of_change in (it for txn in self.doubts for it in self.told.unanswered[txn]):
            at, read = self.frame_of(number_of_change), self.record(number_of_change)
            slots = self.page(read.at)[1]
            least = [max(len(it or b""), claims[*read.at[:2], slot]) for slot, it in enumerate(slots)]
            slot, wanted = read.at[2], len(read.before or b"")
            if slot >= len(slots) or wanted - least[slot] > self.sizes.page - 24 - 4 * len(slots) - sum(least):
                raise damaged("log", at, f"what record {number_of_change} put away has no room on its page")
            claims[read.at] = max(claims[read.at], wanted)

    def told_in_doubt(self):
        """What 'indoubt' of session 1 and 'locks' print."""
        names = sorted((self.prepare_of(txn).name, txn) for txn in self.doubts)
        lines = [f"1: indoubt {len(names)}", *(f"{name.hex()} {txn}" for name, txn in names)]
        held = [(granule, txn, mode) for granule, modes in self.locks.items() for txn, mode in modes.items()]
        for (level, *ids), txn, mode in sorted(held):
            lines.append(f"{'.'.join(map(str, ids[:level])) or 'v'} {txn} {mode}")
        return lines if held else [*lines, "no locks"]

    def page(self, at):
        """The number and the slots of a page, as it is in memory."""
        if at[:2] not in self.shown:
            offset = self.offset_of(self.places.index(at[:2]))
            content = self.volume[offset : offset + self.sizes.page]
            self.judge_page(offset, content, at[:2], self.last())
            self.shown[at[:2]] = [field(self.volume, offset + 8, 8), read_page(content, at[:2], self.last())]
        return self.shown[at[:2]]

    def put(self, count, at, read):
        """Does a record on its page, or refuses the one at this frame if there is no room."""
        shown = self.page(read.at)
        slots, slot = shown[1], read.at[2]
        after = slots + [None] * (slot + 1 - len(slots))
        took = len(after[slot] or b"")
        free = self.sizes.page - 24 - 4 * len(after) - sum(len(it or b"") for it in after)
        if max(len(read.after or b"") - took, 0) > free:
            raise damaged("log", at, f"record {count} has no room on its page")
        after[slot] = read.after
        shown[:] = count, after

    def undo(self):
        """Undoes the losers, at each turn the one with the newest change left, or one that has none left, and forces the records of that. What one frame has no room for is in the next."""
        losers, texts = self.told.losers(), []
        self.undone = {txn: self.told.unanswered[txn][::-1] for txn in losers}
        while losers:
            txn = max(losers, key=lambda it: (not self.told.unanswered[it], self.told.unanswered[it][-1:]))
            changes, previous = self.told.unanswered[txn], self.told.last[txn]
            if not changes:
                losers.remove(txn)
                texts.append(record(END, txn, previous))
                read = Record(END, txn, previous, None, None, None, None)
            else:
                undone, following = self.record(changes[-1]), (changes[:-1] or [0])[-1]
                read = Record(COMPENSATION, txn, previous, undone.at, None, undone.before, following)
                self.put(self.last() + 1, self.frame_of(changes[-1]), read)
                texts.append(compensation(txn, previous, ".".join(map(str, read.at)), read.after, following))
            self.records.append((byte_of(self.log, self.end), read))
            self.told.note(self.last(), read)
        first = self.last() - len(texts) + 1
        while texts:
            fitting = sum(length <= MOST_OF_A_FRAME for length in itertools.accumulate(map(len, texts)))
            text = frame(first, texts[:fitting])
            self.log = laid_at(self.log, self.end, text + SHUT)
            texts, first, self.end = texts[fitting:], first + fitting, self.end + len(text)

    def dumped(self):
        try:
            slots = [(place, self.page(place)[1]) for place in self.places]
        except Refused as refusal:
            return [f"fault {refusal}"]
        lines = [f"{store}.{index}.{slot} {content.hex() or '-'}" for (store, index), them in slots for slot, content in enumerate(them) if content is not None]
        return lines or ["empty"]
