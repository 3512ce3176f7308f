"""What an open makes of the records of a log alone, in one pass: whether each means what it has to, and what became of each transaction. It follows "Meant record" and "What a kept record means"
of docs/DEFINITIONS.md, and takes nothing from the code of the program.
"""
import collections

from formats import CHANGE, CHECKPOINT_BEGIN, CHECKPOINT_END, COMMIT, COMPENSATION, END, MOST_TXNS, PREPARE, PREPARED, ROLLBACK_DECIDED

# The numbers of transactions end before this one.
LAST_TXN = 2**62


class Analysis:
    """The records of a log from its tail on, each with the offset of its frame. Those of an undo may be noted behind them."""

    def __init__(self, stores, places, sizes, tail, records):
        self.stores, self.places, self.sizes, self.tail, self.records = stores, places, sizes, tail, records
        # The last record of each transaction, -1 once it has ended, and its Changes that no Compensation has answered.
        self.last, self.unanswered = {}, collections.defaultdict(list)
        # The number of the Prepare of each transaction that has one, those that have a RollbackDecided, and those whose first record here names one that is cut off.
        self.prepared, self.decided, self.cut_off = {}, set(), set()
        # Who has an end here, and who has a record, but none.
        self.ended = {it.txn for _, it in records if it.kind in (COMMIT, END)}
        self.unended = {it.txn for _, it in records} - self.ended - {0}

    def record(self, number):
        return self.records[number - self.tail][1]

    def end_of(self, checkpoint):
        """The table of the first CheckpointEnd that names this begin; None if there is none."""
        return next((it.table for _, it in self.records if it.table and it.table.begin == checkpoint), None)

    def first_unmeant(self, checkpoint):
        """The number of the first record that does not mean what it has to, behind an anchor that names this checkpoint, 0 if it names none; None if all do."""
        anchored = self.end_of(checkpoint)
        for number, (_, read) in enumerate(self.records, self.tail):
            if not self.is_meant(number, read):
                return number
            self.note(number, read)
            if sum(it > 0 for it in self.last.values()) > MOST_TXNS or self.takes_as_ended(read) & self.unended:
                return number
            # Whom the anchored checkpoint's CheckpointEnd lists had not ended as that began.
            if anchored and read.table is anchored and self.takes_as_ended(read) - self.ended:
                return number
        return None

    def has(self, granule):
        """Whether the volume has a granule."""
        level, store, index, slot = granule
        return level == 0 or store < len(self.stores) and (level == 1 or index < self.stores[store] and (level == 2 or slot < self.sizes.slots))

    def has_sizes(self, read):
        """Whether the images and the global id of a record are no longer than the version allows."""
        return all(len(it or b"") <= self.sizes.record for it in (read.before, read.after)) and len(read.name or b"") <= self.sizes.name

    def is_covered(self, at, granules):
        """Whether a record is one of these granules, or lies in one."""
        return any(it in granules for it in [(3, *at), (2, *at[:2], 0), (1, at[0], 0, 0), (0, 0, 0, 0)])

    def is_meant(self, number, read):
        """Whether a record means what it has to, behind those that were noted."""
        if not self.has_sizes(read):
            return False
        if read.kind >= CHECKPOINT_BEGIN:
            return not read.table or self.is_table(number, read.table)
        last = self.last.get(read.txn, 0)
        if read.txn >= LAST_TXN or last < 0 or read.at and not self.has((3, *read.at)) or not all(map(self.has, read.granules or [])):
            return False
        if read.txn in self.cut_off or last == 0 and read.previous > 0:
            says = read.kind != COMPENSATION or self.names(read.following, number, lambda it: (it.txn, it.kind) == (read.txn, CHANGE))
            return says and (read.previous == last if last else read.previous < self.tail)
        return read.previous == last and self.says_what_it_may(number, read)

    def says_what_it_may(self, number, read):
        """Whether a record says what it may, behind all others of its transaction."""
        is_prepared, is_decided = read.txn in self.prepared, read.txn in self.decided
        if read.kind == PREPARE:
            changed = [it.at for _, it in self.records[: number - self.tail] if it.txn == read.txn and it.kind == CHANGE]
            return not is_prepared and all(self.is_covered(it, set(read.granules)) for it in changed)
        if read.kind == ROLLBACK_DECIDED:
            return is_prepared and not is_decided
        # Behind a Prepare comes a decision, and behind one to roll back only that.
        if is_prepared and read.kind not in ((COMPENSATION, END) if is_decided else (COMMIT,)):
            return False
        changes = self.unanswered[read.txn]
        if read.kind == COMPENSATION:
            answered = self.record(changes[-1]) if changes else None
            return bool(changes) and (answered.at, answered.before, (changes[:-1] or [0])[-1]) == (read.at, read.after, read.following)
        return read.kind != END or not changes

    def names(self, named, number, is_right):
        """Whether the record of a number, if it is not cut off, comes before another one, and is right."""
        return named < self.tail or named < number and is_right(self.record(named))

    def is_table(self, number, table):
        """Whether the numbers of a CheckpointEnd are in their limits, and those that are not cut off name records of their own."""

        def is_entry(entry):
            def is_own(it):
                return it.txn == entry.txn

            is_named = entry.first > 0 and entry.last > 0 and self.names(entry.first, number, is_own) and self.names(entry.last, number, is_own)
            is_undone = self.names(entry.following, number, lambda it: is_own(it) and it.kind == CHANGE)
            prepares = entry.prepare > 0 and self.names(entry.prepare, number, lambda it: is_own(it) and it.kind == PREPARE)
            return entry.txn < LAST_TXN and entry.prepare < number and is_named and is_undone and (entry.state != PREPARED or prepares)

        begins = table.begin > 0 and self.names(table.begin, number, lambda it: it.kind == CHECKPOINT_BEGIN)
        has_pages = all((it.store, it.page) in self.places and it.recovery < number for it in table.dirty)
        return begins and table.next <= LAST_TXN and has_pages and all(map(is_entry, table.txns))

    def takes_as_ended(self, read):
        """The transactions that have to have ended in what is kept, for this record: its own one, if its front is cut off, and those of which it names records that are."""
        if read.kind != CHECKPOINT_END:
            return {read.txn} & self.cut_off
        numbers = {it.txn: [it.first, it.last, it.following, it.prepare if it.state == PREPARED else 0] for it in read.table.txns}
        return {txn for txn, them in numbers.items() if any(0 < it < self.tail for it in them)}

    def note(self, number, read):
        if read.kind >= CHECKPOINT_BEGIN:
            return
        if read.txn not in self.last and read.previous > 0:
            self.cut_off.add(read.txn)
        # A transaction that has ended names no record that one of it could name.
        self.last[read.txn] = -1 if read.kind in (COMMIT, END) else number
        if read.txn in self.cut_off:
            return
        if read.kind == CHANGE:
            self.unanswered[read.txn].append(number)
        elif read.kind == COMPENSATION:
            self.unanswered[read.txn].pop()
        elif read.kind == PREPARE:
            self.prepared[read.txn] = number
        elif read.kind == ROLLBACK_DECIDED:
            self.decided.add(read.txn)

    def doubts(self):
        """Those in doubt, in the order of their Prepares."""
        return sorted((it for it in self.prepared if it not in self.decided and self.last[it] > 0), key=self.prepared.get)

    def losers(self):
        return [txn for txn, last in self.last.items() if last > 0 and txn not in self.doubts()]
