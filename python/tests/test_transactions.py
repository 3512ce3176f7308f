"""What a transaction does, alone."""
import threading

import brasscricket
from brasscricket import Mode, Rid

from .places import WithStore


class Mine(Exception):
    """Of the one who calls."""


class Transactions(WithStore):
    def test_a_commit_is_there_after_a_reopen(self) -> None:
        one, empty = self.inserted(b"100", b"")
        self.assertEqual((one, str(empty)), (Rid(0, 0, 0), "0.0.1"))
        self.assertEqual(self.reopened().records(), {one: b"100", empty: b""})

    def test_an_exception_rolls_back(self) -> None:
        (one,) = self.inserted(b"100")
        with self.assertRaises(Mine), self.store.transaction() as txn:
            txn[one] = b"gone"
            txn.insert(b"too")
            del txn[one]
            raise Mine
        self.assertEqual(self.store.records(), {one: b"100"})

    def test_a_savepoint_puts_back_its_block_alone(self) -> None:
        (one,) = self.inserted(b"1")
        with self.store.transaction() as txn:
            txn[one] = b"2"
            with self.assertRaises(Mine), txn.savepoint():
                txn[one] = b"3"
                raise Mine
            with txn.savepoint():
                txn.insert(b"stays")
        self.assertEqual([*self.store.records().values()], [b"2", b"stays"])

    def test_a_full_log_within_a_savepoint(self) -> None:
        with self.store.transaction() as txn:
            rid = txn.insert(b"stays")
            with self.assertRaises(brasscricket.LogFull), txn.savepoint():
                while True:
                    txn[rid] = bytes(4000)
            self.assertEqual(txn[rid], b"stays")
        self.assertEqual(self.store[rid], b"stays")

    def test_a_transaction_has_one_block(self) -> None:
        txn = self.store.transaction()
        with txn:
            txn.insert(b"1")
        with self.assertRaises(RuntimeError), txn:
            pass

    def test_records_of_each_length(self) -> None:
        lengths = (0, 1, 255, 256, 3999, 4000)
        rids = self.inserted(*(bytes([length % 251]) * length for length in lengths))
        found = self.reopened().records()
        self.assertEqual([len(found[it]) for it in rids], [*lengths])

    def test_a_lazy_commit_is_durable_once_it_was_waited_for(self) -> None:
        with self.store.transaction(lazy=True) as txn:
            rid = txn.insert(b"lazy")
        assert txn.ticket is not None
        self.assertFalse(self.store.is_durable(txn.ticket))
        self.store.wait(txn.ticket)
        self.assertTrue(self.store.is_durable(txn.ticket))
        self.store._process.kill()
        self.assertEqual(self.reopened()[rid], b"lazy")

    def test_who_may_not_wait_is_told(self) -> None:
        (one,) = self.inserted(b"1")
        with self.store.transaction() as holder, self.store.transaction() as other:
            self.assertTrue(holder.lock(one))
            self.assertFalse(other.lock(one, Mode.SH, wait=False))
            self.assertTrue(other.lock(1, Mode.EX, wait=False))
            self.assertTrue(other.lock(brasscricket.VOLUME, Mode.IX, wait=False))

    def test_a_transaction_ends_once(self) -> None:
        with self.store.transaction() as txn:
            txn.insert(b"1")
            txn.commit()
        for call in (txn.commit, txn.abort, lambda: txn.insert(b"2")):
            self.assertRaises(RuntimeError, call)
        with self.store.transaction() as txn:
            txn.insert(b"3")
            txn.abort()
        self.assertEqual([*self.store.records().values()], [b"1"])

    def test_a_refused_commit_is_told(self) -> None:
        (one, other) = self.inserted(b"1", b"2")
        with self.store.transaction() as older:
            older.lock(one)
            with self.assertRaises(brasscricket.MustAbort), self.store.transaction() as txn:
                txn[other] = b"3"
                victim = threading.Timer(0.1, older.lock, (other,))
                victim.start()
                self.assertRaises(brasscricket.Deadlock, txn.lock, one)
        victim.join()
        self.assertEqual(self.store.records(), {one: b"1", other: b"2"})

    def test_sessions_come_back(self) -> None:
        for number in range(600):
            with self.store.transaction(lazy=True) as txn:
                txn.insert(b"%d" % number, store=number % 2)
            with self.assertRaises(Mine), self.store.transaction():
                raise Mine
        self.assertEqual(len(self.store.records(0)) + len(self.store.records(1)), 600)

    def test_a_log_never_fills_by_commits(self) -> None:
        (one,) = self.inserted(b"")
        for number in range(3000):
            with self.store.transaction(lazy=number % 2 == 0) as txn:
                txn[one] = b"%d" % number * 200
        self.assertEqual(self.reopened()[one], b"2999" * 200)


class SmallLog(WithStore):
    """Of the shortest log 38,505 bytes are for calls."""

    def opened(self) -> brasscricket.Store:
        store = brasscricket.open(self.path, stores=(16,), log_bytes=135168, frames=16)
        self.addCleanup(store.close)
        return store

    def test_lazy_commits_alone_never_fill_it(self) -> None:
        (one,) = self.inserted(b"")
        for number in range(200):
            with self.store.transaction(lazy=True) as txn:
                txn[one] = b"%d" % (number % 10) * 1000
        self.assertEqual(self.store[one], b"9" * 1000)

    def test_deletes_never_fill_it(self) -> None:
        rids = []
        for _ in range(30):
            rids += self.inserted(bytes(4000))
        self.store.checkpoint()
        for rid in rids:
            with self.store.transaction(lazy=True) as txn:
                del txn[rid]
        self.assertEqual(self.store.records(), {})

    def test_rollbacks_never_fill_it(self) -> None:
        (one,) = self.inserted(b"1")
        for _ in range(30):
            with self.assertRaises(Mine), self.store.transaction() as txn:
                txn[one] = bytes(4000)
                raise Mine
        self.assertEqual(self.store[one], b"1")

    def test_prepares_never_fill_it(self) -> None:
        (one,) = self.inserted(b"")
        for number in range(30):
            with self.store.transaction() as txn:
                txn[one] = b"%d" % (number % 10) * 4000
                txn.prepare(b"name")
            self.store.resolve(b"name", commit=True)
        self.assertEqual(self.store[one], b"9" * 4000)

    def test_what_is_too_much_for_it_is_told(self) -> None:
        calls = []

        def work(txn: brasscricket.Transaction) -> None:
            calls.append(txn)
            for _ in range(30):
                txn.insert(bytes(4000))

        self.assertRaises(brasscricket.LogFull, self.store.run, work)
        self.assertEqual(len(calls), 10)
        self.assertEqual(self.store.records(), {})


class Faults(WithStore):
    def test_a_refused_call_leaves_the_transaction(self) -> None:
        with self.store.transaction() as txn:
            rid = txn.insert(b"1")
            with self.assertRaises(brasscricket.NoRecord) as refused:
                txn.get(Rid(0, 0, 9))
            self.assertRaises(brasscricket.TooLong, txn.insert, bytes(4001))
            self.assertRaises(brasscricket.TooLong, txn.update, rid, bytes(1 << 20))
            self.assertRaises(brasscricket.NoStore, txn.insert, b"1", 2)
            self.assertRaises(brasscricket.BadMode, txn.lock, rid, Mode.IX)
        self.assertEqual(self.store.records(), {rid: b"1"})
        self.assertEqual(refused.exception.number, 6)
        self.assertIn("6 NoRecord in get 0.0.9: no record is at the id", str(refused.exception))

    def test_names_of_prepared_ones(self) -> None:
        for name in (b"", bytes(65), bytes(255), bytes(256), bytes(1 << 20)):
            with self.assertRaises(brasscricket.BadGlobalId), self.store.transaction() as txn:
                txn.insert(b"1")
                txn.prepare(name)
            # One that some version allows is asked for, and nobody has it.
            fault = brasscricket.NoGlobalId if 1 <= len(name) <= 255 else brasscricket.BadGlobalId
            self.assertRaises(fault, self.store.resolve, name, commit=True)
        self.assertEqual(self.store.records(), {})
        for name in (b"1", bytes(64)):
            with self.store.transaction() as txn:
                txn.prepare(name)
        self.assertEqual([*self.store.in_doubt()], [bytes(64), b"1"])

    def test_numbers_that_no_line_has(self) -> None:
        with self.store.transaction() as txn:
            rid = txn.insert(b"1")
            for wrong in (Rid(-1, 0, 0), Rid(0, 1 << 32, 0), Rid(0, 0, 1 << 16)):
                self.assertRaises(ValueError, txn.get, wrong)
            self.assertRaises(ValueError, txn.insert, b"1", -1)
            self.assertRaises(ValueError, txn.lock, (0, 0, 0, 0))
        self.assertEqual(self.store[rid], b"1")

    def test_faults_are_a_tree(self) -> None:
        self.assertTrue(issubclass(brasscricket.Deadlock, brasscricket.Again))
        self.assertTrue(issubclass(brasscricket.Device, brasscricket.Broken))
        self.assertFalse(issubclass(brasscricket.Memory, brasscricket.Again))
        numbers = [it.number for it in (getattr(brasscricket, name) for name in brasscricket.__all__) if isinstance(it, type) and issubclass(it, brasscricket.Fault)]
        self.assertEqual(sorted({*numbers} - {0}), [*range(1, 32)])
