"""Calls that are wrong before they are sent: the one who makes them is told, and nobody else meets it."""
import os
from typing import Any

import brasscricket
from brasscricket import VOLUME, Rid, Transaction

from .places import WithStore


class Misuse(WithStore):
    def test_words_of_a_wrong_kind(self) -> None:
        (one,) = self.inserted(b"1")
        wrong: Any
        with self.store.transaction() as txn:
            for wrong in (None, 5, (0, 0, 0), "0.0.0", b"0.0.0"):
                for call in (txn.get, txn.delete, self.store.__getitem__):
                    self.assertRaises(TypeError, call, wrong)
                self.assertRaises(TypeError, txn.update, wrong, b"2")
            for wrong in (None, "0", 0.0, (0, 0), one, VOLUME):
                self.assertRaises(TypeError, txn.insert, b"2", wrong)
                self.assertRaises(TypeError, txn.scan, wrong)
            for wrong in (None, "abc", 5, [1], 1.5):
                self.assertRaises(TypeError, txn.insert, wrong)
                self.assertRaises(TypeError, txn.update, one, wrong)
                self.assertRaises(TypeError, self.store.resolve, wrong, commit=True)
            for wrong in (None, "v", (), (0,), (0, 0, 0), (0, 0.5)):
                self.assertRaises((TypeError, ValueError), txn.lock, wrong)
            for wrong in (None, "EX", VOLUME):
                self.assertRaises(TypeError, txn.lock, one, wrong)
        self.assertRaises(TypeError, self.store.is_durable, None)
        self.assertRaises(ValueError, self.store.is_durable, -1)
        self.assertRaises(ValueError, self.store.is_durable, 1 << 64)
        self.assertEqual(self.store.records(), {one: b"1"})

    def test_bytes_of_each_kind(self) -> None:
        with self.store.transaction() as txn:
            rids = [txn.insert(it) for it in (b"123", bytearray(b"123"), memoryview(b"123"), memoryview(b"1a2b3c")[::2])]
        self.assertEqual(self.store.records(), {it: b"123" for it in rids})

    def test_a_transaction_outside_of_a_block(self) -> None:
        for name in ("scan", "commit", "abort"):
            with self.assertRaisesRegex(RuntimeError, "within its block"):
                getattr(self.store.transaction(), name)()
        self.assertEqual(self.store.records(), {})

    def test_a_rollback_of_one_that_is_over_gives_its_session_once(self) -> None:
        txn = self.store.transaction()
        with self.assertRaises(KeyError), txn:
            raise KeyError
        self.assertRaises(RuntimeError, txn.abort)
        with self.store.transaction() as one, self.store.transaction() as other:
            one.insert(b"1")
            other.insert(b"2")

    def test_what_has_committed_is_not_made_again(self) -> None:
        def commits(txn: Transaction) -> None:
            txn.insert(b"once")
            txn.commit()
            raise brasscricket.Deadlock

        def prepares(txn: Transaction) -> None:
            txn.insert(b"once")
            txn.prepare(b"name")
            raise brasscricket.Deadlock

        for work in (commits, prepares):
            self.assertRaises(brasscricket.Deadlock, self.store.run, work)
        self.store.resolve(b"name", commit=True)
        self.assertEqual([*self.store.records().values()], [b"once", b"once"])

    def test_a_ticket_that_nobody_has(self) -> None:
        with self.store.transaction(lazy=True) as txn:
            txn.insert(b"1")
        assert txn.ticket is not None
        self.assertRaises(ValueError, self.store.wait, txn.ticket + 1000)
        self.store.wait(txn.ticket)

    def test_a_path_as_bytes(self) -> None:
        brasscricket.open(os.fsencode(f"{self.path}-other"), stores=(1,), log_bytes=1 << 18).close()  # type: ignore[arg-type]
        self.assertTrue(os.path.exists(f"{self.path}-other.log"))

    def test_an_open_is_named_by_its_fault(self) -> None:
        with self.assertRaisesRegex(brasscricket.BadConfig, "31 BadConfig pool in open"):
            brasscricket.open(f"{self.path}-other", frames=1)
        self.assertRaises(brasscricket.NoRecord, self.store.__getitem__, Rid(0, 0, 0))
