"""What is there after a kill, an interrupt, and a program that has ended."""
import contextlib
import gc
import os
import random
import signal
import threading
import time
import warnings

import brasscricket
from brasscricket import Rid

from .places import WithStore
from .test_threads import in_threads


class Crashes(WithStore):
    def test_a_kill_amid_commits_loses_none_that_was_acknowledged(self) -> None:
        rids = self.inserted(*(b"0" for _ in range(4)))
        for _ in range(3):
            told = [int(self.store[rid]) for rid in rids]

            def client(at: int, told: list[int] = told) -> None:
                while True:
                    with self.store.transaction() as txn:
                        txn[rids[at]] = b"%d" % (told[at] + 1)
                    told[at] += 1

            def kill(first: list[int] = [*told], told: list[int] = told) -> None:
                # Each has been told of a commit at least, or one of them never is.
                for _ in range(6000):
                    if all(now > before for now, before in zip(told, first)):
                        break
                    time.sleep(0.01)
                time.sleep(random.uniform(0, 0.1))
                self.store._process.kill()

            wrong = in_threads([*(lambda at=at: client(at) for at in range(4)), kill])
            self.assertEqual([type(it) for it in wrong], [brasscricket.Ended] * 4)
            found = [int(it) for it in self.reopened().records().values()]
            self.assertTrue(all(has in (last, last + 1) for has, last in zip(found, told)), (found, told))

    def test_a_prepared_transaction_is_resolved_after_a_kill(self) -> None:
        one, other = self.inserted(b"1", b"2")
        for rid, name in ((one, b"to commit"), (other, b"to abort")):
            with self.store.transaction() as txn:
                txn[rid] = b"changed"
                txn.prepare(name)
        self.store._process.kill()
        store = self.reopened()
        self.assertEqual(sorted(store.in_doubt()), [b"to abort", b"to commit"])
        with store.transaction() as txn:
            self.assertFalse(txn.lock(one, wait=False))
        store.resolve(b"to commit", commit=True)
        store.resolve(b"to abort", commit=False)
        self.assertEqual(store.in_doubt(), {})
        self.assertEqual(self.reopened().records(), {one: b"changed", other: b"2"})

    def test_a_prepared_session_is_used_again_once_it_is_resolved(self) -> None:
        (one,) = self.inserted(b"0")
        for number in range(300):
            with self.store.transaction() as txn:
                txn[one] = b"%d" % number
                txn.prepare(b"name")
            with self.assertRaises(brasscricket.NoGlobalId):
                self.store.resolve(b"another", commit=True)
            self.store.resolve(b"name", commit=number % 2 == 0)
        self.assertEqual(self.store[one], b"298")

    def test_as_many_prepared_ones_as_there_may_be_are_resolved(self) -> None:
        for number in range(250):
            with self.store.transaction() as txn:
                txn.prepare(b"%d" % number)
        resolver = threading.Thread(target=self.store.resolve, args=(b"0",), kwargs={"commit": True}, daemon=True)
        resolver.start()
        resolver.join(60)
        self.assertFalse(resolver.is_alive())
        self.assertEqual(len(self.store.in_doubt()), 249)

    def test_an_ended_program_is_told(self) -> None:
        self.store._process.kill()
        with self.assertRaises(brasscricket.Ended), self.store.transaction() as txn:
            txn.insert(b"1")
        self.assertRaises(brasscricket.Broken, self.store.checkpoint)
        self.assertRaises(brasscricket.Broken, self.store.in_doubt)

    def test_a_closed_store_takes_nothing(self) -> None:
        with self.store.transaction() as txn:
            rid = txn.insert(b"1")
        self.store.close()
        self.store.close()
        for _ in range(300):
            with self.assertRaises(brasscricket.Ended), self.store.transaction() as txn:
                txn.get(rid)

    def test_who_does_not_see_the_end_is_told_at_the_blocks_end(self) -> None:
        with self.assertRaises(brasscricket.Ended), self.store.transaction() as txn:
            rid = txn.insert(b"1")
            self.store._process.kill()
            self.assertRaises(brasscricket.Ended, txn.get, rid)
        self.assertEqual(self.reopened().records(), {})

    def test_a_store_that_nobody_has_any_more_is_closed(self) -> None:
        name = f"{self.path}-other"
        store = brasscricket.open(name, stores=(1,), log_bytes=1 << 18)
        with warnings.catch_warnings():
            warnings.simplefilter("ignore", ResourceWarning)
            del store
            gc.collect()
            for _ in range(6000):
                with contextlib.suppress(brasscricket.Device):
                    brasscricket.open(name).close()
                    return
                time.sleep(0.01)
        self.fail("it is still in use")

    def test_a_forked_process_has_no_part_in_it(self) -> None:
        child = os.fork()
        if not child:
            try:
                self.store.records()
            except brasscricket.Ended:
                time.sleep(120)
                os._exit(0)
            os._exit(1)
        (one,) = self.inserted(b"1")
        closer = threading.Thread(target=self.store.close, daemon=True)
        closer.start()
        closer.join(60)
        self.assertFalse(closer.is_alive())
        os.kill(child, signal.SIGKILL)
        os.waitpid(child, 0)
        self.assertEqual(self.opened().records(), {one: b"1"})

    def test_one_that_nobody_has_any_more_is_rolled_back(self) -> None:
        (one,) = self.inserted(b"1")
        txn = self.store.transaction().__enter__()
        txn[one] = b"2"
        del txn
        self.assertEqual(self.store[one], b"1")

    def test_interrupts_at_any_moment_hang_nobody(self) -> None:
        rids = self.inserted(b"100", b"100")
        is_armed, is_over = False, False

        def interrupt(*_: object) -> None:
            nonlocal is_armed
            if is_armed:
                is_armed = False
                raise KeyboardInterrupt

        @self.store.retried
        def move(txn: brasscricket.Transaction, giver: Rid, taker: Rid) -> None:
            has, gets = int(txn.get(giver, for_update=True)), int(txn.get(taker, for_update=True))
            txn[giver], txn[taker] = b"%d" % (has - 1), b"%d" % (gets + 1)

        def other() -> None:
            while not is_over:
                move(*rids)

        before, thread = signal.signal(signal.SIGALRM, interrupt), threading.Thread(target=other, daemon=True)
        thread.start()
        try:
            for number in range(200):
                with contextlib.suppress(KeyboardInterrupt):
                    is_armed = True
                    signal.setitimer(signal.ITIMER_REAL, 0.0001 + number * 0.00001)
                    while True:
                        move(*reversed(rids))
        finally:
            is_over = True
            signal.signal(signal.SIGALRM, before)
        thread.join(60)
        self.assertFalse(thread.is_alive())
        self.assertEqual(sum(map(int, self.reopened().records().values())), 200)

    def test_an_interrupt_amid_a_wait_rolls_back(self) -> None:
        (one,) = self.inserted(b"1")
        holder = self.store.transaction().__enter__()
        holder.lock(one)
        before = signal.signal(signal.SIGALRM, signal.default_int_handler)
        try:
            with self.assertRaises(KeyboardInterrupt), self.store.transaction() as txn:
                other = txn.insert(b"2")
                signal.setitimer(signal.ITIMER_REAL, 0.2)
                txn[one] = b"3"
        finally:
            signal.signal(signal.SIGALRM, before)
        holder.commit()
        self.assertEqual(self.store[one], b"1")
        self.assertEqual(self.settled(other), {one: b"1"})

    def settled(self, other: Rid) -> dict[Rid, bytes]:
        """What the store has once the transaction that nobody waits for is rolled back."""
        while other in (found := self.store.records()):
            time.sleep(0.01)
        return found


class Files(WithStore):
    def test_a_store_of_one_file_is_none(self) -> None:
        self.store.close()
        with open(f"{self.path}-other.log", "wb") as file:
            file.write(b"mine")
        with self.assertRaises(FileNotFoundError):
            brasscricket.open(f"{self.path}-other")
        with open(f"{self.path}-other.log", "rb") as file:
            self.assertEqual(file.read(), b"mine")

    def test_a_store_in_use_is_refused(self) -> None:
        with self.assertRaises(brasscricket.Device) as refused:
            brasscricket.open(self.path)
        self.assertIn("store.log", refused.exception.why)

    def test_files_of_another_kind_stay(self) -> None:
        self.store.close()
        for end in ("log", "volume"):
            with open(f"{self.path}-text.{end}", "wb") as file:
                file.write(b"a letter")
        self.assertRaises(brasscricket.Fault, brasscricket.open, f"{self.path}-text")
        with open(f"{self.path}-text.volume", "rb") as file:
            self.assertEqual(file.read(), b"a letter")

    def test_names_of_files(self) -> None:
        for name in ('with "quotes"', "back\\slash", "\u00fc\n\t", "a\x7fb"):
            with brasscricket.open(f"{self.path}{name}", stores=(1,), log_bytes=1 << 18) as store, store.transaction() as txn:
                txn.insert(b"1")
            with brasscricket.open(f"{self.path}{name}") as store:
                self.assertEqual([*store.records().values()], [b"1"])

    def test_no_program(self) -> None:
        self.assertRaises(FileNotFoundError, brasscricket.open, self.path, program="no such program")
