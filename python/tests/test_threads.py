"""Many threads over one store."""
import threading
from collections.abc import Callable

import brasscricket
from brasscricket import Rid, Transaction

from .places import WithStore

THREADS, TRANSFERS = 8, 25


def in_threads(works: list[Callable[[], None]]) -> list[BaseException]:
    """Runs each in a thread of its own. What went wrong."""
    wrong: list[BaseException] = []

    def tried(work: Callable[[], None]) -> None:
        try:
            work()
        except BaseException as error:
            wrong.append(error)

    threads = [threading.Thread(target=tried, args=(it,)) for it in works]
    for it in threads:
        it.start()
    for it in threads:
        it.join()
    return wrong


class Threads(WithStore):
    def test_transfers_in_both_orders_keep_the_sum(self) -> None:
        one, other = self.inserted(b"1000", b"1000")

        @self.store.retried
        def move(txn: Transaction, giver: Rid, taker: Rid) -> None:
            has, gets = int(txn.get(giver, for_update=True)), int(txn.get(taker, for_update=True))
            txn[giver], txn[taker] = b"%d" % (has - 1), b"%d" % (gets + 1)

        def client(giver: Rid, taker: Rid) -> None:
            for _ in range(TRANSFERS):
                move(giver, taker)

        wrong = in_threads([lambda pair=pair: client(*pair) for pair in [(one, other), (other, one)] * (THREADS // 2)])
        self.assertEqual(wrong, [])
        self.assertEqual(self.reopened().records(), {one: b"1000", other: b"1000"})

    def test_of_two_who_wait_for_each_other_one_is_told(self) -> None:
        one, other = self.inserted(b"1", b"2")
        both = threading.Barrier(2)

        def client(mine: Rid, its: Rid) -> None:
            with self.store.transaction() as txn:
                txn.lock(mine)
                both.wait()
                txn.lock(its)

        wrong = in_threads([lambda: client(one, other), lambda: client(other, one)])
        self.assertEqual([type(it) for it in wrong], [brasscricket.Deadlock])
        assert isinstance(wrong[0], brasscricket.Deadlock)
        self.assertEqual(len(wrong[0].data), 2)
        self.assertEqual(wrong[0].data[0], max(wrong[0].data, key=int))

    def test_all_who_wait_are_answered_though_nobody_else_calls(self) -> None:
        (one,) = self.inserted(b"1")
        for _ in range(30):
            holder = self.store.transaction().__enter__()
            holder.lock(one)
            threads = [threading.Thread(target=self.store.__getitem__, args=(one,)) for _ in range(5)]
            for it in threads:
                it.start()
            holder.commit()
            for it in threads:
                it.join(60)
            self.assertFalse(any(it.is_alive() for it in threads))

    def test_more_threads_than_sessions(self) -> None:
        def client(number: int) -> None:
            for _ in range(3):
                with self.store.transaction() as txn:
                    txn.insert(b"%d" % number, store=number % 2)

        wrong = in_threads([lambda number=number: client(number) for number in range(300)])
        self.assertEqual(wrong, [])
        self.assertEqual(len(self.store.records(0)) + len(self.store.records(1)), 900)

    def test_long_answers_beside_short_ones(self) -> None:
        self.inserted(*(bytes([number]) * 4000 for number in range(16)))

        def client() -> None:
            for _ in range(10):
                self.assertEqual([len(it) for it in self.store.records().values()], [4000] * 16)

        def writer() -> None:
            for _ in range(10):
                with self.store.transaction() as txn:
                    txn.insert(bytes(4000), store=1)
                    txn.abort()

        self.assertEqual(in_threads([client, writer] * 4), [])
