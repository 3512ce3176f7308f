"""A store in a folder of its own for each test."""
import tempfile
import unittest

import brasscricket


class WithStore(unittest.TestCase):
    """Each test has a store, and a folder that goes with it."""

    def setUp(self) -> None:
        folder = tempfile.TemporaryDirectory()
        self.addCleanup(folder.cleanup)
        self.path = f"{folder.name}/store"
        self.store = self.opened()

    def opened(self) -> brasscricket.Store:
        store = brasscricket.open(self.path, stores=(8, 8), log_bytes=1 << 20, frames=16)
        self.addCleanup(store.close)
        return store

    def reopened(self) -> brasscricket.Store:
        self.store.close()
        self.store = self.opened()
        return self.store

    def inserted(self, *records: bytes) -> list[brasscricket.Rid]:
        with self.store.transaction() as txn:
            return [txn.insert(it) for it in records]
