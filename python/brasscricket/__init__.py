"""
Transactions over records that survive a crash, by a storage manager that is proved.

    import brasscricket

    with brasscricket.open("accounts") as store:
        with store.transaction() as txn:
            rid = txn.insert(b"100")
        print(store[rid])

The store is kept by the program of this repository, which runs behind two pipes: all that is proved of it is below this module.
"""
from .errors import Again, Broken, Ended, Fault
from .faults import *  # noqa: F403
from .faults import __all__ as _faults
from .records import VOLUME, Granule, Mode, Rid
from .store import Store, open
from .transaction import Transaction

__all__ = ["VOLUME", "Again", "Broken", "Ended", "Fault", "Granule", "Mode", "Rid", "Store", "Transaction", "open", *_faults]
