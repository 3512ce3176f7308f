"""Pages as no run leaves them, of each version: tools/check-formats lays them on a volume, and reads them slot by slot."""
import struct

from formats import VERSIONS, page
from logs_by_hand import put


def every(byte):
    return [it for it in range(256) if it != byte]


def scattered(version):
    """A page with records out of their order and with holes between them, one of no bytes, an empty slot, and one that ends where the slot table begins."""
    last = VERSIONS[version].page - 120
    entries = [(100, 40), (0, 0), (60, 0), (30, 20), (last, 100)]
    return page((1, 0), 2, entries, [(20, bytes(it % 251 for it in range(200))), (last, b"\x77" * 100)], version)


def changed_bytes(version):
    """That page with a byte changed, each one: those that say what it is and where records are to every other value, and of the others those of the first version to three, of a longer page to one."""
    content = scattered(version)
    fields = {*range(24), *range(len(content) - 20, len(content))}
    for offset, byte in enumerate(content):
        others = {0x00, 0xA5, 0xFF} - {byte} if version == 1 else {byte ^ 0xFF}
        for value in every(byte) if offset in fields else others:
            yield put(content, offset, bytes([value]))


def changed_fields(version):
    """That page, and one of zeros, with a count of slots and the table that fits it; and pages of two records, of which one lies in each way beside the other, the slot table and the page's ends."""
    content, sizes = scattered(version), VERSIONS[version]
    for count in [0, 1, 2, 4, 5, 6, 30, *range(sizes.slots - 1, sizes.slots + 2), sizes.page // 4 - 1, sizes.page // 4]:
        table = max(sizes.page - 4 * count, 0)
        yield put(content, 16, struct.pack("<HH", count, table))
        yield put(bytes(sizes.page), 0, struct.pack("<IIQHHI", 1, 0, 2, count, table, 0))
    table = sizes.page - 8
    behind = [*range(table - sizes.record - 1, table - sizes.record + 2), *range(table - 1, table + 2)]
    for start in [0, 1, 23, 24, 25, 29, 30, 31, *behind, 65_535]:
        for length in [0, 1, 5, 6, 7, *range(sizes.record - 1, sizes.record + 2), 65_535]:
            for entries in ([(30, 10), (start, length)], [(start, length), (30, 10)]):
                yield page((1, 0), 2, entries, [(20, b"\x66" * 60)], version)


def pages_to_read(version):
    return [*changed_bytes(version), *changed_fields(version)]
