"""The verdicts that are kept: tools/judged.txt, a line for each edit that was refused, and tools/loaded.txt, the files that the prover read for them.

A line of judged.txt has the edit, a checksum of all that the verdict rests on, and then, if it is known,
  in N         the set of loaded.txt: what the prover read for it
  of NAME      the function that was refused, of a wrong definition
  by names, by types
               that no goal was left open: the proof names what is gone, or has other types; with 'still' it is so too without the answers that do not fit
"""
import collections
import dataclasses
import os
import re

from programs import ROOT

JUDGED, LOADED = f"{ROOT}/tools/judged.txt", f"{ROOT}/tools/loaded.txt"
BY_NAMES, BY_TYPES = "by names", "by types"
_LINE = re.compile(r"(\S+) (\S+)(?: in (\d+))?(?: of (\S+))?(?: (by names|by types))?( still)?$")


@dataclasses.dataclass(frozen=True)
class Kept:
    """A verdict: its checksum, the files that were read for it, the function that was refused, its mark, and whether it was tried without the answers that do not fit."""

    sum: str
    files: frozenset | None = None
    function: str = ""
    mark: str = ""
    is_tried: bool = False


def path_of(label):
    """The file of an edit, named as CRATE/NAME, or CRATE/must-fail/NAME."""
    crate, *folder, name = label.split("/")
    return f"{ROOT}/crates/{crate}/{folder[0] if folder else 'wrong'}/{name}.edit"


def read_lines(file):
    if not os.path.isfile(file):
        return []
    with open(file, encoding="utf-8") as it:
        return [line for line in it.read().split("\n") if line and not line.startswith("#")]


def read_sets():
    """Of each set its number and the files, in the file written as the crate and the names in it: `1 shore_types: src/ids.rt specs/Ids.antt; ..`."""
    found = {}
    for line in read_lines(LOADED):
        number, _, rest = line.partition(" ")
        groups = [it.partition(": ") for it in rest.split("; ")]
        found[int(number)] = frozenset(f"{crate}/{path}" for crate, _, paths in groups for path in paths.split())
    return found


def read_judged():
    """Of each edit that was refused the verdict."""
    sets, found = read_sets(), {}
    for line in read_lines(JUDGED):
        label, checksum, number, function, mark, still = _LINE.match(line).groups()
        found[label] = Kept(checksum, sets.get(int(number)) if number else None, function or "", mark or "", bool(still))
    return found


def keep(found):
    """Writes the verdicts on these edits, and no line for an edit that was not refused, or is there no more."""
    kept = {**read_judged(), **found}
    there = {it: kept[it] for it in sorted(kept) if kept[it] and os.path.isfile(path_of(it))}
    numbers, lines = {files: number for number, files in read_sets().items()}, []
    for label, it in there.items():
        if it.files is not None and it.files not in numbers:
            numbers[it.files] = 1 + max(numbers.values(), default=0)
        words = [label, it.sum, *([f"in {numbers[it.files]}"] if it.files is not None else []), *([f"of {it.function}"] if it.function else []), it.mark, "still" if it.is_tried else ""]
        lines.append(" ".join(word for word in words if word))
    used = {it.files for it in there.values() if it.files is not None}
    sets = [f"{number} {text_of_set(files)}" for files, number in sorted(numbers.items(), key=lambda it: it[1]) if files in used]
    write(LOADED, "# Sets of files: what the prover read for verdicts of judged.txt, which name them by their numbers.", sets)
    write(JUDGED, "# Wrong bodies that tools/wrong-bodies saw refused, each with a checksum of all that its verdict rests on.", lines)


def text_of_set(files):
    groups = collections.defaultdict(list)
    for it in sorted(files):
        groups[it.partition("/")[0]].append(it.partition("/")[2])
    return "; ".join(f"{crate}: {' '.join(paths)}" for crate, paths in groups.items())


def write(file, head, lines):
    with open(f"{file}.new", "w", encoding="utf-8") as it:
        it.write("\n".join([head, *lines]) + "\n")
    os.replace(f"{file}.new", file)
