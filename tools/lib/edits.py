"""Wrong bodies: the edits of a crate, and what the verdict on each rests on."""
import os
import re

from rests import Reach, folder_of, places_of, sum_of
from texts import ANTT, FREE, FUNCTION, Item, text_of


# In wrong/ of a crate: the names of its edits that documents name, one in each line. They stand there and not in must-fail/ where rt would prove a dear crate once more for them.
NAMED = "NAMED"


class BadEdit(Exception):
    """An edit that cannot be applied, with the reason."""


class Edit:
    def __init__(self, texts, crate, file):
        self.crate, self.name, self.folder = crate, os.path.basename(file).removesuffix(".edit"), os.path.basename(os.path.dirname(file))
        self.label, self.text = "/".join([crate, *([self.folder] if self.folder != "wrong" else []), self.name]), text_of(file)
        self.is_named = self.folder == "must-fail" or self.name in named_in(os.path.dirname(file))
        self.pairs = read_pairs(self.text)
        self.is_definition = any(path.startswith("specs/") for path, _, _ in self.pairs)
        self.functions = sorted({it for path, old, _ in self.pairs for it in functions_at(texts.crates[crate], path, old)})

    def names(self):
        return ["::".join([it for it in parts if it]) for parts in self.functions]

    def is_named_in(self, error):
        return any(f"`{it}`" in error for it in self.names()) or any(path in error for path, _, _ in self.pairs)

    def apply(self, folder):
        for path, old, new in self.pairs:
            text = text_of(f"{folder}/{path}")
            if text.count(old) != 1:
                raise BadEdit(f"an 'old:' text is in {path} {text.count(old)} times, and not once")
            with open(f"{folder}/{path}", "w", encoding="utf-8") as it:
                it.write(text.replace(old, new))


def named_in(folder):
    return text_of(f"{folder}/{NAMED}").split() if os.path.isfile(f"{folder}/{NAMED}") else []


def read_pairs(text):
    path, old, pairs = "", "", []
    for line in text.split("\n"):
        if line.startswith("file: "):
            path = line.removeprefix("file: ").strip()
        elif line.startswith("old: "):
            old = line.removeprefix("old: ")
        elif line.startswith("new:") and path and old:
            pairs.append((path, old, line.removeprefix("new:").removeprefix(" ")))
            old = ""
    if not pairs:
        raise BadEdit("it has no 'file:', 'old:' and 'new:' lines")
    return pairs


def functions_at(crate, path, old):
    """The functions that an edit of the text is judged by: the one in whose body it stands, or all of the crate if it is a definition's."""
    if not path.startswith(("src/", "specs/")) or not os.path.isfile(f"{folder_of(crate.name)}/{path}"):
        raise BadEdit(f"{path} is no file of src/ or specs/")
    text = text_of(f"{folder_of(crate.name)}/{path}")
    if text.count(old) != 1:
        raise BadEdit(f"an 'old:' text is in {path} {text.count(old)} times, and not once")
    return crate.bodies() if path.startswith("specs/") else {function_at(crate, path, text, old)}


def function_at(crate, path, text, old):
    """The function in whose body the text stands."""
    lines, at = text.split("\n"), text[: text.index(old)].count("\n")
    if re.match(r"\s*(requires|ensures|ghost)\b", lines[at]):
        raise BadEdit("it changes a contract, which shows nothing")
    heads = [(start, FUNCTION.match(lines[start])) for start in range(at, -1, -1)]
    start, head = next(((start, it) for start, it in heads if it and f"{it[1]}}}" not in lines[start:at]), (0, None))
    stands = [key for key, item in crate.functions.items() if head and item.file.path == path and item.name == head[2] and lines[start] in item.stated.split("\n")]
    if len(stands) > 1:
        # several of one name, as those of a trait in several blocks: each stands below the head of its own
        above = next(it for it in range(start, -1, -1) if re.match(r"(?:pub )?(?:unsafe )?(?:impl|trait)\b", lines[it]))
        stands = [it for it in stands if crate.functions[it].block and crate.functions[it].block.top.startswith(lines[above])]
    if len(stands) != 1:
        raise BadEdit(f"the text in {path} is in no function's body")
    return stands[0]


def read_edits(texts, crate, folder):
    """The edits of a folder of a crate, and those that cannot be read, each with the reason."""
    good, bad, place = [], [], f"{folder_of(crate)}/{folder}"
    for name in sorted({*os.listdir(place)} - {NAMED}) if os.path.isdir(place) else []:
        try:
            if not name.endswith(".edit"):
                raise BadEdit("its name does not end in .edit")
            good.append(Edit(texts, crate, f"{place}/{name}"))
        except BadEdit as why:
            bad.append((f"{crate}/{name.removesuffix('.edit')}", str(why)))
    bad += [(f"{crate}/{it}", f"{folder}/{NAMED} has its name, and there is no such edit") for it in named_in(place) if not os.path.isfile(f"{place}/{it}.edit")]
    return good, bad


def reach_of(texts, edit, function=""):
    """What a verdict on the edit rests on: of a wrong definition all functions of the crate, since it is judged by them, unless one is known that was refused."""
    reach, crate = Reach(texts, edit.crate, edit.is_definition), texts.crates[edit.crate]
    for key in judged_by(edit, function):
        reach.add_function(crate, key)
    for path, old, new in edit.pairs:
        if path in crate.files:
            blocks = {crate.functions[key].block for key in edit.functions if crate.functions[key].file.path == path}
            for block in blocks:
                reach.add_body(Item(crate.files[path], FREE, "", "", f"{old}\n{new}", block))
        elif path in crate.antt:
            reach.add_file(crate.antt[path])
            item = Item(crate.antt[path], ANTT, "", new)
            item.is_open = True
            reach.add(item)
    reach.run()
    return reach


def judged_by(edit, function=""):
    found = [key for key in edit.functions if "::".join(it for it in key if it) == function]
    return found or edit.functions


def sum_by(texts, edit, logic, files=None, function=""):
    """A checksum of all that a verdict on the edit rests on: what is reached, of it only what stands in these files if the prover is known to have read no others."""
    return sum_of(logic, edit.text, *reach_of(texts, edit, function).lines(files))[:20]


def functions_near(texts, edit):
    """The functions of which the contract or the proof names what a wrong definition changes: the first to be asked."""
    crate = texts.crates[edit.crate]
    firsts = {(path, old.split("\n")[0].strip()) for path, old, _ in edit.pairs}
    changed = {it for path, old in firsts if path in crate.antt for it in crate.antt[path].items if old in it.stated}

    def named(key):
        folders = tuple(places_of(key))
        own = [file for path, file in crate.antt.items() if path.startswith(folders)]
        return {*texts.names_of(crate.functions[key], False)[0], *(it for file in own for it in texts.ghosts_named(file.ghosts, file.words, file.text))}

    return [key for key in edit.functions if changed & named(key)]
