"""What a verdict on a function rests on: what can be named from it, and from that in turn, in its crate and in those below.

Of the function all counts, and the files of its proof. Of what it can call, and of each definition, type, constant and lemma, what it states: a body that nobody can unfold is left out. What a
name stands for is taken from the `use` lines. Where these leave it open, as for a method, all that it may stand for counts.
"""
import collections
import functools
import hashlib
import os
import re

from programs import ROOT
from texts import ANTT, BLOCK, CONSTANT, FREE, METHOD, TYPE, AnttFile, Item, RattleFile, files_below, mentions, text_of, words_of

PARTS = ("src", "specs", "proofs")
_MODULE = re.compile(r"Rattle[.-](\w+)[.-](specs|proofs)(?:\.(.*))?$")
# A lemma, a ruleset or a definition that an attribute of a function names.
_IN_ATTRIBUTE = re.compile(r"(?<![\w:])(\w+)::(specs|proofs)::(\w+(?:::\w+)+)")
PRINTED = {"Debug", "Display", "Error", "LowerHex", "UpperHex", "Binary", "Octal"}
# Words without which nothing is printed: traits, methods, and macros.
PRINTING = PRINTED | set("dyn fmt to_string expect expect_err unwrap unwrap_err print println eprint eprintln write writeln format format_args panic assert assert_eq assert_ne dbg todo".split())


def folder_of(crate):
    return f"{ROOT}/crates/{crate}"


def listed():
    """Of each line of crates.txt the crate with what it names."""
    rows = [it.partition("#")[0].partition(":") for it in text_of(f"{ROOT}/crates.txt").split("\n")]
    return {it[0].split()[0]: it[2].split() for it in rows if it[0].strip()}


def below(crate, crates, found=None):
    """The repository's libraries under the crate, each behind those that it uses."""
    found = {} if found is None else found
    for dep in crates[crate]:
        if dep in crates and dep not in found:
            below(dep, crates, found)
            found[dep] = None
    return [*found]


def sum_of(*texts):
    return hashlib.sha256("\0".join(texts).encode()).hexdigest()


def owner_of(top):
    """The name under which the prover files the methods of a block, as PageIdDisplay for Display of PageId."""
    head = re.match(r"(?:pub )?(?:unsafe )?(?:impl|trait)\b(<(?:[^<>]|<[^<>]*>)*>)?\s*([^{]*)", top)
    parameters = re.findall(r"(?:<|,)\s*(?:const )?('?\w+)", head[1] or "")
    bound, _, owner = head[2].partition(" where ")[0].rpartition(" for ")
    names = re.findall(r"'?\w+", re.sub(r"\w+::", "", owner))
    is_general = all(it in parameters or it.startswith("'") for it in names[1:])
    trait = [it for it in re.findall(r"\w+", re.sub(r"\w+::", "", bound)) if it not in parameters]
    return "".join([names[0] if is_general else "+".join(names), *trait])


def unfolded_in(file):
    """The definitions that a file of antt unfolds, by their own names too where it has others for them."""
    found = {word for line in re.findall(r"\bunfolding ([^\n]*)", file.text) for word in re.split(r"[\s,;.]+", line)}
    return found | {name for _, names, _ in file.ghosts for name, other in names or () if other in found}


class Crate:
    """The files of a crate, and its functions by the module and the name under which the prover files them."""

    def __init__(self, name, changed):
        self.name, self.files, self.antt, self.functions = name, {}, {}, {}
        for part in PARTS:
            for file in sorted(files_below(f"{folder_of(name)}/{part}")):
                path = os.path.relpath(file, folder_of(name))
                if file.endswith(".rt"):
                    self.files[path] = RattleFile(name, path, changed(f"{name}/{path}", text_of(file)))
                elif file.endswith(".antt"):
                    self.antt[path] = AnttFile(name, path, changed(f"{name}/{path}", text_of(file)))
        self.items = [it for file in self.files.values() for it in file.items]
        declared = {it.name: it.file for it in reversed(self.items) if it.kind == TYPE}
        for item in self.items:
            if item.kind not in (FREE, METHOD):
                continue
            owner = [owner_of(item.block.top)] if item.block else []
            is_here = owner and any(it.kind == TYPE and it.name == owner[0] for it in item.file.items)
            file = declared.get(owner[0], item.file) if owner and not is_here else item.file
            module = file.module.replace(".", "::")
            self.functions[module, "::".join([*owner, item.name])] = item

    def roots(self):
        """What stands in the root file besides its items, as the tactics that each function gets."""
        return [text for file in self.files.values() if not file.module for text in file.roots]

    def passed(self, names):
        """Lines for what files of the crate pass on under these names, and for all that files of antt pass on."""
        for file in self.files.values():
            yield from (f"{self.name}/{file.path} passes {name} {path}" for name, path in file.passes.items() if name in names or path.rpartition("::")[2] in names)
        yield from (f"{self.name}/{file.path} passes {file.passes}" for file in self.antt.values() if file.passes)

    def bodies(self):
        """The functions that have a body: a trait's method may have none."""
        return {key for key, item in self.functions.items() if item.body or not item.stated.endswith(";")}


def places_of(key):
    """The folders below proofs/ in which the proof of a function may stand, alone or in a cycle of calls, and those of its closures."""
    module, name = key
    path = [it for it in (*module.split("::"), *name.split("::")) if it]
    closures = [it for it in (*module.split("::"), "fn", *name.split("::")) if it]
    return [f"proofs/{'/'.join(it)}/" for it in (path, [*path[:-1], f"+{path[-1]}"], closures)]


class Texts:
    """All texts, and what can be named from each part of them; each as it is, or as it is changed, by its crate and path."""

    def __init__(self, changed=lambda name, text: text):
        self.listed = listed()
        self.crates = {it: Crate(it, changed) for it in self.listed}
        self.named, self.blocks_of, self.free, self.paths = (collections.defaultdict(list) for _ in range(4))
        self.unfolded = set()
        for crate in self.crates.values():
            for item in crate.items:
                self._enter(crate, item)
            for key, item in crate.functions.items():
                self.paths[crate.name, ".".join(it for it in (*key[0].split("::"), *key[1].split("::")) if it)].append(item)
            for file in crate.antt.values():
                self.unfolded.update(unfolded_in(file))
            for item in crate.items:
                text = f"{item.stated}\n{item.body}"
                self.unfolded.update(word for names in re.findall(r"\bunfolding\(([^)]*)\)", text) for word in words_of(names))
        for crate in self.crates.values():
            for item in crate.items:
                if item.kind == BLOCK and not item.name:
                    self._own(item)

    def text_of_file(self, crate, path):
        """All that a file states; nothing of one that is not there."""
        if crate in self.crates and path in self.crates[crate].antt:
            return self.crates[crate].antt[path].text
        file = self.crates[crate].files.get(path) if crate in self.crates else None
        return "\n".join(it.stated for it in file.items) if file else ""

    def _enter(self, crate, item):
        if item.kind in (TYPE, CONSTANT) or item.kind == BLOCK and item.name:
            self.named[item.name].append(item)
            self.paths[crate.name, ".".join(it for it in (item.file.module, item.name) if it)].append(item)
        elif item.kind == FREE:
            self.free[item.name].append(item)
        self.paths[crate.name, item.file.module].append(item)

    def _own(self, block):
        """Files a block under what it is of: a type of the repository, or else a trait."""
        types = [it for word in block.owners for it in self.named_in(block.file, word) if it.kind == TYPE]
        traits = [it for word in block.traits for it in self.named_in(block.file, word) if it.kind == BLOCK]
        block.is_of_kit = bool(block.traits) and not traits
        for item in types or traits:
            self.blocks_of[item].append(block)

    def named_in(self, file, word):
        """The types, traits and constants that a word of a file may stand for."""
        found = self.named.get(word, ())
        own = [it for it in found if it.file is file]
        path = file.leaves.get(word)
        if path is not None:
            head, last = path.split("::")[0], path.split("::")[-1]
            crate = file.crate if head in ("crate", "super", "self") else head
            found = self.named.get(last, ())
            return [it for it in found if it.file.crate == crate] or [*found]
        return own or [*found]

    def text_read(self, item):
        """What is read of an item by those that name it."""
        if item.kind == ANTT and not item.is_open and item.name not in self.unfolded:
            return item.signature
        return item.stated

    @functools.cache
    def line_of(self, item):
        return f"{place_of(item)} {sum_of(self.text_read(item))}"

    @functools.cache
    def words_read(self, item):
        return words_of(self.text_read(item)) if item.kind == ANTT else item.words

    @functools.cache
    def held_by(self, item, variant):
        """The types in a variant of an enum."""
        return frozenset(it for word in item.variants[variant] - {variant} for it in self.named_in(item.file, word)) - {item}

    @functools.cache
    def brought(self, module, name):
        """The items that a name of a module of antt stands for; of no name all of them."""
        found = _MODULE.match(module)
        if not found or found[1] not in self.crates:
            return ()
        crate, part, rest = self.crates[found[1]], found[2], found[3] or "Lib"
        file = crate.antt.get(f"{part}/{rest.replace('.', '/')}.antt")
        if file is None:
            return self._passed(crate, part, rest, name) or self._made(crate, part, rest, name)
        if name is None:
            return tuple(file.items) + tuple(it for module, names, _ in file.passes for it in self.brought(module, None))
        own = [it for it in file.items if it.name == name]
        own += [it for module, names, alias in file.passes for it in self._through(module, names, alias, name)]
        return tuple(own or [it for it in file.items if mentions(words_of(it.stated), it.stated, name)] or file.items)

    def _through(self, module, names, alias, name):
        return self.brought(module, name) if names is None or any(name in it for it in names) else ()

    def _passed(self, crate, part, rest, name):
        """What the module stands for if a file above it passes it on from another crate."""
        above, _, last = rest.rpartition(".")
        file = crate.antt.get(f"{part}/{(above or 'Lib').replace('.', '/')}.antt")
        passed = [module for module, names, alias in file.passes if names is None and alias == last] if file else []
        return tuple(it for module in passed for it in self.brought(module, name))

    def _made(self, crate, part, rest, name):
        """The parts of src/ of which the prover makes a module: a type or a function, or those of this name in a file, as its constants."""
        path = rest.split(".")
        if part == "specs" and path[0] in ("declared", "contracts"):
            path = path[1:]
        for end in range(len(path), 0, -1):
            found = self.paths.get((crate.name, ".".join(path[:end])))
            if found:
                return tuple([it for it in found if it.name == name] or found)
        return tuple([it for it in crate.items if it.name == name] or crate.items)

    @functools.cache
    def names_of(self, item, is_body):
        """What the item names: other items; the words by which its body may call; and the paths by which it names."""
        words, text = (item.body_words, item.body) if is_body else (item.words, item.stated)
        if item.kind == ANTT:
            text = self.text_read(item)
            words = words_of(text)
        ghosts = item.file.ghosts + (item.block.ghosts if item.block else item.ghosts)
        found = set(self.ghosts_named(ghosts, words, text))
        paths = [*self.ghost_paths(ghosts, words, text)]
        for crate, part, path in _IN_ATTRIBUTE.findall(text) if item.kind != ANTT else ():
            module, _, name = path.replace("::", ".").rpartition(".")
            found.update(self.brought(f"Rattle.{item.file.crate if crate == 'crate' else crate}.{part}.{module}", name))
        if item.kind == ANTT:
            found.update(it for it in item.file.items if mentions(words, text, it.name))
        else:
            found.update([item.block] if item.block else [])
            for word in words:
                found.update(self.named_in(item.file, word))
                path = item.file.leaves.get(word)
                if path is not None:
                    paths.append(f"{word} {path}")
                    found.update(it for step in path.split("::") for it in self.named_in(item.file, step) if it.kind != CONSTANT and step != word)
        found.discard(item)
        return frozenset(found), tuple(sorted(paths))

    def ghost_paths(self, ghosts, words, text):
        """For each name that is used the module that it is taken from, and its name there."""
        for module, names, alias in ghosts:
            for name, other in [("", alias)] if names is None else names:
                if mentions(words, text, other or name):
                    yield f"{other or name} {module}.{name}"

    def ghosts_named(self, ghosts, words, text):
        for module, names, alias in ghosts:
            if names is None:
                if mentions(words, text, alias):
                    yield from (it for it in self.brought(module, None) if it.kind in (TYPE, BLOCK) or mentions(words, text, it.name))
                continue
            for name, other in names:
                if mentions(words, text, other or name):
                    yield from self.brought(module, name)

    @functools.cache
    def called(self, file, words, text):
        """The functions outside blocks that the words of a body may call."""
        found = set()
        for word in words:
            name = file.leaves[word].split("::")[-1] if word in file.leaves else word
            for item in self.free.get(name, ()):
                if item.file is file or word in file.leaves or f"::{word}" in text:
                    found.add(item)
        return frozenset(found)


class Reach:
    """What is reached from some functions, in the crates that these may name."""

    def __init__(self, texts, crate, opens_proofs=False):
        self.texts, self.within = texts, {crate, *below(crate, texts.listed)}
        # A wrong definition may be refused by the proof of a lemma of its crate: then these count whole.
        self.opened = crate if opens_proofs else ""
        self.stated, self.bodies, self.files, self.paths = {}, {}, {}, set()
        self.calls, self.live, self.open, self.asleep, self.said = set(), set(), [], set(), set()
        self.words, self.unnamed = set(), collections.defaultdict(set)

    def add(self, item):
        if item.file.crate in self.within and item not in self.stated:
            self.stated[item] = None
            self.open.append((item, False))

    def add_body(self, item):
        self.add(item)
        if item not in self.bodies:
            self.bodies[item] = None
            self.open.append((item, True))

    def add_file(self, file):
        """A file of the proof itself, whole."""
        if file not in self.files:
            self.files[file] = None
            self._name(file.words)
            for item in self.texts.ghosts_named(file.ghosts, file.words, file.text):
                self.add(item)

    def add_function(self, crate, key):
        self.add_body(crate.functions[key])
        self.calls.add(key[1].split("::")[-1])
        folders = tuple(places_of(key))
        for path, file in crate.antt.items():
            if path.startswith(folders):
                self.add_file(file)

    def run(self):
        while self.open:
            item, is_body = self.open.pop()
            if item.kind == ANTT and item.file.crate == self.opened and item.file.path.startswith("proofs/"):
                self.add_file(item.file)
            found, paths = self.texts.names_of(item, is_body)
            self.paths.update(f"{item.file.crate}/{item.file.path} {it}" for it in paths)
            for it in found:
                self.add(it)
            self._name(item.body_words if is_body else self.texts.words_read(item))
            for variant in item.variants:
                self._open_variant(item, variant)
            if item.kind in (FREE, METHOD):
                self._say(item.body_words if is_body else item.words)
            if is_body or item.kind in (FREE, METHOD) and item.body and item.body in item.stated:
                self._call(item)
            if item.kind == TYPE or item.kind == BLOCK and item.name:
                self._enliven(item)

    def _open_variant(self, item, variant):
        """What a variant holds counts where something names the variant."""
        for it in self.texts.held_by(item, variant):
            if variant in self.words:
                self.add(it)
            else:
                self.unnamed[variant].add(it)

    def _name(self, words):
        fresh = words - self.words
        self.words |= fresh
        for variant in fresh & self.unnamed.keys():
            for it in self.unnamed.pop(variant):
                self.add(it)

    def _say(self, words):
        """What prints wakes the blocks by which a type is printed."""
        if words & PRINTING and not self.said:
            self.said = words & PRINTING
            for block in self.asleep:
                self._wake(block)

    def _call(self, item):
        for it in self.texts.called(item.file, item.body_words, item.body):
            self.add(it)
        fresh = item.body_words - self.calls
        self.calls |= fresh
        for block in self.live:
            for it in block.members:
                if it.name in fresh:
                    self.add(it)

    def _enliven(self, item):
        """A trait with all that it states; and the blocks of a type, those by which it is printed only where something is."""
        if item.kind == BLOCK:
            for it in item.members:
                self.add(it)
        for block in self.texts.blocks_of[item]:
            if block.file.crate not in self.within:
                continue
            if block.is_of_kit and {*block.traits} & PRINTED and not self.said:
                self.asleep.add(block)
            else:
                self._wake(block)

    def _wake(self, block):
        """The methods of a block may be called by name, and those of a trait of the kit by an operator or unseen."""
        if block not in self.live:
            self.live.add(block)
            if block.traits or not block.is_bare:
                self.add(block)
            for it in block.members:
                if block.is_of_kit or it.name in self.calls:
                    self.add(it)

    def lines(self, files=None):
        """A line for each part that was reached, with a checksum of its text: in these files alone, of which one with no such part counts whole, or in all."""
        texts = self.texts
        inside = {it: None for it in self.stated if files is None or file_of(it) in files or it in self.bodies}
        found = {texts.line_of(it) for it in inside if it.name or it.kind == BLOCK}
        found |= {f"{place_of(it)} body {sum_of(it.body)}" for it in self.bodies if it.name}
        found |= {f"{it.crate}/{it.path} {sum_of(it.text)}" for it in self.files}
        found |= {f"{it.crate}/{it.path} besides {sum_of(*it.roots)}" for it in {it.file for it in inside} if it.roots}
        paths = {it for it in self.paths if files is None or it.partition(" ")[0] in files}
        crates = {it.file.crate for it in inside} | {it.crate for it in self.files}
        found |= {line for it in crates for line in texts.crates[it].passed({item.name for item in inside})}
        found |= {f"{it.file.crate} root {sum_of(*texts.crates[it.file.crate].roots())}" for it in self.bodies if it.name}
        return sorted(found | paths | set(self.whole((files or frozenset()) - {file_of(it) for it in inside})))

    def whole(self, files):
        """Lines for files that the prover read though no name leads there."""
        own = {f"{it.crate}/{it.path}" for it in self.files}
        for name in files - own:
            crate, _, path = name.partition("/")
            yield f"{name} whole {sum_of(self.texts.text_of_file(crate, path))}"


def file_of(item):
    return f"{item.file.crate}/{item.file.path}"


def place_of(item):
    """Where an item stands: its crate, its file, the head of its block, and its name."""
    return " ".join([f"{item.file.crate}/{item.file.path}", item.kind, item.block.top if item.block else item.top if item.kind == BLOCK else "", item.name])
