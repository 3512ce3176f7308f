"""The files of a crate in parts: each item of a file of Rattle, and each of a file of antt, without comments.

Layout is that of `rt fmt`: an item begins in the first column, a member of a block four columns further in.
"""
import functools
import os
import re

MEMBER = "    "
FUNCTION = re.compile(r"(\s*)(?:(?:pub(?:\([^)]*\))?|const|unsafe) )*fn (\w+)")
_KINDS = "use|ghost|mod|const|static|type|struct|enum|trait|impl|fn|macro_rules"
_ITEM = re.compile(rf"(?:#\[|(?:pub(?:\([^)]*\))? )?(?:(?:unsafe|const) (?=fn|trait|impl))*(?:{_KINDS})\b)")
_NAMED = re.compile(r"(?:pub(?:\([^)]*\))? )?(struct|enum|trait|type|const|static) (?:mut )?(\w+)")
_ANTT_ITEM = re.compile(r"(?:(?:abbrev|pub|record|data|unfoldable|ruleset) )+([^\s:=]+)|([^\s:=]+)(?: \{[^}]*\})* :(?= |$)")
_WORD = re.compile(r"[\w']+")
TYPE, CONSTANT, FREE, METHOD, BLOCK, ANTT = "type", "constant", "function", "method", "block", "antt"


class Item:
    """A part of a file: what it states, its body if that is a function's, the words in each, and the block that it is a member of."""

    def __init__(self, file, kind, name, stated, body="", block=None):
        self.file, self.kind, self.name, self.stated, self.body, self.block = file, kind, name, stated, body, block
        self.owners, self.traits, self.ghosts, self.members = [], [], [], []
        self.variants, self.outside = variants_of(stated) if kind == TYPE else ({}, stated)

    @functools.cached_property
    def words(self):
        """The words of what it states; of an enum those outside its variants."""
        return words_of(self.outside if self.variants else self.stated)

    @functools.cached_property
    def body_words(self):
        return words_of(self.body)


class RattleFile:
    """A file of src/: its items, what its `use` lines name, what its `ghost use` lines bring, and what stands in it besides."""

    def __init__(self, crate, path, text):
        self.crate, self.path = crate, path
        self.items, self.leaves, self.passes, self.ghosts, self.roots = [], {}, {}, [], []
        lines, is_whole = without_comments(text, "//")
        for chunk in [lines] if is_whole else chunks(lines, _ITEM, ""):
            self._take(chunk)

    @property
    def module(self):
        """The path of its module, as `device.opening`; empty at the root."""
        parts = self.path.removesuffix(".rt").split("/")[1:]
        return ".".join(it for it in parts if it not in ("lib", "main", "mod"))

    def _take(self, chunk):
        text, head = "\n".join(chunk), next((it for it in chunk if not it.startswith("#[")), "")
        if re.match(r"(?:pub(?:\([^)]*\))? )?use ", head):
            self.leaves.update(leaves_of(text))
            self.passes.update(leaves_of(text) if head.startswith("pub") else {})
        elif head.startswith("ghost use "):
            self.ghosts += uses_of(text.replace("ghost use", "use"))
        elif re.match(r"(?:pub )?(?:unsafe )?(?:impl|trait)\b", head):
            self._take_block(chunk, head)
        elif FUNCTION.match(head):
            self.items.append(function_of(self, chunk, FREE, None))
        elif named := _NAMED.match(head):
            self.items.append(Item(self, CONSTANT if named[1] in ("const", "static") else TYPE, named[2], text))
        elif not re.match(r"(?:pub(?:\([^)]*\))? )?mod ", head):
            self.roots.append(text)

    def _take_block(self, chunk, head):
        opens = next((at for at, it in enumerate(chunk) if it.endswith("{")), len(chunk) - 1)
        block = Item(self, BLOCK, "", "")
        ends = len(chunk) - 1 if chunk[-1].startswith("}") else len(chunk)
        parts = chunks(chunk[opens + 1 : ends], re.compile(rf"{MEMBER}(?:#\[|(?:pub(?:\([^)]*\))? )?(?:const |unsafe )*(?:fn|ghost|const|type)\b)"), MEMBER)
        stated, block.top = [*chunk[: opens + 1]], " ".join(it for it in chunk[: opens + 1] if not it.startswith("#["))
        for part in parts:
            first = next((it for it in part if not it.startswith(f"{MEMBER}#[")), "")
            if FUNCTION.match(first):
                block.members.append(function_of(self, part, METHOD, block))
                continue
            if first.startswith(f"{MEMBER}ghost use "):
                block.ghosts += uses_of("\n".join(it.strip() for it in part).replace("ghost use", "use"))
                continue
            stated += part
        block.stated, block.is_bare = "\n".join(stated), len(stated) == opens + 1
        trait = re.match(r"(?:pub )?(?:unsafe )?trait (\w+)", block.top)
        block.name = trait[1] if trait else ""
        block.traits, block.owners = ([trait[1]], []) if trait else parts_of_impl(block.top)
        self.items += [block, *block.members]


class AnttFile:
    """A file of specs/ or proofs/: its items and what its `use` lines bring; of an item that nobody can unfold what it states is its signature."""

    def __init__(self, crate, path, text):
        self.crate, self.path, self.items, self.ghosts, self.leaves = crate, path, [], [], {}
        lines, _ = without_comments(text, "--")
        self.text = "\n".join(it for it in lines if it.strip())
        self.passes, head, at = [], [], 0
        while at < len(lines):
            if re.match(r"(?:pub )?(?:use|mod) ", lines[at]):
                end = at
                while "{" in "".join(lines[at : end + 1]) and "}" not in lines[end] and end + 1 < len(lines):
                    end += 1
                found = uses_of(" ".join(it.strip() for it in lines[at : end + 1]).removeprefix("pub "))
                self.ghosts += found
                self.passes += found if lines[at].startswith("pub use ") else []
                at = end + 1
                continue
            head.append(lines[at])
            at += 1
        self.roots = self._take(head)
        self.words = words_of(self.text)

    def _take(self, lines):
        """Makes the items, those of a `module _ .. where` too, whose head is a part of each; what stands above the first is given back."""
        above, heads, is_heading = [], [], False
        for line in lines:
            if not line.strip():
                continue
            if is_heading:
                heads[-1].append(line)
                is_heading = not line.endswith("where")
                continue
            indent = len(line) - len(line.lstrip(" "))
            heads = heads[: indent // 2]
            is_outside, told = indent == 2 * len(heads), line[2 * len(heads) :]
            if is_outside and told.startswith("module "):
                heads = [*heads, [line]]
                is_heading = not line.endswith("where")
                continue
            begins = _ANTT_ITEM.match(told) if is_outside else None
            if begins:
                item = Item(self, ANTT, begins[1] or begins[2], "")
                item.lines, item.head = [told], [it for head in heads for it in head]
                self.items.append(item)
            else:
                (self.items[-1].lines if self.items else above).append(told)
        for item in self.items:
            ends = next((at for at, it in enumerate(item.lines) if at and not it.startswith((" ", "}", ")", "]"))), len(item.lines))
            item.signature, item.stated = "\n".join([*item.head, *item.lines[:ends]]), "\n".join([*item.head, *item.lines])
            item.is_open = re.match(r"(?:\S+ )*?(?:abbrev|record|data|unfoldable|ruleset)\b", item.lines[0]) is not None
        return above


def words_of(text):
    return frozenset(_WORD.findall(text))


def text_of(file):
    with open(file, encoding="utf-8") as it:
        return it.read()


def without_comments(text, mark):
    """The lines of a text without its comments, those after code too; all of it, and True, if a string may go over several lines, of which one could look like a comment."""
    lines = text.split("\n")
    if mark == "//" and any(it.count('"') % 2 for it in lines if not it.lstrip().startswith(mark)):
        return lines, True
    after_code = re.compile(rf"\s+{mark}(?:\s.*)?$")
    return [it if '"' in it else after_code.sub("", it) for it in lines if not it.lstrip().startswith(mark)], False


def chunks(lines, begins, indent):
    """Groups of lines that each begin where an item does; the attributes above an item are a part of it."""
    found, is_attribute = [], False
    for line in lines:
        if begins.match(line):
            found += [] if is_attribute else [[]]
            is_attribute = line.startswith(f"{indent}#[")
        if line.strip():
            found += [] if found else [[]]
            found[-1].append(line)
    return [it for it in found if it]


def body_of(lines, start, head):
    """The lines of the body of the function that begins in a line: none if it is written otherwise than `rt fmt` lays it out."""
    indent = head[1]
    for at in range(start, len(lines)):
        if at > start and FUNCTION.match(lines[at]):
            return range(0)
        if lines[at] == f"{indent}{{" or lines[at].endswith(" {") and (at == start or lines[at].startswith(f"{indent})")):
            return range(at + 1, lines.index(f"{indent}}}", at)) if f"{indent}}}" in lines[at:] else range(0)
    return range(0)


def function_of(file, chunk, kind, block):
    start = next(at for at, it in enumerate(chunk) if FUNCTION.match(it))
    head = FUNCTION.match(chunk[start])
    body = body_of(chunk, start, head)
    # what a constant function computes, and what a trait's does, is a part of what it states
    is_read = re.search(r"\bconst (?:unsafe )?fn\b", chunk[start]) or block is not None and block.name
    stated = [*chunk[: body.start], *chunk[body.stop :]] if body and not is_read else chunk
    return Item(file, kind, head[2], "\n".join(stated), "\n".join(chunk[body.start : body.stop]) if body else "", block)


def variants_of(stated):
    """Of each variant of an enum the words in it, and the text outside of them."""
    lines, found, outside = stated.split("\n"), {}, []
    is_enum = any(re.match(r"(?:pub(?:\([^)]*\))? )?enum ", it) for it in lines)
    for line in lines:
        head = re.match(rf"{MEMBER}(\w+)\b", line)
        name = head[1] if head else next(reversed(found), None)
        if is_enum and name and line.startswith(MEMBER):
            found[name] = found.get(name, frozenset()) | words_of(line)
        else:
            outside.append(line)
    return found, "\n".join(outside)


def parts_of_impl(top):
    """The words of the trait, and those of the type, of a block's head."""
    head = re.match(r"(?:unsafe )?impl\b(<(?:[^<>]|<(?:[^<>]|<[^<>]*>)*>)*>)?\s*([^{]*)", top)
    bound, _, owner = head[2].partition(" where ")[0].rpartition(" for ")
    return sorted(words_of(bound)), sorted(words_of(owner))


def leaves_of(text):
    """The names that a `use` brings, each with the whole path that it stands for."""
    inside = re.sub(r"\s+", " ", text[text.index("use ") + 4 :]).rstrip("; ")

    def walk(path, rest):
        rest = rest.strip()
        if "{" not in rest:
            whole, _, alias = f"{path}{rest}".partition(" as ")
            yield alias or whole.removesuffix("::self").rpartition("::")[2], whole
            return
        before, _, group = rest.partition("{")
        depth, part = 0, ""
        for sign in group.rpartition("}")[0] + ",":
            depth += (sign == "{") - (sign == "}")
            if sign == "," and not depth:
                if part.strip():
                    yield from walk(path + before, part)
                part = ""
            else:
                part += sign

    return dict(walk("", inside))


def uses_of(text):
    """What `use` lines of antt bring: the module with its names there, as told in braces, or with the name that it gets itself."""
    found = []
    for line in re.findall(r"\buse ([^;\n]*(?:\{[^}]*\})?[^;\n]*)", text):
        module, _, names = line.strip().partition(".{")
        if names:
            found.append((module, [it.strip().partition(" as ")[::2] for it in names.rpartition("}")[0].split(",") if it.strip()], ""))
            continue
        module, _, alias = module.partition(" as ")
        found.append((module.strip(), None, (alias or module.rpartition(".")[2]).strip()))
    return found


def mentions(words, text, name):
    """Whether a text names this: each part of an operator's name has to stand in it."""
    return all(part in words if _WORD.fullmatch(part) else part in text for part in re.findall(r"[\w']+|[^\w'◌]+", name))


def files_below(folder):
    return [f"{at}/{it}" for at, _, names in os.walk(folder) for it in names]
