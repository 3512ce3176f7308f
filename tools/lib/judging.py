"""Judges edits of one crate: a copy of it gets one in each function, and 'rt check --only' is asked for the edited functions."""
import os
import re
import shutil
import subprocess

from edits import functions_near
from loaded import files_read
from rests import PARTS, below, folder_of, places_of
from texts import AnttFile, files_below, text_of, words_of
from verdicts import BY_NAMES, BY_TYPES

REFUSED, PROVED, NOT_JUDGED, ERROR = "refused", "PROVED", "not judged", "ERROR"
NAME_LOST = re.compile(r"has no field|is not in scope|has no `|was not admitted|: record `Rattle\.\S+\.Lts\.")
# A goal that a tactic has not closed.
LEFT_OPEN = re.compile(r"did not prove|does not follow|`(?:search|omega|grind|simp|decide)`: ")
OF_PROOF = re.compile(r"(proofs/\S+\.antt):(\d+):\d+: error: ")
NOT_ADMITTED = "was not admitted"
AS_STATED = "use {0}.Statement.{{statement}}\n\npub {1}_spec : {{M : Type 1}} → statement M\n{1}_spec = ?\n"
SAYS_LITTLE = {
    BY_NAMES: "only since its proof file names what the edit took away: change a value and keep the names: ",
    BY_TYPES: "only since its proof file has other types than the edited body: ",
}


class Verdict:
    """What came out for an edit: the word, the reason, the function that was refused, and the files that the prover read for it, those of its goals and answers apart."""

    def __init__(self, word, why="", function=""):
        self.word, self.why, self.function, self.every, self.by_goals = word, why, function, None, frozenset()

    @property
    def mark(self):
        """The mark of an edit that was refused for this reason; empty if a goal was left open."""
        return next((mark for mark, said in SAYS_LITTLE.items() if self.why.startswith(said)), "")


def rounds_of(edits):
    """Puts the edits into as few rounds as go, no two of a round in one function."""
    rounds = []
    for edit in edits:
        fitting = next((it for it in rounds if not any({*other.functions} & {*edit.functions} for other in it)), None)
        if fitting is None:
            rounds.append([edit])
        else:
            fitting.append(edit)
    return rounds


class Copy:
    """A copy of one crate, which keeps what it proved from round to round."""

    def __init__(self, room, texts, crate, is_edited=True):
        self.texts, self.crate, self.folder, self.is_edited = texts, crate, f"{room}/crates/{crate}", is_edited
        crates = texts.listed
        os.makedirs(self.folder)
        with open(f"{room}/crates.txt", "w", encoding="utf-8") as it:
            it.write(f"{crate}: {' '.join(dep for dep in crates[crate] if dep not in crates)}\n")
        rlibs = {it: f"{folder_of(it)}/out/rlib" for it in below(crate, crates)}
        self.words = [f"--extern={it}={rlibs[it]}/{it}.rlib" for it in crates[crate] if it in crates]
        self.words += [word for it in rlibs.values() for word in ("-L", f"dependency={it}")]

    def check(self, edits, keys, as_stated, without=()):
        """What 'rt check --only' says of these functions, line by line: over what the others state, or over their proofs; without these answers."""
        for part in PARTS:
            shutil.rmtree(f"{self.folder}/{part}", ignore_errors=True)
            if os.path.isdir(f"{folder_of(self.crate)}/{part}"):
                shutil.copytree(f"{folder_of(self.crate)}/{part}", f"{self.folder}/{part}")
        for edit in edits if self.is_edited else []:
            edit.apply(self.folder)
        if as_stated:
            self.leave_open(self.texts.crates[self.crate].bodies() - {*keys})
        self.leave_answers_out(without)
        only = [f"--only={'::'.join(it for it in key if it)}" for key in keys]
        words = ["rt", "check", "--jobs", "1", "--allow-holes", "--short-goals", *only, *self.words]
        ran = subprocess.run(words, cwd=self.folder, stdout=subprocess.PIPE, stderr=subprocess.STDOUT, stdin=subprocess.DEVNULL, text=True, errors="replace")
        return ran.stdout.split("\n")

    def leave_open(self, functions):
        """Puts a hole in the place of each function's proof, unless a file of another proof names a part of it."""
        texts = {it: text_of(it) for it in files_below(f"{self.folder}/proofs")}
        for module, name in functions:
            path = [it for it in (*module.split("::"), *name.split("::")) if it]
            folder, proof = "/".join([self.folder, "proofs", *path]), ".".join(["Rattle", self.crate, "proofs", *path])
            if any(f"{proof}." in text for file, text in texts.items() if not file.startswith(f"{folder}/")):
                continue
            shutil.rmtree(folder, ignore_errors=True)
            os.makedirs(folder)
            with open(f"{folder}/Proof.antt", "w", encoding="utf-8") as it:
                it.write(AS_STATED.format(proof, path[-1]))

    def leave_answers_out(self, without):
        """Takes the answers of these goals out of their files: each begins a line with its name, as 'pub NAME', and goes up to the next such line. A file with no answer left goes too."""
        for path in {it for it, _ in without}:
            text, file = [], f"{self.folder}/{path}"
            gone, is_gone = {name for it, name in without if it == path}, False
            for line in text_of(file).split("\n"):
                head = re.match(r"(?:pub )?([^\s:]+) :", line)
                is_gone = head[1] in gone if head else is_gone and not line.startswith("use ")
                text += [] if is_gone else [line]
            if not any(it.startswith("pub ") for it in text):
                os.remove(file)
                continue
            with open(file, "w", encoding="utf-8") as it:
                it.write("\n".join(text))

    def judge(self, edits, as_stated=True):
        """The verdict on each edit of a round. Where the prover cannot read the round, the edits that its error may be about are tried alone."""
        lines = self.check(edits, [key for edit in edits for key in edit.functions], as_stated)
        if was_read(lines):
            return {edit: self.verdict(edit, edit.functions, lines) for edit in edits}
        if as_stated:
            return self.judge(edits, False)
        error = next((it for it in lines if "error" in it), (lines[-2:] or [""])[0])
        if len(edits) == 1:
            return {edits[0]: Verdict(ERROR, error)}
        alone = [it for it in edits if it.is_named_in(error)] or edits
        rest = [it for it in edits if it not in alone]
        found = self.judge(rest) if rest else {}
        for edit in alone:
            found.update(self.judge([edit]))
        return found

    def judge_definition(self, edit):
        """The verdict on a wrong definition: by the functions that name it first, and if none of these is refused by all."""
        near = functions_near(self.texts, edit)
        for keys in [near, edit.functions] if near else [edit.functions]:
            lines = self.check([edit], keys, False)
            if not was_read(lines):
                return Verdict(ERROR, next((it for it in lines if "error" in it), (lines[-2:] or [""])[0]))
            found = self.verdict(edit, keys, lines)
            if found.word == REFUSED:
                break
        return found

    def verdict(self, edit, keys, lines):
        told = [re.match(rf"fn {self.crate}::(\S+): (.*)", it) for it in lines]
        said = dict(it.groups() for it in told if it)
        names = {"::".join(it for it in key if it): key for key in keys}
        found = {it: said.get(it, "the prover says nothing of it") for it in names}
        if all(re.match("no holes|depends on a hole in ", it) for it in found.values()):
            return Verdict(PROVED)
        # the closures of a function are a part of it
        inside = tuple("::".join([*filter(None, (module, "fn", name)), ""]) for module, name in keys)
        refused = []
        for name, reason in [*found.items(), *[it for it in said.items() if it[0].startswith(inside)]]:
            errors = errors_below("proofs/" if edit.is_definition else f"proofs/{name.replace('::', '/')}/", lines)
            if is_own(reason, errors):
                refused.append(Verdict(REFUSED, why_of(reason, errors), name))
        if not refused:
            return Verdict(NOT_JUDGED, "; ".join(found.values()))
        best = next((it for it in refused if not it.mark), refused[0])
        best.every, best.by_goals = files_read(self.texts, self.crate, [names[best.function]] if best.function in names else keys, f"{self.folder}/out")
        return best

    def strengthen(self, found):
        """
        Tries edits of a round, which were refused by names or types, again without the answers that do not fit, and gives what then comes out. A wrong definition of which the one function
        that was refused is then proved is tried by all: another one may refuse it.
        """
        waiting, without, done, by_all, as_stated = dict(found), {it: set() for it in found}, {}, set(), True
        while waiting:
            keys = {edit: edit.functions if edit in by_all else self.refused_of(edit, verdict) for edit, verdict in waiting.items()}
            lines = self.check([*waiting], [it for edit in waiting for it in keys[edit]], as_stated, set().union(*[without[it] for it in waiting]))
            if not was_read(lines):
                if len(waiting) == 1 and not as_stated:
                    return {**done, **waiting}
                if len(waiting) == 1:
                    as_stated = False
                    continue
                for edit, verdict in waiting.items():
                    done.update(self.strengthen({edit: verdict}))
                return done
            for edit, before in [*waiting.items()]:
                verdict = self.verdict(edit, keys[edit], lines)
                if verdict.word == PROVED and edit.is_definition and edit not in by_all:
                    by_all.add(edit)
                    continue
                verdict = verdict if verdict.word in (REFUSED, PROVED) else before
                verdict.function = verdict.function or before.function
                gone = self.misfits(keys[edit], lines, without[edit]) if verdict.mark else set()
                without[edit] |= gone
                waiting[edit] = verdict
                if not gone:
                    done[edit] = waiting.pop(edit)
        return done

    def refused_of(self, edit, verdict):
        """The functions by which the edit is tried again: of a wrong definition the one that was refused."""
        return [it for it in edit.functions if "::".join(filter(None, it)) == verdict.function] if edit.is_definition and verdict.function else edit.functions

    def misfits(self, keys, lines, without):
        """The answers of these functions that do not fit and were not left out yet; or else those that stand on a lemma that does not."""
        own = tuple(place for key in keys for place in places_of(key))
        errors = {(it[1], self.item_at(it[1], int(it[2]))) for it in map(OF_PROOF.search, lines) if it and not LEFT_OPEN.search(it.string)}
        found = {(path, name) for path, name in errors if name and path.startswith(own) and path.endswith("/Answers.antt")} - without
        return found or {it for it in self.standing_on({name for _, name in errors if name}) if it[0].startswith(own)} - without

    def item_at(self, path, number):
        """The name of what stands in a line of a file of the copy."""
        lines = text_of(f"{self.folder}/{path}").split("\n")[:number]
        heads = [head[1] for head in map(re.compile(r"(?:(?:abbrev|pub) )*([^\s:]+) :").match, lines) if head]
        return heads[-1] if heads else ""

    def standing_on(self, names):
        """The answers that stand on lemmas of these names, each with its file."""
        paths = [os.path.relpath(it, self.folder) for it in files_below(f"{self.folder}/proofs") if it.endswith(".antt")]
        items = [(path, it.name, words_of(it.stated)) for path in paths for it in AnttFile(self.crate, path, text_of(f"{self.folder}/{path}")).items]
        reached, grows = set(names), True
        while grows:
            more = {name for _, name, words in items if name not in reached and words & reached}
            grows, reached = bool(more), reached | more
        return {(path, name) for path, name, words in items if path.endswith("/Answers.antt") and words & reached and name not in names}


def was_read(lines):
    return any(re.match(r"only=\d+ holes=\d+$", it) for it in lines)


def errors_below(folder, lines):
    """The errors in the files of proofs/ below this folder."""
    return [it.removeprefix("./") for it in lines if it.removeprefix("./").startswith(folder) and ": error:" in it]


def why_of(said, errors):
    if said.startswith("no proof") or not errors:
        return said
    of_types = [it for it in errors if not LEFT_OPEN.search(it) and not NAME_LOST.search(it)]
    first = next((it for it in errors if LEFT_OPEN.search(it)), "")
    return first or (SAYS_LITTLE[BY_TYPES] + of_types[0] if of_types else SAYS_LITTLE[BY_NAMES] + errors[0])


def is_own(said, errors):
    """Whether the prover refuses a function for what it does itself, and not for what it calls or for a form that it does not cover."""
    if said.startswith("no proof"):
        return "did not prove" in said
    return said == "not proved" or said.startswith("not proved") and any(NOT_ADMITTED not in it for it in errors)
