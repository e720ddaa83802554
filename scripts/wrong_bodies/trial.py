"""Tries the edits of a crate, many in one check.

Each edit that changes one body becomes a copy of its function, under a name of its own and with its contract and its
proof. Nothing calls it, so one check tries those of a crate. A copy is refused if the prover has an open goal in it,
and a copy with the right body is proved beside it. Where anything else fails the check says nothing, and each half is
tried by itself. What is left, as an edit of a constant or of a method of a trait, is tried in a check of the whole
crate.
"""

import os
import re
import shutil
import subprocess
import sys
from collections import defaultdict
from pathlib import Path
from threading import Lock

from wrong_bodies import crates_below
from wrong_bodies.edit import PARTS, edits_of
from wrong_bodies.verdict import PROVED, refusal_of_whole, verdicts_of

# One crate at a time is proved at its place, by several processes, which build those below it too.
PROVING = Lock()


def check(folder, *words):
    """Has the prover check the crate in this folder."""
    return subprocess.run(["rt", "check", *words], cwd=folder, stdin=subprocess.DEVNULL, stdout=subprocess.PIPE,
                          stderr=subprocess.STDOUT, text=True, errors="replace")


def copy_sources(crate, to):
    for part in PARTS:
        if (folder := Path("crates", crate, part)).is_dir():
            shutil.copytree(folder, to / part)


def link_tree(folder, to):
    """Gives what the prover has kept second names: it replaces such a file, and changes none."""
    copy = lambda file, other: shutil.copy2(file, other) if file.endswith(".rt") else os.link(file, other)
    shutil.copytree(folder, to, copy_function=copy)


class Trial:
    """A crate's edits, and a copy of the crate and of those below it, in which they are tried. Each check begins with
    what a check of the crate as it stands has kept."""

    def __init__(self, crate, room):
        self.crate, self.room = crate, Path(room, crate).resolve()
        self.inside = self.room / "crates" / crate
        self.edits, self.refused, self.faults, self.checks = [], {}, {}, 0

    def run(self):
        """Tries each edit, and notes those that are refused, and the faults of the others. Returns why none is tried,
        if the crate is not proved as it stands."""
        with PROVING:
            print(f"edits: proves {self.crate}", file=sys.stderr, flush=True)
            ended = check(Path("crates", self.crate))
            if ended.returncode == 0:
                self.fill_room()
                self.edits = edits_of(self.crate)
        if ended.returncode == 0:
            ended = self.check({})
        if ended.returncode:
            return f"{ended.stdout[-2000:]}\n{self.crate} is not proved as it stands"
        shutil.rmtree(self.room / "kept")
        os.rename(self.inside / "out/incremental", self.room / "kept")
        of_function = defaultdict(list)
        for edit in self.edits:
            if edit.function:
                of_function[edit.function].append(edit)
        self.try_copies([*of_function.items()])
        for edit in self.edits:
            if edit not in self.refused:
                self.try_whole(edit)
        shutil.rmtree(self.room)
        return None

    def fill_room(self):
        """Copies the crates below, as they are built, and what was kept of the crate."""
        *below, _ = crates_below(self.crate)
        for name in below:
            copy_sources(name, self.room / "crates" / name)
            link_tree(Path("crates", name, "out/rlib"), self.room / "crates" / name / "out/rlib")
        link_tree(Path("crates", self.crate, "out/incremental"), self.room / "kept")
        shutil.copy("HANDLES", self.room)
        rows = Path("crates.txt").read_text().splitlines()
        listed = [row for row in rows if re.split("[ :]", row)[0] in [*below, self.crate]]
        (self.room / "crates.txt").write_text("".join(f"{row}\n" for row in listed))

    def check(self, texts, *words):
        """Checks the crate with these texts in place of its own."""
        self.checks += 1
        shutil.rmtree(self.inside, ignore_errors=True)
        copy_sources(self.crate, self.inside)
        link_tree(self.room / "kept", self.inside / "out/incremental")
        for path, text in texts.items():
            file = self.inside / path
            file.parent.mkdir(parents=True, exist_ok=True)
            file.write_text(text)
        return check(self.inside, "--jobs", "1", *words)

    def try_copies(self, functions):
        """Tries functions with the edits of each in one check, and notes what is refused."""
        if not functions:
            return
        texts, copies = self.with_copies(functions)
        found = verdicts_of(self.check(texts, *(word for name in copies for word in ("--only", name))), copies, texts)
        right = {function: name for name, (function, edit) in copies.items() if not edit}
        for name, (function, edit) in copies.items():
            if edit and found.get(right[function]) == PROVED and found[name] not in (PROVED, None):
                self.refused[edit] = found[name]
        if not found and len(functions) > 1:
            half = len(functions) // 2
            self.try_copies(functions[:half])
            self.try_copies(functions[half:])

    def with_copies(self, functions):
        """The texts of the files with, behind each function, a copy with its own body and one for each edit; and the
        function and the edit of each copy, by its name."""
        texts, copies = {}, {}
        for function, edits in sorted(functions, key=lambda it: -it[0].head):
            own = Path("crates", self.crate, function.path).read_text()
            lines = texts.get(function.path, own).split("\n")
            for edit in [None, *edits]:
                name = f"{function.name}_edit_{len(copies)}"
                text = edit.texts[function.path] if edit else own
                body = text.split("\n")[function.first : function.last + 1]
                head = function.head - function.first
                body[head] = re.sub(r"\bfn \w+", f"fn {name}", body[head])
                lines[function.last + 1 : function.last + 1] = ["", *body]
                copies[name] = function, edit
                texts.update(self.proofs_of(function, name))
            texts[function.path] = "\n".join(lines)
        return texts, copies

    def proofs_of(self, function, name):
        """The files of a function's proof, as a copy of this name needs them, by their paths."""
        folder, found = Path("crates", self.crate), {}
        own = Path(function.type or Path(function.path).relative_to("src").with_suffix(""), function.name)
        for file in (folder / "proofs").glob(f"**/{own}/*.antt"):
            path = file.parent.relative_to(folder)
            words = re.compile(rf"\b{re.escape('.'.join(path.parts))}(?![\w-])")
            copy = path.with_name(name)
            found[f"{copy}/{file.name}"] = words.sub(".".join(copy.parts), file.read_text())
        return found

    def try_whole(self, edit):
        if edit.fault:
            self.faults[edit] = f"NOT TRIED: {edit.fault}"
            return
        refusal, fault = refusal_of_whole(self.check(edit.texts), edit.texts)
        if fault:
            self.faults[edit] = fault
        else:
            self.refused[edit] = refusal
