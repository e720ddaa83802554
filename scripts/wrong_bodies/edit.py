"""An edit: a name, and below it lines `file:`, `old:` and `new:` that make a wrong body of a right one."""

import re
from pathlib import Path

from wrong_bodies.layout import functions_in

PARTS = ("src", "specs", "proofs")
# A line that is none of the three is a name, so no line of a file with edits is passed over.
EDIT = re.compile(r"(.+)\n((?:(?:file|old|new):.*\n)*)")
CHANGE = re.compile(r"(?:file: (.+)\n)?old: (.+)\nnew: ?(.*)\n")


class Edit:
    """The texts of the files that an edit changes, by their paths in the crate, or the fault that it has; and the
    function that its name tells (FILE.FUNCTION.WHAT_IT_DOES), if it changes only the body of that."""

    def __init__(self, crate, name, text):
        self.name, self.folder, self.text, self.texts = name, Path("crates", crate), text, {}
        self.fault = self.apply()
        self.function = None if self.fault else self.changed_function()

    def apply(self):
        """Replaces each text that stands in its file once. Returns the fault, if one does not."""
        path = ""
        for file, old, new in CHANGE.findall(self.text):
            path = file or path
            if path.split("/")[0] not in PARTS or ".." in path or not (self.folder / path).is_file():
                return f"no file of the crate: {path}"
            text = self.texts.get(path) or (self.folder / path).read_text()
            if text.count(old) != 1:
                return f"this stands in {path} {text.count(old)} times, and not once: {old}"
            self.texts[path] = text.replace(old, new)
        is_read = self.texts and not CHANGE.sub("", self.text)
        return None if is_read else "its lines are not `file:`, and then `old:` and `new:` by turns"

    def changed_function(self):
        (path, text), *others = self.texts.items()
        before = (self.folder / path).read_text()
        lines = enumerate(zip(before.split("\n"), text.split("\n")))
        changed = [at for at, (old, new) in lines if old != new]
        holds = lambda it: all(it.brace < at < it.last for at in changed)
        around = [it for it in functions_in(path, before) if holds(it)]
        is_named = around and self.name.split(".")[:2] == [Path(path).stem, around[-1].name]
        return around[-1] if is_named and changed and not others else None


def edits_of(crate):
    """The edits of crates/CRATE/wrong-bodies.txt."""
    file = Path("crates", crate, "wrong-bodies.txt")
    return [Edit(crate, *edit) for edit in EDIT.findall(file.read_text())] if file.is_file() else []
