#!/usr/bin/env python3
"""change.py: puts the hooks of this folder into a source of osmo-msc, and makes the mutations of the glue.

    change.py hooks SOURCE      changes the files of SOURCE as the file `hooks` says, and copies the glue and its test
                                there. If an anchor is not there exactly once, it names each such, and changes nothing
    change.py mutations         prints each mutation on a line: its file, where that is in SOURCE, and its name
    change.py mutate NAME FILE  writes its file of the glue with this mutation of the file `mutations` to FILE

Both files have blocks of lines `key: value`, with an empty line between two blocks. Text is in the lines behind a key
that begin with `|`. A comment begins with `#`. A mutation that names no file is of the file of the one before it.

A hook names its file, the place `in` it, which is a function, or a structure as `struct NAME`, and an anchor: `before`
or `behind` the one statement there that has these words in their order. A statement ends at `;`, `{` or `}`, comments
and strings aside. Without `in` the anchor is a line of the file, and without any anchor the text goes to its end. In C
the text stands between `#if BUILD_CAMEL` and `#endif`, unless it is an #include.
"""

import re
import shutil
import sys
from pathlib import Path

HERE = Path(__file__).resolve().parent
COPIES = {
    "msc_camel.c": "src/libvlr",
    "msc_camel_counters.c": "src/libvlr",
    "msc_camel_call.c": "src/libmsc",
    "msc_camel_vty.c": "src/libmsc",
    "msc_camel.h": "include/osmocom/msc",
    "msc_camel_core.h": "include/osmocom/msc",
    "msc_vlr_camel_claims.c": "tests/msc_vlr",
    "msc_vlr_camel_steps.c": "tests/msc_vlr",
    "msc_vlr_camel_steps.h": "tests/msc_vlr",
    "msc_vlr_camel_vty.c": "tests/msc_vlr",
    "msc_vlr_test_camel.c": "tests/msc_vlr",
    "msc_vlr_test_camel.ok": "tests/msc_vlr",
}
# Comments, strings, characters and lines of the preprocessor.
HIDDEN = re.compile(
    r"/\*.*?\*/|//[^\n]*|\"(?:\\.|[^\"\\\n])*\"|'(?:\\.|[^'\\\n])'|^[ \t]*#(?:\\\n|[^\n])*", re.M | re.S
)


def blocks(name):
    """The blocks of a file of this folder, each as its pairs of a key and a value."""
    block = []
    for line in (HERE / name).read_text().splitlines() + [""]:
        if line.startswith("#"):
            continue
        if line.startswith("|"):
            key, value = block[-1]
            block[-1] = key, value + line[1:] + "\n"
        elif line:
            key, _, value = line.partition(":")
            block.append((key, value.strip()))
        elif block:
            yield block
            block = []


def masked(text):
    """The text with blanks in the place of comments, strings and lines of the preprocessor."""
    return HIDDEN.sub(lambda hidden: re.sub(r"[^\n]", " ", hidden.group()), text)


def closing(text, opening):
    """The place of the brace that closes the one at `opening`."""
    depth = 0
    for brace in re.compile(r"[{}]").finditer(text, opening):
        depth += 1 if brace.group() == "{" else -1
        if depth == 0:
            return brace.start()
    return len(text)


def bodies(text, name):
    """Where the body of each function, or of each structure, of this name begins and ends."""
    if name.startswith("struct "):
        head = re.compile(r"\b" + r"\s+".join(map(re.escape, name.split())) + r"\s*\{")
    else:
        head = re.compile(r"^[A-Za-z_][\w \t*\n]*?\b" + re.escape(name) + r"\s*\([^;{}]*\)\s*\{", re.M)
    for found in head.finditer(text):
        yield found.end(), closing(text, found.end() - 1)


def statements(text, start, end):
    """Where each statement between two places begins and ends: a `;` within parentheses ends none."""
    begin, depth = start, 0
    for at in range(start, end):
        depth += {"(": 1, ")": -1}.get(text[at], 0)
        if text[at] in "{}" or (text[at] == ";" and depth == 0):
            yield begin, at + 1
            begin = at + 1


def has(text, words):
    """Whether the text has these words in their order."""
    return re.search(r".*?".join(rf"(?<!\w){re.escape(word)}(?!\w)" for word in words), text, re.S)


def start_of_line(text, at):
    return text.rfind("\n", 0, at) + 1


def end_of_line(text, at):
    return text.find("\n", at) + 1 or len(text)


def places(text, hook):
    """The places of the file at which the anchor of a hook is found: at each of them the text can go in."""
    if "in" not in hook and "before" not in hook and "behind" not in hook:
        return [len(text)]
    words = hook.get("before", hook.get("behind", "")).split()
    found = []
    if "in" not in hook:
        for line in re.finditer(r"[^\n]+", text):
            if has(line.group(), words):
                found.append(line.start() if "before" in hook else end_of_line(text, line.start()))
        return found
    hidden = masked(text)
    for start, end in bodies(hidden, hook["in"]):
        for begin, stop in statements(hidden, start, end):
            if has(hidden[begin:stop], words):
                first = begin + len(hidden[begin:stop]) - len(hidden[begin:stop].lstrip())
                found.append(start_of_line(text, first) if "before" in hook else end_of_line(text, stop - 1))
    return found


def conditional(path, text):
    """The text as it stands in the file: in C only for a build with CAMEL."""
    if path.suffix not in (".c", ".h") or text.startswith("#include"):
        return text
    return f"#if BUILD_CAMEL\n{text}#endif\n"


def put_hooks(source):
    """Changes the source, or says which anchors are not there exactly once, and exits with 1."""
    insertions, faults = {}, []
    for hook in map(dict, blocks("hooks")):
        path = source / hook["file"]
        found = places(path.read_text(), hook) if path.is_file() else []
        if len(found) == 1:
            insertions.setdefault(path, []).append((found[0], conditional(path, hook["text"])))
        else:
            anchor = ", ".join(f"{key} {hook[key]}" for key in ("in", "before", "behind") if key in hook)
            faults.append(f"{hook['file']}: {anchor}: found {len(found)} times")
    if faults:
        sys.exit("\n".join(faults) + "\nno file is changed")
    for path, texts in insertions.items():
        text = path.read_text()
        for at, added in sorted(texts, key=lambda pair: pair[0], reverse=True):
            text = text[:at] + added + text[at:]
        path.write_text(text)
    for name, folder in COPIES.items():
        shutil.copy(HERE / name, source / folder)
    print(f"{sum(map(len, insertions.values()))} hooks in {len(insertions)} files of osmo-msc")


def mutations():
    """The name, the file and the old and new texts of each mutation."""
    file = None
    for block in blocks("mutations"):
        file = dict(block).get("file", file)
        yield block[0][1], file, [value for key, value in block if key in ("old", "new")]


def mutate(name, target):
    """Writes a file of the glue with one mutation, each old text of which is there exactly once."""
    found = [(file, values) for named, file, values in mutations() if named == name]
    if len(found) != 1:
        sys.exit(f"mutations: {len(found)} of the name {name}")
    file, values = found[0]
    glue = (HERE / file).read_text()
    for old, new in zip(values[::2], values[1::2], strict=True):
        if glue.count(old) != 1:
            sys.exit(f"mutation {name}: its old text is {glue.count(old)} times in {file}:\n{old}")
        glue = glue.replace(old, new)
    Path(target).write_text(glue)


if sys.argv[1:2] == ["hooks"] and len(sys.argv) == 3:
    put_hooks(Path(sys.argv[2]))
elif sys.argv[1:] == ["mutations"]:
    print("\n".join(f"{file} {COPIES[file]} {name}" for name, file, _ in mutations()))
elif sys.argv[1:2] == ["mutate"] and len(sys.argv) == 4:
    mutate(sys.argv[2], sys.argv[3])
else:
    sys.exit(__doc__)
