"""The functions of a file that `rt fmt` has laid out, and what such a file states."""

import re
from typing import NamedTuple

HEAD = re.compile(r'( *)(?:pub(?:\([\w ]+\))? )?(?:(?:const|unsafe|extern "C") )*fn (\w+)')
METHODS = re.compile(r"impl(?:<.*?>)? (\w+)(?!.* for )")
# A comment, advice to the tactics and to the compiler, and the name of a file of definitions state nothing.
UNSTATED = re.compile(r"\s*(?://|--|#\[(?:tactic\(|inline)|(?:pub )?mod \w+$)")
IMPORT = re.compile(r"(?m)^ *(?:pub(?:\(crate\))? |unfoldable |ghost )*use ([^{;\n]+)(?:\{([^}]*?),?\s*\})?;?$")


class Function(NamedTuple):
    """A function of a file, the type that it is a method of, if so, and its lines from 0: the first one of its comments
    and attributes, its head, the brace before its body, and its end."""

    path: str
    type: str
    name: str
    first: int
    head: int
    brace: int
    last: int


def bodies_in(lines):
    """The head of each function that has a body, and the lines of its head, of the brace before it, and of its end."""
    for at, line in enumerate(lines):
        if head := HEAD.match(line):
            end = re.compile(rf"{head[1]}(?! ).*[{{;}}]$")
            ends = [below for below in range(at, len(lines)) if end.match(lines[below])][:2]
            if len(ends) == 2 and lines[ends[0]].endswith("{"):
                yield head, at, *ends


def functions_in(path, text):
    """The functions of a file, but for the methods of traits."""
    lines = text.split("\n")
    for head, at, brace, last in bodies_in(lines):
        block = next((line for line in reversed(lines[: at + 1]) if re.match(r"\S", line)), "")
        method = METHODS.match(block)
        if method or not head[1]:
            own = re.compile(rf"{head[1]}(?: |#|//|\)\])")
            first = next((above + 1 for above in range(at - 1, -1, -1) if not own.match(lines[above])), 0)
            yield Function(path, method[1] if head[1] else "", head[2], first, at, brace, last)


def imported(text):
    """The names that a file imports. In which file of its crate a definition stands says nothing."""
    for path, names in IMPORT.findall(text):
        crate = re.sub(r"(\.(?:specs|proofs)\.)\w+\.", r"\1", path, count=1)
        yield from (crate + name.strip() for name in names.split(","))


def stated(text):
    """What the text of a file states: what it imports, and its words but for bodies, comments and advice, paragraph by
    paragraph."""
    lines = text.split("\n")
    inside = {line for _, _, brace, last in bodies_in(lines) for line in range(brace + 1, last)}
    outside = "\n".join(line for at, line in enumerate(lines) if at not in inside and not UNSTATED.match(line))
    paragraphs = re.split(r"\n\s*\n", IMPORT.sub("", outside))
    return [*sorted({*imported(text)}), *filter(None, (" ".join(it.split()) for it in paragraphs))]
