r"""Cases: files NAME.case, each with the command line and the input of a run, and what the run leaves.

A line that begins with === is the header of a section, whose lines go on up to the next header:

    === run --limit 3   the words of the command line; its lines are standard input. Without words it may be left out
    === repeat 9        how often the program reads the input, if it is not once; it has no lines
    === output          standard output
    === allowed         the lines of sessions, which come before the last line of the output, and are not in it: each
                        with all texts that it may have, separated by ` | `
    === status 1        the status, if it is not 0, or anything is said: its lines are standard error

A word of the command line may have escapes, and '' is an empty one. What is not seen in lines is written by an escape,
in a section whose header says so: `=== escaped run`. Escapes are \r, \n, \t, \\ and \xNN; a line that ends with \ has
no line feed.
"""

import re
from dataclasses import dataclass, field

# The sections, and what may stand behind their names.
NAMES = {"run": r"(?: \S+)*", "output": "", "allowed": "", "status": r" [0-9]+", "repeat": r" [0-9]+"}
HEADER = re.compile(rf"=== (escaped )?({'|'.join(NAMES)})(.*)")
ESCAPE = re.compile(rb"\\(?:x([0-9a-f]{2})|(.?))")
ESCAPED = {b"r": b"\r", b"n": b"\n", b"t": b"\t", b"\\": b"\\"}
# The words of the command line of an example, or its limit, and the lines of its sessions.
PARTS = (".args", ".limit", ".allowed")


class Malformed(Exception):
    """A file that is no case: its path, the line, and the fault."""


@dataclass(frozen=True)
class Case:
    """A run, and what it leaves."""

    words: list
    input: bytes
    output: bytes
    error: bytes = b""
    allowed: list = ()
    status: int = 0
    repeat: int = 1

    def expected(self):
        """The lines of the output. The last text is what follows the last line feed: nothing, if all is well."""
        lines = self.output.split(b"\n")
        return lines[:-2] + self.allowed + lines[-2:] if self.allowed else lines

    def found(self, output):
        """The lines that a run has left. If the line of a session may be so, all of its texts stand for it."""
        lines = output.split(b"\n")
        of_sessions = [at for at, line in enumerate(lines) if line.startswith(b"session ")]
        for at, texts in zip(of_sessions, self.allowed):
            lines[at] = texts if lines[at] in texts.split(b" | ") else b"not allowed: " + lines[at]
        return lines

    def check(self, left):
        """Compares all that a run has left."""
        assert self.found(left.stdout) == self.expected()
        assert left.stderr.split(b"\n") == self.error.split(b"\n")
        assert left.returncode == self.status


def strays(folder, *suffixes):
    """The files of a folder of cases that no test would meet: those with another ending."""
    return [path.name for path in folder.iterdir() if path.is_file() and path.suffix not in suffixes]


@dataclass
class Section:
    """The words of a header, and the octets of the lines below it."""

    words: list = field(default_factory=list)
    is_escaped: bool = False
    octets: bytes = b""


def read_case(path):
    """The case of a file. It fails with Malformed."""
    sections = {}
    *lines, rest = path.read_bytes().split(b"\n")
    number = 0
    try:
        for number, line in enumerate(lines, 1):
            read_line(sections, line.decode())
        if rest:
            raise ValueError("the last line has no line feed")
        if "output" not in sections:
            raise ValueError("there is no section output")
    except ValueError as fault:
        raise Malformed(f"{path}:{number}: {fault}") from None
    run, output, allowed, status, repeat = (sections.get(name, Section()) for name in NAMES)
    numbers = [int(*section.words or [default]) for section, default in ((status, 0), (repeat, 1))]
    return Case(run.words, run.octets, output.octets, status.octets, lines_of(allowed.octets), *numbers)


def read_example(script):
    """The case of an example, which has a file for each part: NAME.csv, NAME.txt, and some of PARTS."""
    octets = [path.read_bytes() if (path := script.with_suffix(part)).exists() else b"" for part in PARTS]
    words, limit, allowed = map(lines_of, octets)
    if limit and not words:
        words = [b"--limit", *limit]
    return Case(words, script.read_bytes(), script.with_suffix(".txt").read_bytes(), allowed=allowed)


def read_line(sections, text):
    """Begins a section, or adds the octets of a line to the last one that was begun."""
    if not text.isprintable() or text.endswith(" "):
        raise ValueError(f"not all of it is seen, write it by an escape: {text!r}")
    if text.startswith("==="):
        header = HEADER.fullmatch(text)
        if not header or not re.fullmatch(NAMES[header[2]], header[3]):
            raise ValueError(f"no header of a section: {text!r}")
        is_escaped, name, words = header.groups()
        if name in sections or name == "run" and sections:
            raise ValueError(f"there is a section {name} before, or it is not the first one")
        words = [b"" if word == "''" else unescaped(word).removesuffix(b"\n") for word in words.split()]
        sections[name] = Section(words, bool(is_escaped))
        return
    name = next(reversed(sections), "run")
    if name == "repeat":
        raise ValueError("a line below a number")
    section = sections.setdefault(name, Section())
    section.octets += unescaped(text) if section.is_escaped else f"{text}\n".encode()


def unescaped(text):
    """The octets of a line with escapes."""

    def octets(escape):
        if escape[1]:
            return bytes.fromhex(escape[1].decode())
        if escape[2] not in ESCAPED:
            raise ValueError(f"no escape: {escape[0].decode()!r}")
        return ESCAPED[escape[2]]

    line, is_open = re.fullmatch(rb"((?:[^\\]|\\.)*)(\\?)", text.encode()).groups()
    return ESCAPE.sub(octets, line) + (b"" if is_open else b"\n")


def lines_of(octets):
    """The lines without their line feeds, which the last one may lack."""
    return octets.removesuffix(b"\n").split(b"\n") if octets else []
