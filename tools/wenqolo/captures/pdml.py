"""The trees of fields that tshark makes of a capture."""

import re
import subprocess
import tempfile
from xml.parsers import expat

CHUNK = 1 << 16
# What XML 1.0 has no place for, and tshark writes all the same, as in the text of a USSD.
NO_XML = re.compile("[^\t\n\r -\ud7ff\ue000-\ufffd\U00010000-\U0010ffff]")


class TsharkFailed(Exception):
    """What tshark says of a capture that it can't read, or can't read to its end."""


class Node:
    """A field of a tree: its name, its octets in hexadecimal, what it shows, what tshark says of it, and the fields in
    it."""

    __slots__ = ("name", "value", "show", "said", "inner")

    def __init__(self, attributes):
        self.name = attributes.get("name", "")
        self.value = attributes.get("value", "")
        self.show = attributes.get("show", "")
        self.said = attributes.get("showname", "")
        self.inner = []

    def octets(self):
        return bytes.fromhex(self.value)

    def integer(self):
        return int.from_bytes(self.octets(), "big", signed=True)

    def all(self, ending):
        """The fields directly in it whose names end so."""
        return [node for node in self.inner if node.name.endswith(ending)]

    def first(self, ending):
        return next(iter(self.all(ending)), None)

    def everywhere(self):
        """The fields in it, at whatever depth."""
        for node in self.inner:
            yield node
            yield from node.everywhere()

    def named(self, *names):
        """The first field in it, at whatever depth, that has one of these names."""
        return next((node for node in self.everywhere() if node.name in names), None)


class Trees:
    """Gathers the trees of packets. Of the fields below a protocol those of these names are kept, all if there are
    none."""

    def __init__(self, names):
        self.names, self.packets, self.open = names, [], []
        self.parser = expat.ParserCreate()
        self.parser.StartElementHandler, self.parser.EndElementHandler = self.start, self.end
        # tshark has each field without others in it on a line. Most are not kept, and it costs least not to parse them.
        kept = "|".join(map(re.escape, names))
        self.left_out = names and re.compile(rf'^ *<field name="(?!(?:{kept})")[^\n]*/>\n', re.M)

    def start(self, tag, attributes):
        if tag == "packet":
            self.open = [Node(attributes)]
        elif self.open:
            is_kept = tag == "proto" or not self.names or attributes.get("name") in self.names
            node = Node(attributes) if is_kept else self.open[-1]
            if is_kept:
                self.open[-1].inner.append(node)
            self.open.append(node)

    def end(self, tag):
        if self.open and tag == "packet":
            self.packets += self.open
        if self.open:
            self.open.pop()

    def parse(self, lines):
        """The trees of the packets that end in these lines."""
        lines = self.left_out.sub("", lines) if self.left_out else lines
        self.parser.Parse(NO_XML.sub("?", lines))
        packets, self.packets = self.packets, []
        return packets


def packets_of(output, names):
    """The trees of the packets in tshark's output, each as soon as it ends."""
    trees = Trees(names)
    try:
        while lines := output.read(CHUNK) + output.readline():
            yield from trees.parse(lines)
    except expat.ExpatError as fault:
        raise TsharkFailed(f"tshark writes what is no XML: {fault}") from None


def trees_of(capture, protocols, names=(), only=""):
    """The trees of the packets of a capture, as far as these protocols go, and those names if there are any. A filter
    of tshark may say which packets these are. What tshark says goes to a file, since nobody reads it before the end."""
    fields = ["-j", f"{protocols} text {' '.join(sorted(names))}"] if names else ["-J", protocols]
    words = ["tshark", "-n", "-r", capture, "-T", "pdml", *fields, *(["-Y", only] if only else [])]
    with (tempfile.TemporaryFile() as errors,
          subprocess.Popen(words, stdout=subprocess.PIPE, stderr=errors, encoding="utf-8", errors="replace") as tshark):
        try:
            yield from packets_of(tshark.stdout, frozenset(names))
        except BaseException:
            tshark.kill()
            raise
        if tshark.wait():
            errors.seek(0)
            # Others than these are warnings.
            said = [line for line in errors.read().decode(errors="replace").splitlines() if line.startswith("tshark: ")]
            raise TsharkFailed(said[-1] if said else f"tshark ends with status {tshark.returncode}")
