"""Updates of subscriber data as values, and the records of scripts that they must decode to."""

from dataclasses import dataclass, field, replace

O_POINTS, T_POINTS = (2, 4), (12, 13, 14)

# What a list prints if it came with items of which each is ignored.
IGNORED = {"o": "o:255:0:00:0", "oc": "oc:255::::", "t": "t:255:0:00:0", "tc": "tc:255::"}

# The lists that are CSIs, and the greatest number that is told apart.
CSIS, GREATEST = ("o", "t"), 2**32 - 1

# The bits of specificCSI-Withdraw, from 0, by what a record calls their CSI.
BITS = {"o": 0, "vt": 4}


@dataclass
class Row:
    point: int
    key: int
    address: bytes
    handling: int


@dataclass
class NumberCriterion:
    """The match type is 0 (inhibiting) or 1 (enabling). A list is None if it is not there."""

    match_type: int
    numbers: list | None
    lengths: list | None


@dataclass
class Entry:
    """A basic service is its tag, 2 (bearer service) or 3 (teleservice), and its octets. A cause is an octet. The call
    type is 0 (forwarded) or 1 (not forwarded). What is not there is None."""

    point: int
    number: NumberCriterion | None = None
    basics: list | None = None
    call_type: int | None = None
    causes: list | None = None


@dataclass
class Insert:
    """The lists by the names of their items: o, oc, t, tc. A list that is not there has no name here. So have the
    camelCapabilityHandlings of the CSIs, o and t."""

    imsi: str
    lists: dict = field(default_factory=dict)
    shows_imsi: bool = True
    capabilities: dict = field(default_factory=dict)


@dataclass
class Delete:
    """The bits of specificCSI-Withdraw are a text of 0 and 1, or None if the field is not there."""

    imsi: str
    everything: bool = False
    bits: str | None = None


@dataclass
class Cancel:
    """The version is that of the operation, and says which form the argument has."""

    imsi: str
    version: int = 3
    with_lmsi: bool = False


OPERATIONS = {Insert: "insertSubscriberData", Delete: "deleteSubscriberData", Cancel: "cancelLocation"}


def points_of(name):
    """The detection points that count in the list of this name."""
    return O_POINTS if name.startswith("o") else T_POINTS


def is_release(handling):
    return handling == 1 or handling > 31


def row_text(name, row):
    return f"{name}:{row.point}:{row.key}:{row.address.hex()}:{row.handling}"


def number_text(number):
    if number is None:
        return ""
    numbers = "+".join(listed.hex() for listed in number.numbers or ())
    return f"{'ie'[number.match_type]}/{numbers}/{'+'.join(map(str, number.lengths or ()))}"


def entry_text(name, entry):
    basics = "+".join(f"{'bt'[tag - 2]}{octets[0]:02x}" for tag, octets in entry.basics or ())
    causes = "+".join(str(cause & 127) for cause in entry.causes or ())
    if name == "tc":
        return f"tc:{entry.point}:{basics}:{causes}"
    call_type = "" if entry.call_type is None else "fn"[entry.call_type]
    return f"oc:{entry.point}:{number_text(entry.number)}:{basics}:{call_type}:{causes}"


def item_text(name, item):
    return row_text(name, item) if name in CSIS else entry_text(name, item)


def list_texts(name, items):
    """The texts of the items that count, or that of a list of which all are ignored."""
    kept = [item for item in items if item.point in points_of(name)]
    if name in CSIS:
        kept = [replace(row, handling=int(is_release(row.handling))) for row in kept]
    return [item_text(name, item) for item in kept] or [IGNORED[name]]


def bits_of(named):
    """The bits of specificCSI-Withdraw, of which those of the named CSIs are set."""
    set_bits = [BITS[what] for what in named]
    return "".join("01"[at in set_bits] for at in range(8))


def withdrawn(delete):
    """What a delete names: CSIs, and all."""
    bits = delete.bits or ""
    return [what for what, at in BITS.items() if bits[at : at + 1] == "1"] + ["all"] * delete.everything


def record_of(update):
    """The record of a script that the update decodes to."""
    if isinstance(update, Cancel):
        return f"cancel,{update.imsi}"
    if isinstance(update, Delete):
        # A delete that names nothing has no record of its own, and changes as little as an insert of nothing.
        named = withdrawn(update)
        return ",".join(["delete" if named else "insert", update.imsi, *named])
    texts = [text for name in IGNORED if name in update.lists for text in list_texts(name, update.lists[name])]
    return ",".join(["insert", update.imsi, *texts])


def lists_of(update):
    """How many items each list of an update came with, and the camelCapabilityHandling of each CSI."""
    lists, capabilities = getattr(update, "lists", {}), getattr(update, "capabilities", {})
    counts = [str(len(lists.get(name, ()))) for name in IGNORED]
    return " ".join(counts + [str(min(capabilities[name], GREATEST)) if name in capabilities else "-" for name in CSIS])


def text_of(update):
    """The record of an update, and what came beside it."""
    return f"{record_of(update)} {lists_of(update)}"


def joined(earlier, later):
    """One insert with the lists of two: the later one's rows stand, and its criteria are behind those of the other."""
    lists = earlier.lists | later.lists
    for name in lists.keys() & {"oc", "tc"}:
        lists[name] = earlier.lists.get(name, []) + later.lists.get(name, [])
    return Insert(earlier.imsi, lists, earlier.shows_imsi, earlier.capabilities | later.capabilities)
