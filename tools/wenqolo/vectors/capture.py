"""A capture of what an HLR sends in the vectors, with what a VLR is expected to answer. A cancelLocation of each of its
subscribers comes before a vector, so that it begins without a record."""

from wenqolo.octets import encoding
from wenqolo.octets.ber import INTEGER, context, minimal, universal
from wenqolo.rules import OPERATIONS
from wenqolo.sent import packets
from wenqolo.sent.exchanges import HLR, VLR, location_update, version_of
from wenqolo.sent.transactions import (BEGIN, CONTINUE, END, REQUEST, RESPONSE, dialogue, error, invoke, message,
                                       result, wrapped)
from wenqolo.updates import Cancel

# What docs/MAP.md answers the HLR with: these are errors of MAP, and the other numbers are faults of the argument.
ERRORS = {5: 5, 35: 35, 36: 36, 407: 36, 409: 36}
MISTYPED_PARAMETER = b"\x81\x01\x02"
HLR_SIDE, VLR_SIDE = (HLR, VLR), (VLR, HLR)


def component_of(number, answer):
    """What the VLR answers an invoke with."""
    if answer == "accepted":
        return result(number)
    code = ERRORS.get(int(answer.split()[1]))
    if code:
        return error(number, code)
    return wrapped(context(4, []), minimal(universal(INTEGER, bytes([number]))) + MISTYPED_PARAMETER)


def operation_messages(transaction, operation, imsi, steps):
    """The messages of a dialogue in which the HLR sends so many operations, each with its answer."""
    for number, (octets, answer) in enumerate(steps, 1):
        component, answered = invoke(number, operation, octets), component_of(number, answer)
        is_first, is_last = number == 1, number == len(steps)
        portion, accepts = b"", b""
        if is_first:
            version = version_of(operation, octets)
            portion = dialogue(REQUEST, operation, version, imsi)
            accepts = dialogue(RESPONSE, operation, version)
        kind, own = (BEGIN, None) if is_first else (CONTINUE, transaction + 1)
        yield *HLR_SIDE, message(kind, transaction, own, portion, [component])
        kind, own = (END, None) if is_last else (CONTINUE, transaction + 1)
        yield *VLR_SIDE, message(kind, own, transaction, accepts, [answered])


def dialogues_of(steps):
    """The steps of each dialogue: a further operation is one of that before it."""
    found = []
    for step in steps:
        if step.word == "further":
            found[-1].append(step)
        elif step.word in ("register", *OPERATIONS):
            found.append([step])
    return found


def vector_messages(vector, transaction):
    """The messages of a vector: first its subscribers are cancelled."""
    imsis = dict.fromkeys(step.imsi() for step in vector.steps if step.word != "clear" and step.imsi())
    for imsi in imsis:
        octets = minimal(encoding.element_of(Cancel(imsi)))
        yield from operation_messages(transaction, "cancelLocation", "", [(octets, "accepted")])
        transaction += 2
    for steps in dialogues_of(vector.steps):
        if steps[0].word == "register":
            yield from location_update(transaction, steps[0].imsi())
        else:
            yield from operation_messages(transaction, OPERATIONS[steps[0].word], steps[0].imsi(),
                                          [(step.octets(), step.answer) for step in steps])
        transaction += 2


def write(vectors, path):
    """Writes the capture, and beside it the first frame of each vector with its place and its rule. Returns how many
    frames it has."""
    written, firsts = [], []
    for number, vector in enumerate(vectors, 1):
        firsts.append(f"{len(written) + 1} {vector.place} {vector.rule}\n")
        for parts in vector_messages(vector, 100 * number):
            written.append(packets.carried(len(written) + 1, *parts))
    path.write_bytes(packets.capture(packets.RAW_IP, written))
    path.with_suffix(".frames").write_text("".join(firsts))
    return len(written)
