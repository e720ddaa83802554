"""The dialogues of MAP in a capture: which operations each has, what answers them, and of which subscriber it is."""

from dataclasses import dataclass, field
from typing import NamedTuple

from wenqolo.captures.messages import TITLE, Message
from wenqolo.octets.components import ERROR, REJECT, REQUESTS, Invoke
from wenqolo.octets.encoding import Line

BEGIN, ENDS = "begin", ("end", "abort")

# What answers an operation, if it is no error, and why a request of the VLR has no answer, by what ends it.
DONE, REJECTED, ABORTED = "answered with a result", "answered with a reject", "its dialogue is aborted"
UNANSWERED = {"end": "its dialogue ends without an answer", "abort": ABORTED, "": "the capture has no answer"}

# A message that comes again within so many seconds was captured on two links. Of so many messages that is looked up.
AGAIN, RECENT = 1, 10000

@dataclass(slots=True)
class Operation:
    """An operation that is invoked: its line for the decoder, with the IMSI of its dialogue by then, whether the
    capture has the beginning of that, and what answers it: DONE, REJECTED, one of UNANSWERED, or an error by its name,
    with its code, and whether the capture lacks an operation before that. It is empty if nothing answers an operation
    of the HLR. Its number is that of a spool."""

    line: Line
    frame: int
    has_begin: bool
    answer: str = ""
    error: int | None = None
    has_gap: bool = False
    number: int = 0

    @property
    def name(self):
        return self.line.operation

    def is_insert(self):
        return self.name == "insertSubscriberData"

    def is_done(self):
        return self.answer == DONE


@dataclass(slots=True)
class End:
    """An end of a dialogue: its transaction id, if it is known, the names that messages give it, and whether it said
    that it can't read something, without an invoke id."""

    transaction: str = ""
    names: set = field(default_factory=set)
    has_rejected: bool = False

    def may_have(self, names):
        """Whether these may be names of this end. If both have global titles these say so."""
        ours, theirs = ({name for name in some if name[0] == TITLE} for some in (self.names, names))
        if not self.names or bool(ours) != bool(theirs):
            return True
        return not (ours or self.names).isdisjoint(theirs or names)


@dataclass(slots=True, eq=False)
class Dialogue:
    """The number of a dialogue, its ends, of which the first one began it if the capture has that, the first IMSI that
    an invoke of it has, and the one by which it was opened, whether it has an operation that counts here, and whether
    the capture lacks one that is answered. The operations without an answer, and the last ones, None if one doesn't
    count, by the place of the end that invoked it and its id. And under what it is entered."""

    number: int
    has_begin: bool
    ends: tuple
    imsi: str = ""
    opened_by: str = ""
    has_operation: bool = False
    has_gap: bool = False
    is_ended: bool = False
    asked: dict = field(default_factory=dict)
    invoked: dict = field(default_factory=dict)
    keys: set = field(default_factory=set)

    def receiver(self, message):
        """The place of the end to which a message goes."""
        if message.kind == BEGIN:
            return 1
        fitting = [place for place, end in enumerate(self.ends) if end.transaction == message.destination]
        if len(fitting) > 1:
            # Both ends took the same id.
            shared = [place for place in fitting if not self.ends[place].names.isdisjoint(message.called)]
            fitting = shared or [place for place in fitting if self.ends[place].names.isdisjoint(message.calling)]
        return fitting[-1] if fitting else 1

    def has_ids(self, message):
        """Whether a message to an end of this dialogue has the id of the other one, as far as both are known."""
        sender = self.ends[1 - self.receiver(message)]
        return not message.origin or sender.transaction in ("", message.origin)

    def may_have(self, message):
        """Whether a message may be of this dialogue, by the names of both ends and by their ids."""
        place = self.receiver(message)
        receiver, sender = self.ends[place], self.ends[1 - place]
        is_sender = not sender.transaction or sender.may_have(message.calling)
        return self.has_ids(message) and receiver.may_have(message.called) and is_sender


class Step(NamedTuple):
    """What comes in a frame: an operation, or what answers it; or without an operation the end of a dialogue that had
    some, or of the capture."""

    frame: int
    dialogue: int
    operation: Operation | None = None
    is_answer: bool = False

    def is_change(self):
        """Whether it is an operation of the HLR, which the decoder reads."""
        return bool(self.operation) and not self.is_answer and self.operation.name not in REQUESTS


class Dialogues:
    """The open dialogues, by their numbers, and by what a message to one of their ends names: its transaction id, with
    a name of the end, or with none; each with whether that is the surest name. And the messages of the last second,
    with the dialogue of each."""

    def __init__(self):
        self.count, self.open, self.entered, self.recent = 0, {}, {}, {}

    def new(self, message):
        self.count += 1
        ends = (End(message.origin), End(message.destination))
        dialogue = Dialogue(self.count, message.kind == BEGIN, ends, opened_by=message.imsi)
        self.open[dialogue.number] = dialogue
        return dialogue

    def enter(self, dialogue, end, transaction, names):
        """Has an end of a dialogue found by its transaction id."""
        if not transaction:
            return
        end.transaction = transaction
        end.names.update(names)
        for place, name in enumerate((*names, None)):
            dialogue.keys.add((name, transaction))
            dialogues = self.entered.setdefault((name, transaction), {})
            dialogues[dialogue] = dialogues.get(dialogue, False) or not place

    def close(self, dialogue):
        dialogue.is_ended = True
        del self.open[dialogue.number]
        for key in dialogue.keys:
            dialogues = self.entered[key]
            del dialogues[dialogue]
            if not dialogues:
                del self.entered[key]

    def only(self, name, message):
        """The dialogue that a message may be of by a name that is not sure, if it is the only one."""
        dialogues = self.entered.get((name, message.destination), ())
        found = next(iter(dialogues)) if len(dialogues) == 1 else None
        return found if found and found.may_have(message) else None

    def named(self, message):
        """The open dialogue of an end that a message names: the latest one by the surest name."""
        dialogues = self.entered.get((message.called[0], message.destination), {})
        latest = next(reversed(dialogues), None)
        if latest and dialogues[latest] and latest.has_ids(message):
            return latest
        return next(filter(None, (self.only(name, message) for name in message.called)), None)

    def begun(self, message):
        """The open dialogue of the end that sends a message, if it is not known what the other end is."""
        dialogues = self.entered.get((message.calling[0], message.origin), {})
        latest = next(reversed(dialogues), None)
        is_open = latest and dialogues[latest] and latest.has_begin and not latest.ends[1].transaction
        return latest if is_open and latest.ends[0].transaction == message.origin else None

    def again(self, message):
        """What a message is told by, and the dialogue of an equal one in the second before it, or None."""
        key = (message.kind, message.origin, message.destination, tuple(message.components))
        while self.recent:
            first = next(iter(self.recent))
            if abs(message.time - self.recent[first][0]) <= AGAIN and len(self.recent) < RECENT:
                break
            del self.recent[first]
        return key, self.recent.pop(key, (0, None))[1]

    def of(self, message):
        """The dialogue of a message: a new one at its beginning, and for a message whose dialogue is not known. None,
        if it came before on another link."""
        key, before = self.again(message)
        if message.kind == BEGIN:
            dialogue = None if before and not before.is_ended else self.new(message)
        else:
            dialogue = self.named(message)
            if not dialogue and not before:
                dialogue = self.begun(message) or self.only(None, message) or self.new(message)
        self.recent[key] = (message.time, dialogue or before)
        if dialogue:
            place = dialogue.receiver(message)
            self.enter(dialogue, dialogue.ends[1 - place], message.origin, message.calling)
            self.enter(dialogue, dialogue.ends[place], message.destination, message.called)
        return dialogue


def answer_text(message, answer):
    """What an answer is: DONE, REJECTED, or an error by its name, and if tshark has none by its code."""
    if answer.kind == ERROR:
        return f"answered with {message.errors.get(answer.code, f'error {answer.code}')}"
    return REJECTED if answer.kind == REJECT else DONE


def invoked(message, dialogue, place, invoke):
    """The step of an invoke of the end at this place, or None if it is of no operation that counts here, or came before
    and was not refused."""
    dialogue.imsi = dialogue.imsi or invoke.imsi
    key, line = (place, invoke.number), Line(invoke.operation, dialogue.imsi or dialogue.opened_by, invoke.argument)
    before = dialogue.invoked.get(key)
    if not invoke.operation:
        dialogue.invoked[key] = None
    if not invoke.operation or before and before.line._replace(imsi=line.imsi) == line and before.answer in ("", DONE):
        return None
    dialogue.has_operation = True
    operation = Operation(line, message.frame, dialogue.has_begin)
    dialogue.asked[key] = dialogue.invoked[key] = operation
    return Step(message.frame, dialogue.number, operation)


def answered(message, dialogue, place, answer):
    """The step of an answer of the end at this place, or None if it answers no operation that counts here."""
    key = (1 - place, answer.number)
    if not answer.number:
        dialogue.ends[place].has_rejected = True
    elif key not in dialogue.invoked:
        dialogue.has_gap = True
    operation = dialogue.asked.pop(key, None)
    if not operation:
        return None
    operation.answer, operation.error = answer_text(message, answer), answer.code if answer.kind == ERROR else None
    operation.has_gap = dialogue.has_gap
    return Step(message.frame, dialogue.number, operation, is_answer=True)


def unanswered(frame, dialogue, kind, ending=None):
    """The steps of the operations that have no answer where an end ends their dialogue, or with no frame the capture
    ends: the VLR's requests, and what the other end aborted or could not read."""
    for (place, _), operation in dialogue.asked.items():
        if dialogue.ends[1 - place].has_rejected:
            operation.answer = REJECTED
        elif operation.name in REQUESTS or kind == "abort" and ending != place:
            operation.answer = UNANSWERED[kind]
        if operation.answer:
            yield Step(frame or operation.frame, dialogue.number, operation, is_answer=True)
    dialogue.asked.clear()


def steps_of_message(dialogues, message):
    """What a message asks and answers, and the end of its dialogue."""
    dialogue = dialogues.of(message)
    if not dialogue:
        return
    sender = 1 - dialogue.receiver(message)
    for component in message.components:
        step = (invoked if isinstance(component, Invoke) else answered)(message, dialogue, sender, component)
        if step:
            yield step
    if message.kind in ENDS:
        dialogues.close(dialogue)
        yield from unanswered(message.frame, dialogue, message.kind, sender)
        if dialogue.has_operation:
            yield Step(message.frame, dialogue.number)


def steps_of(readings):
    """What the messages ask and answer, in their order, and where each dialogue ends, and the capture; and what can't
    be read. An operation that is answered later has its answer when all steps are taken."""
    dialogues, frame = Dialogues(), 0
    for reading in readings:
        frame = reading.frame
        if isinstance(reading, Message):
            yield from steps_of_message(dialogues, reading)
        else:
            yield reading
    for dialogue in dialogues.open.values():
        yield from unanswered(None, dialogue, "")
    yield Step(frame, 0)
