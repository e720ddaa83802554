"""What a replay of a script on one thread leaves, beside what a replay with threads leaves."""

import re
from dataclasses import dataclass
from typing import NamedTuple, Optional

from support.fuzzing.csv_records import octets_before, records
from support.fuzzing.replays import Fault, replay, replay_with_threads

# The faults that a script may have. `Read` (206) is that of an input that cannot be read.
SCRIPT_FAULTS = (202, 203, 204, 205, 207)

# The form of each line. The groups are the numbers of an accepted update, of a publication, and of the front of a call.
LINE = re.compile(
    rb"""accepted\ (0|[1-9]\d*)
    |refused\ (?:5|35|36|101)
    |published\ (0|[1-9]\d*)
    |front\ (0|[1-9]\d*)\ (?:
        trigger\ (?:2|4|12|13|14)\ (?:0|[1-9]\d*)\ (?:[0-9a-f]{2}){1,9}\ (?:continue|release)
        |none\ (?:unknown|no-csi|not-armed|emergency|criteria)
    )""",
    re.VERBOSE,
)
SESSION_LINE = re.compile(rb"session (0|[1-9]\d*) call (0|[1-9]\d*) (front (0|[1-9]\d*) .*)")


@dataclass
class Call:
    """A call: its line, the front before it, and that of the next publication, or the same if none follows."""

    line: bytes
    before: int
    after: int


class OneThread:
    """The lines of an output, each of which has its form and the number that it has to have: the calls, those of other
    records, how many updates are accepted, and the front."""

    def __init__(self, lines):
        self.lines, self.calls, self.others, self.accepted, self.front = lines, [], [], 0, 0
        # The calls since the last publication.
        self.pending = []
        for line in lines:
            form = LINE.fullmatch(line)
            assert form, f"a line of no form: {line!r}"
            self.add(line, *form.groups())

    def add(self, line, accepted, published, front):
        if front is not None:
            expected, digits = self.front, front
            self.calls.append(Call(line, self.front, self.front))
            self.pending.append(self.calls[-1])
        else:
            self.others.append(line)
            self.accepted += accepted is not None
            expected, digits = self.accepted, accepted or published
        if published is not None:
            self.publish()
        assert digits is None or int(digits) == expected, f"another number than {expected}: {line!r}"

    def publish(self):
        self.front = self.accepted
        for call in self.pending:
            call.after = self.front
        self.pending = []

    def triggers(self):
        return sum(b" trigger " in call.line for call in self.calls)


class Ending(NamedTuple):
    """How both replays of a script ended: with a fault, or without one and with so many lines of some kinds."""

    fault: Optional[Fault]
    accepted: int = 0
    triggers: int = 0
    # Calls that a session answered over a later front than the one thread did.
    later: int = 0


def compare(script, options):
    """Replays a script in both ways. Returns how both ended, and what one thread left."""
    one = replay(script, options)
    several = replay_with_threads(script, options)
    assert one.fault == several.fault, f"one thread ends with {one.fault}, several with {several.fault}"
    lines = OneThread(one.lines())
    if one.fault is None:
        count = len(records(script))
        assert len(lines.lines) == count, f"{len(lines.lines)} lines of {count} records"
        later = check_sessions(script, lines, several.lines(), options)
        return Ending(None, lines.accepted, lines.triggers(), later), one
    assert not several.output, "with threads lines are written before a fault"
    check_stopped(script, one, options)
    return Ending(one.fault), one


def check_stopped(script, left, options):
    """Checks that what was written before a fault is the output of the records before the one with the fault."""
    number, code = left.fault
    assert code in SCRIPT_FAULTS and number is not None, f"no script has this: {left.fault}"
    assert len(left.lines()) + 1 == number, f"{len(left.lines())} lines before record {number}"
    before = octets_before(script, number)
    assert before is not None, f"there is no record {number}"
    assert replay(before, options) == (None, left.output), f"the records before record {number} give something else"


# With threads.


def check_sessions(script, one, lines, options):
    """Checks that these lines are those on one thread except for the calls, then the answers of the sessions, and then
    that the audit passed. Returns how many calls were answered over a later front than on one thread."""
    place, later = len(one.others), {}
    assert lines[:place] == one.others, "with threads another line of a record that is no call"
    for session in range(options.threads):
        numbers = range(session, len(one.calls), options.threads)
        answers = lines[place : place + len(numbers)]
        assert len(answers) == len(numbers), f"a call of session {session} without an answer"
        later.update(check_session(one, session, numbers, answers))
        place += len(numbers)
    assert lines[place:] == [b"audit ok"], f"behind the answers {lines[place : place + 3]}"
    if later:
        expected = answers_over_next_front(script, one, options)
        for number, answer in later.items():
            assert answer == expected[number], f"call {number}: another answer than one thread gives over this front"
    return len(later)


def check_session(one, session, numbers, answers):
    """Checks the answers of a session. Returns those over a later front than on one thread, by call number."""
    later, last = {}, 0
    for number, line in zip(numbers, answers):
        call, form = one.calls[number], SESSION_LINE.fullmatch(line)
        is_of_call = form and (int(form[1]), int(form[2])) == (session, number)
        assert is_of_call, f"not call {number} of session {session}: {line!r}"
        answer, front = form[3], int(form[4])
        assert front >= last, f"a session whose fronts go back: {line!r}"
        last = front
        assert front in (call.before, call.after), f"a front that is neither {call.before} nor {call.after}: {line!r}"
        if front != call.before:
            later[number] = answer
        else:
            assert answer == call.line, f"another answer than {call.line!r}: {line!r}"
    return later


def answers_over_next_front(script, one, options):
    """What one thread answers each call over the front of the next publication, by the number of the call. It replays
    the script with the calls before each publication repeated after it."""
    asked, places, pending = [], {}, []
    calls = 0
    for record, line in zip(records(script), one.lines):
        if line.startswith(b"published "):
            asked.append(b"publish\n")
            places.update({number: len(asked) + at for at, (number, _) in enumerate(pending)})
            asked += [call for _, call in pending]
            pending = []
            continue
        asked.append(record)
        if line.startswith(b"front "):
            pending.append((calls, record))
            calls += 1
    left = replay(b"".join(asked), options)
    lines = left.lines()
    assert (left.fault, len(lines)) == (None, len(asked)), f"with the calls repeated: {left.output[-600:]}"
    return {number: lines[place] for number, place in places.items()}
