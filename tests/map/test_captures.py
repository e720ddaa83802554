"""tools/map2script over the kept capture, whose scripts and errors are kept too, and over captures and machines that a
converter meets beside it."""

import os
import shutil
import struct
import subprocess
import sys
import tracemalloc
from pathlib import Path
from typing import NamedTuple

import pytest
from support.map_checking.dissection import marks_of
from support.map_checking.programs import CHECK, REPLAY, output_of
from support.processes import LIMIT
from wenqolo.captures.dialogues import Dialogues, steps_of, steps_of_message
from wenqolo.captures.messages import TITLE, Message, readings_in
from wenqolo.captures.pdml import trees_of
from wenqolo.captures.spools import Spool
from wenqolo.octets.components import Invoke
from wenqolo.sent import packets, sample
from wenqolo.sent.exchanges import argument, location_update, outgoing_rows
from wenqolo.sent.transactions import invoke
from wenqolo.updates import Insert

pytestmark = [pytest.mark.needs("tshark"), pytest.mark.usefixtures("map_check", "replay")]

FOLDER = Path(__file__).resolve().parent
CAPTURE, SAID, TOOL = FOLDER / "dialogues.pcap", FOLDER / "dialogues.txt", FOLDER.parents[1] / "tools/map2script"
# How many operations and messages it has, and the status of what is cut off, or with --strict gives no record.
OPERATIONS, MESSAGES, PARTIAL, ENDED = 65, 136, 1, 2
SUMMARY = "map2script: {} records; {} of {} operations gave none; {} packets can't be read\n"
# Octets before the first packet of a capture, and before the protocol in a header of IP.
HEADER, IP_PROTOCOL = 24, 9
INSERT = Insert("262010000000001", outgoing_rows(700), False)

# A number that the criteria of the first subscriber list.
LISTED = "919421436587"
# What calls are decided over either script. The first subscriber's are as the last location update left them that was
# neither refused nor aborted. The others have a record no more, or never had one.
CALLS = {
    f"call,2,262010000000001,t11,{LISTED},n": "trigger 2 100 919471160000 continue",
    f"call,4,262010000000001,t11,{LISTED},n,17": "trigger 4 101 919471160000 release",
    "call,12,262010000000001,t11": "none no-csi",
    f"call,2,262010000000002,t11,{LISTED},n": "none unknown",
    f"call,2,262010000000003,t11,{LISTED},n": "none unknown",
    f"call,2,262010000000004,t11,{LISTED},n": "none unknown",
    f"call,2,262010000000006,t11,{LISTED},n": "none unknown",
    f"call,2,262010000000008,t11,{LISTED},n": "none unknown",
    f"call,2,262010000000100,t11,{LISTED},n": "trigger 2 100 919471160000 continue",
    f"call,4,262010000000100,t11,{LISTED},n,19": "none criteria",
    f"call,4,262010000000101,t11,{LISTED},n,19": "none criteria",
    f"call,2,262010000000102,t11,{LISTED},n": "trigger 2 710 919471160000 continue",
    f"call,2,262010000000103,t11,{LISTED},n": "trigger 2 720 919471160000 continue",
    f"call,2,262010000000104,t11,{LISTED},n": "trigger 2 721 919471160000 continue",
    f"call,4,262010000000105,t11,{LISTED},n,18": "trigger 4 101 919471160000 release",
    f"call,2,262010000000106,t11,{LISTED},n": "trigger 2 734 919471160000 continue",
    f"call,2,262010000000107,t11,{LISTED},n": "trigger 2 735 919471160000 continue",
    f"call,2,262010000000108,t11,{LISTED},n": "trigger 2 737 919471160000 continue",
    f"call,2,262010000000109,t11,{LISTED},n": "trigger 2 738 919471160000 continue",
    f"call,2,262010000000110,t11,{LISTED},n": "none unknown",
    f"call,2,262010000000111,t11,{LISTED},n": "none unknown",
    f"call,2,262010000000112,t11,{LISTED},n": "trigger 2 740 919471160000 continue",
}
# Who registered before the capture has a record only if it is assumed.
EARLIER, ALSO_EARLIER = (f"call,2,26201000000000{last},t11,{LISTED},n" for last in (5, 7))
# Of each kept script the options, how many records it has, and its calls.
SCRIPTS = {
    "dialogues.csv": ([], 67, CALLS | {EARLIER: "none unknown", ALSO_EARLIER: "none unknown"}),
    "dialogues-assumed.csv": (
        ["--frames", "--assume-registered"],
        69,
        CALLS | {EARLIER: "trigger 2 600 919471160000 continue", ALSO_EARLIER: "none no-csi"},
    ),
}


class Ended(NamedTuple):
    """The end of the tool over a capture: its status, the lines of the script, and what is said."""

    status: int
    script: list
    said: str


def converted(capture, *options, path=(), stdout=subprocess.PIPE):
    """Runs the tool. These folders come before those in which programs are looked for."""
    environment = os.environ | {"PATH": os.pathsep.join([*map(str, path), os.environ["PATH"]])}
    words = [sys.executable, TOOL, "--check", CHECK, *options, capture]
    ended = subprocess.run(words, stdout=stdout, stderr=subprocess.PIPE, text=True, env=environment, timeout=LIMIT,
                           check=False)
    assert "Traceback" not in ended.stderr
    return Ended(ended.returncode, (ended.stdout or "").splitlines(), ended.stderr)


@pytest.fixture(name="whole", scope="module")
def fixture_whole():
    return converted(CAPTURE)


@pytest.fixture(name="path")
def fixture_path(tmp_path):
    return tmp_path / "capture.pcap"


def test_writer_writes_the_kept_capture():
    assert sample.capture() == CAPTURE.read_bytes()


def test_tshark_marks_nothing_in_the_kept_capture():
    marks = [marks_of(packet) for packet in trees_of(str(CAPTURE), "m3ua sua sccp tcap gsm_map")]
    assert marks == [frozenset()] * MESSAGES


@pytest.mark.parametrize("name", SCRIPTS)
def test_script_of_the_kept_capture_is_the_kept_one_and_decides_calls(name):
    options, count, calls = SCRIPTS[name]
    said = SAID.read_text() + SUMMARY.format(count, len(SAID.read_text().splitlines()), OPERATIONS, 0)
    script = (FOLDER / name).read_text().splitlines()
    assert converted(CAPTURE, *options) == (0, script, said)
    assert converted(CAPTURE, *options, "--strict") == (PARTIAL, script, said)
    records = [line for line in script if not line.startswith("#")]
    lines = output_of([REPLAY], "\n".join([*records, *calls])).splitlines()[len(records) :]
    assert {call: line.split(" ", 2)[-1] for call, line in zip(calls, lines, strict=True)} == calls


# Captures that are cut, empty or long.


def records_of(octets):
    """The packets of a capture, each with the time at which it came."""
    at, found = HEADER, []
    while at < len(octets):
        seconds, micros, kept, _ = struct.unpack_from("<IIII", octets, at)
        found.append(((seconds, micros), octets[at + 16 : at + 16 + kept]))
        at += 16 + kept
    return found


def written(records, most=1 << 16):
    """A capture of these packets, of which so many octets are kept."""
    return CAPTURE.read_bytes()[:HEADER] + b"".join(
        struct.pack("<IIII", *time, min(len(packet), most), len(packet)) + packet[:most] for time, packet in records)


# In 16 and 28 octets nothing shows that a packet is of SCTP.
@pytest.mark.parametrize("most", (16, 28, 60, 120, 150))
def test_each_packet_that_is_cut_is_named_and_no_other(most, path):
    records = records_of(CAPTURE.read_bytes())
    path.write_bytes(written(records, most))
    ended = converted(path)
    told = [line for line in ended.said.splitlines() if "the packet can't be read" in line]
    said = "map2script: frame {}: the packet can't be read: only {} of its {} octets are in the capture"
    lengths = [(number, len(packet)) for number, (_, packet) in enumerate(records, 1)]
    assert told == [said.format(number, most, length) for number, length in lengths if length > most]
    assert ended.status == PARTIAL


def test_cut_packet_of_another_protocol_is_not_named(path):
    (time, packet), *_ = records_of(CAPTURE.read_bytes())
    path.write_bytes(written([(time, packet[:IP_PROTOCOL] + b"\x06" + packet[IP_PROTOCOL + 1 :])], 30))
    assert converted(path) == (0, [], SUMMARY.format(0, 0, 0, 0))


def written_insert(path, at, octet):
    """Writes a capture of a location update, in whose insert the component has another octet at this place."""
    component = invoke(1, "insertSubscriberData", argument(INSERT))
    begin, (sender, receiver, octets), *rest = location_update(1, INSERT.imsi, [(INSERT, None)])
    at += octets.index(component)
    messages = [begin, (sender, receiver, octets[:at] + bytes([octet]) + octets[at + 1 :]), *rest]
    carried = [packets.carried(number, *parts) for number, parts in enumerate(messages, 1)]
    path.write_bytes(packets.capture(packets.RAW_IP, carried))


@pytest.mark.parametrize("at, octet, why", [(0, 0x05, "its TCAP message is malformed"), (1, 0x7F, "it is malformed")],
                         ids=["no_component", "component_without_an_end"])
def test_malformed_packet_is_named(at, octet, why, path):
    written_insert(path, at, octet)
    ended = converted(path)
    assert f"map2script: frame 2: the packet can't be read: {why}" in ended.said.splitlines()
    assert (ended.status, ended.script) == (PARTIAL, [])


def test_malformed_argument_is_a_fault_of_its_operation(path):
    written_insert(path, len(invoke(1, "insertSubscriberData", b"")) + 1, 0x7F)
    ended = converted(path)
    said = "map2script: frame 2: insertSubscriberData: malformedOctets at octet 2 of the argument\n"
    assert ended == (0, [], said + SUMMARY.format(0, 1, 2, 0))


def test_capture_that_is_cut_off_gives_what_is_whole(path):
    octets = CAPTURE.read_bytes()
    path.write_bytes(octets[:-10])
    short = converted(path)
    path.write_bytes(written(records_of(octets)[:-1]))
    assert (short.status, short.script) == (PARTIAL, converted(path).script)
    assert "what follows can't be read" in short.said


def test_packets_that_come_twice_give_the_same_script(path, whole):
    path.write_bytes(written([record for record in records_of(CAPTURE.read_bytes()) for _ in range(2)]))
    assert converted(path)[:2] == (0, whole.script)


@pytest.mark.parametrize("octets", (b"", b"no", b"no capture, and longer than the head of one"))
def test_what_is_no_capture_gives_nothing(octets, path):
    path.write_bytes(octets)
    assert converted(path)[:2] == (ENDED, [])


def test_name_of_a_capture_is_printed_with_escapes(tmp_path):
    path = tmp_path / "red\x1b[31m"
    path.touch()
    assert converted(path) == (ENDED, [], f"map2script: {tmp_path}/red\\x1b[31m is too short for a capture\n")


def peak_of(path, count):
    """The most memory that is taken while a capture is read of so many location updates."""
    messages = [parts for number in range(count) for parts in location_update(
        number, f"26202{number:010}", [(Insert(f"26202{number:010}", {}, False), None)])]
    carried = [packets.carried(number, *parts) for number, parts in enumerate(messages, 1)]
    path.write_bytes(packets.capture(packets.RAW_IP, carried))
    tracemalloc.start()
    for _ in Spool(steps_of(readings_in(str(path)))).steps():
        pass
    _, peak = tracemalloc.get_traced_memory()
    tracemalloc.stop()
    return peak


def test_memory_does_not_grow_with_the_messages(path):
    assert peak_of(path, 1200) <= 1.5 * peak_of(path, 300)


def instructions_of(count):
    """How many instructions it takes to end so many dialogues, while as many others are open."""
    dialogues, names, taken = Dialogues(), ((TITLE, "1"),), 0

    def message(number, kind, origin="", destination="", components=()):
        return Message(number, number / 1000, kind, names, names, origin, destination, components, {}, "")

    def trace(frame, event, _):
        nonlocal taken
        frame.f_trace_opcodes, frame.f_trace_lines = True, False
        taken += event == "opcode"
        return trace

    for number in range(2 * count):
        asked = Invoke(b"\1", "updateLocation", "26201", b"")
        assert [*steps_of_message(dialogues, message(number, "begin", str(number), components=(asked,)))]
    sys.settrace(trace)
    for number in range(count):
        steps = [*steps_of_message(dialogues, message(2 * count + number, "end", destination=str(number)))]
    sys.settrace(None)
    assert len(steps) == 2 and len(dialogues.open) == count
    return taken


def test_end_of_a_dialogue_goes_through_no_others():
    assert instructions_of(160) <= 4.1 * instructions_of(40)


# Machines with another tshark, or a full disk.


@pytest.fixture(name="with_tshark")
def fixture_with_tshark(tmp_path):
    """Returns how the tool ends with a tshark that does this in a shell."""

    def ended(text):
        program = tmp_path / "tshark"
        program.write_text("#!/bin/sh\n" + text.format(tshark=f'{shutil.which("tshark")} "$@"') + "\n")
        program.chmod(0o755)
        return converted(CAPTURE, path=[tmp_path])

    return ended


def test_tshark_that_says_much_changes_nothing(with_tshark, whole):
    assert with_tshark("head -c 1000000 /dev/zero >&2\nexec {tshark}")[:2] == (0, whole.script)


def test_tshark_that_a_signal_ends_gives_what_came_before(with_tshark, whole):
    ended = with_tshark("{tshark} | head -c 400000\nkill -9 $$")
    assert ended.status == PARTIAL and 0 < len(ended.script) < len(whole.script)
    assert ended.script == whole.script[: len(ended.script)]


def test_tshark_that_a_signal_ends_at_once_gives_nothing(with_tshark):
    assert with_tshark("kill -9 $$")[:2] == (ENDED, [])


def test_full_disk_is_named():
    with open("/dev/full", "w") as full:
        ended = converted(CAPTURE, stdout=full)
    assert ended.status == ENDED and "No space left on device" in ended.said
