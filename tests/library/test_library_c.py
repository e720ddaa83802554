"""The library in C: programs that fail if a call does something else than the header says, the examples, and the names
that both libraries have."""

import os
import random
import re
import shutil
import subprocess
from itertools import count, islice

import pytest

from support.compiling import TOP, compiler_of, output
from support.tools import command_of
from wenqolo.drawn.lines import line_of, mutated_line
from wenqolo.drawn.styles import STYLES
from wenqolo.drawn.updates import draw_list, draw_update
from wenqolo.octets.ber import length_octets
from wenqolo.octets.encoding import TAGS, list_element

pytestmark = pytest.mark.needs("cc", "nm")
PROGRAMS = "bools commit counts ending imsis inline layouts names receipts records seeds statuses updates"
STYLED = [*STYLES.values()]
OPERATIONS = {"insertSubscriberData": 7, "deleteSubscriberData": 8, "cancelLocation": 3}
# What is no line of a dump, and why it is refused.
NO_LINES = {
    "26201,300a80084f4f4f4f4f4f4f4f": "UNEXPECTED_DATA_VALUE",
    "26201": "MALFORMED",
    "26201,30x0": "MALFORMED",
    "26201,300": "MALFORMED",
    "26201,": "MISSING_FIELD",
    "26201,3001": "MALFORMED_OCTETS",
    "2620x,3000": "MALFORMED",
    "26201,300580036220f2": "OTHER_IMSI",
    "26201,3000ff": "MALFORMED_OCTETS",
}
RACES = ["-g", "-fsanitize=thread"]
# A pointer that is to no handle does not compile here, nor a move between handles of two kinds.
KINDS = """#include "camel.h"
void use(camel_store *store, camel_session *session, camel_imsi *imsi);
void use(camel_store *store, camel_session *session, camel_imsi *imsi)
{
    camel_free(store), camel_free(session), (void)imsi;
    %s
}
"""
OTHER_KINDS = ["camel_free((void *)store);", "camel_free(imsi);", "(void)camel_move(store, session);"]


@pytest.mark.parametrize("name", PROGRAMS.split())
def test_program(name, compiled):
    output(compiled(f"tests/library/{name}.c"))


def drawn_records(source):
    """Lines IMSI,HEX, each of another subscriber, whose lists are of those that are drawn, in any style: of each CSI
    none, rows, or rows and criteria. The IMSIs of each count of digits go through their values in steps."""
    lists = {name: [source.choice(STYLED).octets(source, list_element(name, draw_list(source, name)))
                    for _ in range(500)] for name in TAGS}
    numbers = count()
    while True:
        names = [name for csi in (("o", "oc"), ("t", "tc")) for name in csi[: source.choice((0, 1, 2, 2))]]
        content = b"".join(source.choice(lists[name]) for name in names)
        content = b"\xad" + length_octets(len(content)) + content
        if len(content) <= 1194:
            number, digits = divmod(next(numbers), 11)
            imsi = f"{number * 99991 % 10**(5 + digits):0{5 + digits}}"
            yield f"{imsi},{(b'0' + length_octets(len(content)) + content).hex()}"


def test_restart(compiled, tmp_path):
    """The first store is made of drawn records, behind lines that are none, and before one that is not ended."""
    lines = [*NO_LINES, *islice(drawn_records(random.Random("restart")), 100000), "26203,3000"]
    dumps = [tmp_path / "dump", tmp_path / "again"]
    said = output(compiled("tests/library/restart.c"), "11", "1", *dumps, input="\n".join(lines))
    refused = re.findall(r"^line (\d+) is refused: CAMEL_(\w+)$", said, re.M)
    wanted = [*enumerate(NO_LINES.values(), 1), (len(lines), "MALFORMED")]
    assert refused == [(f"{number}", status) for number, status in wanted]
    one, other = (sorted(dump.read_text().splitlines()) for dump in dumps)
    assert one == other
    assert [line.split(",")[0] for line in one] == sorted(line.split(",")[0] for line in lines[len(NO_LINES) : -1])


@pytest.mark.parametrize("name", ["names", "statuses", "updates"])
def test_program_over_the_shared_library(name, compiled, library):
    shared = library / "libwenqolo.so"
    output(compiled(f"tests/library/{name}.c", f"-Wl,-rpath,{library}", archive=shared))


@pytest.mark.parametrize("compiler", filter(shutil.which, ["gcc", "clang"]))
def test_null(compiler, compiled, monkeypatch):
    """What a compiler takes as known behind a call is its own matter: each one that there is compiles this."""
    monkeypatch.setenv("CC", compiler)
    output(compiled("tests/library/nulls.c"))


def test_stack_that_a_call_takes_at_most(compiled):
    page = " ".join((TOP / "docs/LIBRARY.md").read_text().split())
    said = re.search(r"call takes at most (\d+) KB of its \D* of 64 sessions (\d+) KB:", page)
    output(compiled("tests/library/stack.c", "-Wl,-z,now"), *(f"{int(number) * 1024}" for number in said.groups()))


@pytest.mark.parametrize("statement", ["", *OTHER_KINDS])
def test_handle_of_another_kind_does_not_compile(statement, library, tmp_path):
    (tmp_path / "kinds.c").write_text(KINDS % statement)
    command = [*compiler_of("kinds.c"), f"-I{library}", "-c", "kinds.c"]
    done = subprocess.run(command, cwd=tmp_path, capture_output=True, text=True, check=False)
    assert (done.returncode != 0) == bool(statement), done.stderr


@pytest.mark.parametrize("name", ["switch", "event_loop"])
def test_example(name, compiled, sanitizers):
    text = (TOP / f"tests/library/{name}.txt").read_text()
    assert output(compiled(f"examples/{name}.c", *sanitizers), input=text) == text


def test_measured_event_loop_triggers(compiled):
    """Each call of it has to trigger. The times are not looked at."""
    output(compiled("bench/event_loop.c"), "1000")


@pytest.fixture
def functions(library):
    """The functions that the library has: those that the header declares, and has not in itself."""
    return re.findall(r"^(?:camel_status|uint32_t|void) (camel_[a-z_]+)\(", (library / "camel.h").read_text(), re.M)


def test_archive_has_the_functions_of_the_header_only(library, functions):
    lines = output("nm", "--extern-only", "--defined-only", library / "libwenqolo.a").splitlines()
    assert sorted(line.split()[2] for line in lines if len(line.split()) == 3) == sorted(functions)


def test_shared_library_has_the_functions_of_the_header_only(library, functions):
    lines = [line.split() for line in output("nm", "-D", "--defined-only", library / "libwenqolo.so").splitlines()]
    names = [name.rstrip(".0123456789") for _, kind, name in lines if kind != "A"]
    assert sorted(names) == sorted(f"{name}@@WENQOLO_" for name in functions)


def test_shared_library_of_the_whole_archive(library, tmp_path):
    """Its code has no relocation, and no name that the C library lacks."""
    archive = ["-Wl,--whole-archive", library / "libwenqolo.a", "-Wl,--no-whole-archive"]
    output(*command_of("cc"), "-shared", "-Wl,-z,text,-z,defs", "-o", tmp_path / "shared.so", *archive)


def drawn_arguments(seed, arguments):
    """The items of an array in C: arguments of two subscribers, every second one with edits."""
    for number in range(arguments):
        source = random.Random(f"{seed} {number}")
        update = draw_update(source)
        update.imsi = f"26201000000000{source.randrange(2)}"
        line = line_of(source, update, source.choice(STYLED))
        operation, imsi, octets = mutated_line(source, line) if number % 2 else line
        dialogue = f"{len(imsi)}ULL << 56 | {int(imsi or 0)}"
        text = "".join(f"\\x{octet:02x}" for octet in octets)
        yield f'    {{ {OPERATIONS[operation]}, {{ {dialogue} }}, "{text}", {len(octets)} }},\n'


def test_random_calls(compiled, library, functions, sanitizers, tmp_path):
    """COUNT calls with the random fields of SEED make all functions, and all in the header that return a status."""
    calls, seed = os.environ.get("COUNT", "100000"), os.environ.get("SEED", "1")
    arguments = "".join(drawn_arguments(seed, 400))
    (tmp_path / "drawn.h").write_text(f"static const struct drawn DRAWN[] = {{\n{arguments}}};\n")
    said = output(compiled("tests/library/fuzz.c", f"-I{tmp_path}", *sanitizers), calls, seed)
    inline = re.findall(r"^CAMEL_INLINE camel_status (camel_[a-z_]+)\(", (library / "camel.h").read_text(), re.M)
    assert sorted(re.findall(r"^(camel_[a-z_]+): ", said, re.M)) == sorted(functions + inline)


@pytest.fixture
def races(compiled, library):
    """The environment of ThreadSanitizer, if it comes with the compiler and runs under this kernel."""
    try:
        output(compiled("tests/library/names.c", *RACES))
    except AssertionError:
        pytest.skip("the C compiler has no ThreadSanitizer that runs")
    return os.environ | {"TSAN_OPTIONS": f"suppressions={library}/wenqolo.tsan"}


def test_switch_has_no_race_that_is_left(compiled, races):
    text = (TOP / "tests/library/switch.txt").read_text()
    assert output(compiled("examples/switch.c", *RACES), env=races) == text


def test_race_of_a_switch_is_reported(compiled, races):
    done = subprocess.run([compiled("tests/library/race.c", *RACES)], env=races, capture_output=True, check=False)
    assert done.returncode != 0 and re.search(b"Location is global .camel_calls", done.stdout + done.stderr)
