"""camel_explain over the cases in this folder; where it finds records, in an input that comes at once or octet by
octet; and its answers beside those of camel_replay over all scripts.
"""

import re
from pathlib import Path

import pytest

from support.cases import read_case, read_example, strays
from support.processes import run

FOLDER = Path(__file__).parent
CASES = sorted(FOLDER.glob("*.case"))
SCRIPTS = CASES + sorted(FOLDER.parent.glob("scripts/*.case")) + sorted(FOLDER.parents[1].glob("examples/*.csv"))
HEAD = re.compile(rb"(\d+): (.*)")
MARK = b"\xef\xbb\xbf"
LONG = b"ab,de" * 5000
# Scripts, and the lines and the texts of their records, as they are printed.
LISTED = [
    (b"", []),
    (b"clear", [(1, b"clear")]),
    (b"a,b\nc\n", [(1, b"a,b"), (2, b"c")]),
    (b"a,b\r\nc\r\n\r\nd", [(1, b"a,b"), (2, b"c"), (4, b"d")]),
    (b"a,b\rc\r\rd\r", [(1, b"a,b"), (2, b"c"), (4, b"d")]),
    (b"\n\n\r\n\r\r\n\na", [(7, b"a")]),
    (b"a\n\rb\n", [(1, b"a"), (3, b"b")]),
    (b",\n,,a\n", [(1, b","), (2, b",,a")]),
    (b'a,"b,c",d\n""\n', [(1, b'a,"b,c",d'), (2, b'""')]),
    (b'"a""b",""""\nc', [(1, b'"a""b",""""'), (2, b"c")]),
    (b'a,"b\nc"\nd', [(1, rb'a,"b\nc"'), (3, b"d")]),
    (b'"b\r\n\r\nc","\r"\r\nd', [(1, rb'"b\r\n\r\nc","\r"'), (5, b"d")]),
    (b'"\n\r"\rd', [(1, rb'"\n\r"'), (4, b"d")]),
    (b'a\n"b\n\nc,""d\r\n', [(1, b"a"), (2, rb'"b\n\nc,""d\r\n')]),
    (b'a,"b\r', [(1, rb'a,"b\r')]),
    (b'a"b,c"\n"d"e"f,g\n', [(1, b'a"b,c"'), (2, b'"d"e"f,g')]),
    # A byte order mark is skipped only at the start of the script.
    (MARK, []),
    (MARK + b"\r\n", []),
    (MARK + b"a,b\nc", [(1, b"a,b"), (2, b"c")]),
    (MARK + MARK + b"a", [(1, MARK + b"a")]),
    (MARK + b'"a\nb"\n' + MARK + b"c", [(1, rb'"a\nb"'), (3, MARK + b"c")]),
    (b"\n" + MARK + b"a", [(2, MARK + b"a")]),
    (b"\xef\xbb\n" + MARK, [(1, rb"\xef\xbb"), (2, MARK)]),
    # A comment begins where a record would, and goes to the next line end of any kind.
    (b"#a\nb\n#c\r\nd\r#e\rf", [(2, b"b"), (4, b"d"), (6, b"f")]),
    (b'# "\na,"\n#b"\n#c', [(2, rb'a,"\n#b"')]),
    (b'#a,"b\nc', [(2, b"c")]),
    (b"a,#b\n #c\n", [(1, b"a,#b"), (2, b" #c")]),
    (MARK + b'#a\n\n##\n"#"', [(4, b'"#"')]),
    (b"#\r" + MARK + b"a", [(2, MARK + b"a")]),
    (b"#", []),
    (b"a\r\n#b\r\n\r\n#", [(1, b"a")]),
    # More octets than a buffer holds.
    *((long + b"\n\nx", [(1, long), (3, b"x")]) for long in (b"c" + LONG + b"c", b'"' + LONG + b'"')),
]
# Scripts whose input fails behind them, and the line of the last record that is explained then.
CUT_OFF = [
    (b"a\n", 1),
    (b"a\r", 1),
    (b"a\r\nb\r", 2),
    (b"#\r\n\r\nb\n", 3),
    (b'"a\r\nb"\r', 1),
    (MARK + b'\n""\n', 2),
    (b"", None),
    (b"a,b", None),
    (b'"a\n', None),
    (b'"a""', None),
    (b"#\n", None),
]


@pytest.mark.parametrize("path", CASES, ids=lambda path: path.stem)
def test_explanation_is_what_its_case_says(path, explain, top):
    case = read_case(path)
    case.check(run(explain, *case.words, octets=case.input * case.repeat, cwd=top))


def test_each_file_of_explain_is_a_case():
    assert strays(FOLDER, ".case", ".py", ".c") == []


def heads_of(output):
    """The line and the text of each record, and of each show."""
    return [(int(head[1]), head[2]) for line in output.splitlines() if (head := HEAD.fullmatch(line))]


@pytest.mark.parametrize("octets, listed", LISTED, ids=lambda value: repr(value)[2:50])
def test_records_are_those_of_each_line(octets, listed, explain, slow_reads):
    assert heads_of(run(explain, octets=octets).stdout) == listed
    left = run(explain, octets=octets, env=slow_reads())
    assert (heads_of(left.stdout), left.stderr) == (listed, b"")


@pytest.mark.parametrize("octets, last", CUT_OFF)
def test_record_is_explained_before_the_next_read(octets, last, explain, slow_reads):
    """A record that a failed read cuts off is not explained."""
    left = run(explain, octets=octets, env=slow_reads(fails_at=len(octets) + 1))
    assert (left.returncode, left.stderr) == (1, b"camel_explain: fault 206: the input can't be read\n")
    assert max((line for line, _ in heads_of(left.stdout)), default=None) == last


def answers_of(output):
    """The line and the answer of each record. A show has none."""
    lines = output.splitlines()
    heads = [(head, said) for line, said in zip(lines, [*lines[1:], b""]) if (head := HEAD.fullmatch(line))]
    is_show = re.compile(rb"show( .*)?").fullmatch
    return [(int(head[1]), re.fullmatch(rb"   (.*)", said)[1]) for head, said in heads if not is_show(head[2])]


def texts_of(octets, numbers):
    """The lines of each record: all up to the next record's, if a quote may go on over their ends."""
    lines = re.findall(rb"[^\r\n]*(?:\r\n|\r|\n)|[^\r\n]+$", octets.removeprefix(MARK))
    ends = [number - 1 for number in numbers[1:]] + [len(lines)]
    return [
        b"".join(lines[number - 1 : end if b'"' in lines[number - 1] else number]) for number, end in zip(numbers, ends)
    ]


@pytest.mark.parametrize("path", SCRIPTS, ids=lambda path: f"{path.parent.name}-{path.stem}")
def test_answers_are_those_of_replay(path, explain, replay):
    """Of a script with faults camel_replay answers what is left without the faulty records. Both programs know the
    limit and the profile."""
    case = read_example(path) if path.suffix == ".csv" else read_case(path)
    places = [case.words.index(name) for name in (b"--limit", b"--profile") if name in case.words[:-1]]
    words = [word for at in places for word in case.words[at : at + 2]]
    explanation = run(explain, *words, octets=case.input)
    if explanation.returncode == 2:
        assert run(replay, *words, octets=case.input).returncode == 2
        return
    records = answers_of(explanation.stdout)
    texts = texts_of(case.input, [number for number, _ in records])
    answers = [answer for _, answer in records]
    faults = [at for at, answer in enumerate(answers) if answer.startswith(b"fault ")]
    assert explanation.returncode == (1 if faults else 0)

    if faults:
        left = run(replay, *words, octets=b"".join(texts))
        assert left.stderr == b"camel_replay: record %d: %s\n" % (faults[0] + 1, answers[faults[0]])
        assert left.stdout.splitlines() == answers[: faults[0]]

    sound = [at for at in range(len(records)) if at not in faults]
    left = run(replay, *words, octets=b"".join(texts[at] for at in sound))
    assert left.stdout.splitlines() == [answers[at] for at in sound]
    assert left.returncode == 0
