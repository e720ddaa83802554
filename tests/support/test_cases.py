"""What is read of a case, and which files are none."""

import pytest

from support.cases import Case, Malformed, read_case

WHOLE = rb"""=== escaped run --limit '' a\x20\xff
a\r
\xff\\n \x3d=== b\t\
=== repeat 3
=== output
front 1
audit ok
=== allowed
session 0 a | session 0 b
session 1 a
=== status 2
said
"""
READ = Case(
    words=[b"--limit", b"", b"a \xff"],
    input=b"a\r\n\xff\\n ==== b\t",
    output=b"front 1\naudit ok\n",
    error=b"said\n",
    allowed=[b"session 0 a | session 0 b", b"session 1 a"],
    status=2,
    repeat=3,
)
READ_CASES = {
    "all sections": (WHOLE, READ),
    "defaults": (b"=== output\n", Case([], b"", b"", b"", [], 0, 1)),
    "input first": (b"a\n\n=== output\nb\n", Case([], b"a\n\n", b"b\n", b"", [], 0, 1)),
    "run without words": (b"=== run\na\n=== output\n", Case([], b"a\n", b"", b"", [], 0, 1)),
    "said with status 0": (b"=== output\n=== status 0\na\n", Case([], b"", b"", b"a\n", [], 0, 1)),
}


@pytest.mark.parametrize("octets, case", READ_CASES.values(), ids=READ_CASES)
def test_sections_are_read(octets, case, tmp_path):
    (tmp_path / "some.case").write_bytes(octets)
    assert read_case(tmp_path / "some.case") == case


OUTPUT = b"=== output\n"
FAULTS = [
    (b"", "0: there is no section output"),
    (b"a\n=== status 1\nb\n", "3: there is no section output"),
    (OUTPUT + b"a", "1: the last line has no line feed"),
    (b"=== repeat 2\n1\n", "2: a line below a number"),
    (OUTPUT + b"=== outputs\n", "2: no header of a section: '=== outputs'"),
    (OUTPUT + b"=== status one\n", "2: no header of a section: '=== status one'"),
    (OUTPUT + b"=== status\n", "2: no header of a section: '=== status'"),
    (OUTPUT + b"=== allowed 1\n", "2: no header of a section: '=== allowed 1'"),
    (OUTPUT + b"====\n", "2: no header of a section: '===='"),
    (b"=== output \n", "1: not all of it is seen, write it by an escape: '=== output '"),
    (b"=== run  --limit\n", "1: no header of a section: '=== run  --limit'"),
    (b"=== run \xe2\x80\xae\n" + OUTPUT, r"1: not all of it is seen, write it by an escape: '=== run \u202e'"),
    (b"=== run \\q\n" + OUTPUT, r"1: no escape: '\\q'"),
    (OUTPUT + b"=== escaped output\n", "2: there is a section output before, or it is not the first one"),
    (OUTPUT + b"=== run\n", "2: there is a section run before, or it is not the first one"),
    (b"a\n=== run\n" + OUTPUT, "2: there is a section run before, or it is not the first one"),
    (b"a\r\n" + OUTPUT, r"1: not all of it is seen, write it by an escape: 'a\r'"),
    (b"a \n" + OUTPUT, "1: not all of it is seen, write it by an escape: 'a '"),
    (b"\xef\xbb\xbf\n" + OUTPUT, r"1: not all of it is seen, write it by an escape: '\ufeff'"),
    (b"=== escaped run\na \n" + OUTPUT, "2: not all of it is seen, write it by an escape: 'a '"),
    (b"\xff\n" + OUTPUT, "1: 'utf-8' codec can't decode byte 0xff in position 0: invalid start byte"),
    (b"=== escaped run\na\\q\n" + OUTPUT, r"2: no escape: '\\q'"),
    (b"=== escaped run\na\\x1\n" + OUTPUT, r"2: no escape: '\\x'"),
]


@pytest.mark.parametrize("octets, fault", FAULTS)
def test_fault_of_a_case_names_its_file_and_line(octets, fault, tmp_path):
    (tmp_path / "some.case").write_bytes(octets)
    with pytest.raises(Malformed) as failure:
        read_case(tmp_path / "some.case")
    assert str(failure.value) == f"{tmp_path}/some.case:{fault}"


@pytest.mark.parametrize(
    "output, is_allowed",
    [
        (b"front 1\nsession 0 a\nsession 1 a\naudit ok\n", True),
        (b"front 1\nsession 0 b\nsession 1 a\naudit ok\n", True),
        (b"front 1\nsession 1 a\nsession 0 a\naudit ok\n", False),
        (b"front 1\nsession 0 c\nsession 1 a\naudit ok\n", False),
        (b"front 1\nsession 0 a | session 0 b\nsession 1 a\naudit ok\n", False),
        (b"front 1\nsession 0 a\naudit ok\n", False),
        (b"front 1\nsession 0 a\nsession 1 a\nsession 1 a\naudit ok\n", False),
        (b"front 1\nsession 0 a\naudit ok\nsession 1 a\n", False),
        (b"front 1\nsession 0 a\nsession 1 a\naudit ok", False),
    ],
)
def test_line_of_a_session_has_one_of_its_texts(output, is_allowed):
    assert (READ.found(output) == READ.expected()) == is_allowed
