"""examples/address: octets and digits, worked by hand from the AddressString and the TBCD-STRING of TS 29.002, as
docs/RULES.md has them."""

import re

import pytest

from support.processes import run

# The nature of address in bits 765 and the numbering plan in bits 4321 of octet 1, by name and by number.
NATURES = [("unknown", "81", 0), ("national", "a1", 2), ("network-specific", "b1", 3), ("subscriber", "c1", 4),
           ("abbreviated", "e1", 6)]
PLANS = [("unknown", 0), ("E.164", 1), ("X.121", 3), ("telex", 4), ("E.212", 6), ("national", 8), ("private", 9)]
INTERNATIONAL, E164 = "international (1)", "E.164 (1)"
# Octets, the digits that they read as, with nature and plan, and the words beside the digits that print them.
BOTH_WAYS = [
    # Digits, two in an octet with the earlier one in the lower half, and the filler if their number is odd.
    *((octets, digits, INTERNATIONAL, E164)
      for octets, digits in [("91942143f5", "+4912345"), ("919471160000", "+4917610000"), ("9121f3", "+123"),
                             ("912143", "+1234"), ("91", "+")]),
    *((octets, digits, "unknown (0)", E164)
      for octets, digits in [("811032547698", "0123456789"), ("81badcfe", "*#abc"), ("811a00fb", "*100#"),
                             ("8111f2", "112"), ("8110172143", "01711234")]),
    *((f"{octet}2143", "1234", f"{name} ({number})", E164, "--nature", name) for name, octet, number in NATURES),
    ("d12143", "1234", "without a name (5)", E164, "--nature", "5"),
    ("f12143", "1234", "without a name (7)", E164, "--nature", "7"),
    *((f"9{number}2143", "+1234", INTERNATIONAL, f"{name} ({number})", "--plan", name) for name, number in PLANS),
    ("922143", "+1234", INTERNATIONAL, "without a name (2)", "--plan", "2"),
    ("9f2143", "+1234", INTERNATIONAL, "without a name (15)", "--plan", "15"),
]
EIGHT = "21436587"
LONGEST, OCTETS_OF_LONGEST = "+12345678123456781234567812345678123456", f"91{4 * EIGHT}214365"
PRINTED = [
    *((f"{octet}2143", "--nature", str(number), "1234") for _, octet, number in NATURES),
    ("912143", "--nature", "international", "1234"),
    ("912143", "--nature", "INTERNATIONAL", "+1234"),
    *((f"9{number}2143", "--plan", str(number), "+1234") for _, number in PLANS),
    # What octets may hold that digits never become.
    ("+1, nature international (1), plan E.164 (1); what follows the filler is not looked at", "--read", "91f143"),
    ("+, nature international (1), plan E.164 (1); what follows the filler is not looked at", "--read", "911f"),
    ("71, nature subscriber (4), plan private (9); bit 8 of octet 1 is 0: are these plain digits?", "--read", "4917"),
    ("+12, nature international (1), plan E.164 (1)", "--read", "9121"),
    ("1234, nature national (2), plan E.164 (1)", "--read", "A12143"),
    ("91942143f5\n8111f2", "+4912345", "112"),
    # 1 to 20 octets, and at most 9 of an ISDN-AddressString.
    (f"91{EIGHT}{EIGHT}", "--isdn", "+1234567812345678"),
    (OCTETS_OF_LONGEST, LONGEST),
    (f"{LONGEST}, nature international (1), plan E.164 (1)", "--read", OCTETS_OF_LONGEST),
    ("a1711132f4", "--nature", "national", "1711234"),
]
REJECTED = [
    ("has 10 octets", "--isdn", "+12345678123456781"),
    ("has 10 octets", "--isdn", "--read", f"91{EIGHT}{EIGHT}f1"),
    ("has 21 octets", f"{LONGEST}7"),
    ("has 21 octets", "--read", f"{OCTETS_OF_LONGEST}f7"),
    ("has 0 octets", "--read", ""),
    # What is no address, and a command line that is wrong.
    ("has ' '", "+49 12345"),
    ("has '+'", "49+12345"),
    ("has '+'", "++4912345"),
    ("has 'A'", "+4912345A"),
    ("has 'x'", "112", "+49x"),
    *(("is not pairs of hexadecimal digits", "--read", octets) for octets in ("919", "91g1", "91 21")),
    ("international by its +", "--nature", "national", "+4912345"),
    ("'8' is no nature of address", "--nature", "8", "1234"),
    ("'local' is no nature of address", "--nature", "local", "1234"),
    ("'16' is no numbering plan", "--plan", "16", "1234"),
    ("'isdn' is no numbering plan", "--plan", "isdn", "1234"),
    ("--read takes neither", "--read", "--nature", "national", "91942143f5"),
    ("--read takes neither", "--read", "--plan", "0", "91942143f5"),
    ("required: ADDRESS",),
]
# The examples of the help: their words, and what these print.
HELP = [("+4912345", "91942143f5"), ("01711234", "8110172143"), ("--nature national 1711234", "a1711132f4"),
        ("'*100#'", "811a00fb"), ("--read 91942143f5", "+4912345, nature international (1), plan E.164 (1)")]


@pytest.fixture
def address(top):
    """What a run prints if its words are accepted, and what it says if they are rejected. The other stream is empty."""

    def left(status, *words):
        ended = run(top / "examples/address", *words)
        assert ended.returncode == status
        assert not (ended.stderr if status == 0 else ended.stdout)
        return (ended.stdout + ended.stderr).decode()

    return left


@pytest.mark.parametrize("row", BOTH_WAYS, ids=lambda row: " ".join(row[:1] + row[4:]))
def test_digits_become_octets_and_octets_digits(row, address):
    octets, digits, nature, plan, *words = row
    assert address(0, *words, digits) == f"{octets}\n"
    assert address(0, "--read", octets) == f"{digits}, nature {nature}, plan {plan}\n"


@pytest.mark.parametrize("row", PRINTED, ids=lambda row: " ".join(row[1:]))
def test_words_print(row, address):
    assert address(0, *row[1:]) == f"{row[0]}\n"


@pytest.mark.parametrize("row", REJECTED, ids=lambda row: " ".join(row[1:]))
def test_words_are_rejected(row, address):
    assert row[0] in address(2, *row[1:])


def test_help_has_the_examples_that_are_compared_here(address):
    lines = [re.sub("  +", "  ", line) for line in address(0, "--help").splitlines()]
    assert [words for words, printed in HELP if f"  address {words}  {printed}" not in lines] == []
