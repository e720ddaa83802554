"""The vectors of conformance/vectors/, as README.md has their format: rules, the vectors of each, and their steps."""

import re
from dataclasses import dataclass, field
from pathlib import Path

from wenqolo.rules import OPERATIONS

FOLDER = Path(__file__).resolve().parents[3] / "conformance/vectors"
FORMS = {"register": r"\d{5,15}", "clear": "", "call": r"(2|4|12|13|14) \d{5,15} [tb][0-9a-f]{2} \S+ [fn-] (\d+|-)"}
FORMS |= dict.fromkeys(OPERATIONS, r"(\d{5,15}|-)( [0-9a-f?]+)*")
ANSWER = r"accepted|refused \d+|trigger \d+ \d+ ([0-9a-f]{2})+ (continue|release)|none [a-z-]+"
PROFILES = (1, 2)


class Malformed(Exception):
    """What is no vector, with its place."""


@dataclass
class Step:
    """A step: its place, its word, its fields, the answer that is expected, and what its octets hold, if that is
    said."""

    place: str
    word: str
    fields: list
    answer: str
    holds: str | None = None

    def imsi(self):
        """The IMSI of the subscriber, or that of the dialogue, of which there may be none."""
        return self.fields[1 if self.word == "call" else 0].strip("-")

    def octets(self):
        return bytes.fromhex("".join(self.fields[1:]))


@dataclass
class Vector:
    rule: str
    name: str
    place: str
    profiles: tuple = PROFILES
    steps: list = field(default_factory=list)


@dataclass
class Rule:
    """A rule: its anchor in docs/RULES.md, its vectors, or why it has none."""

    anchor: str
    place: str
    vectors: list = field(default_factory=list)
    untried: str = ""


def lines_of(path):
    """The lines of a file with their places. One that begins with a space goes on with the line before it."""
    lines = []
    for number, line in enumerate(path.read_text().splitlines(), 1):
        if line.startswith(" ") and lines:
            lines[-1][1] += f" {line.strip()}"
        elif line.strip() and not line.startswith("#"):
            lines.append([f"conformance/vectors/{path.name}:{number}", line])
    return lines


def step_of(place, line):
    said, arrow, answer = line.partition(" => ")
    word, *fields = said.split()
    if not arrow or not re.fullmatch(FORMS[word], " ".join(fields)) or not re.fullmatch(ANSWER, answer.strip()):
        raise Malformed(f"{place}: this is no step: {line}")
    return Step(place, word, fields, answer.strip())


def take(rules, place, line):
    """Takes a line to the rules before it."""
    word, _, rest = line.partition(" ")
    if word == "rule":
        rules.append(Rule(rest, place))
    elif word == "untried":
        rules[-1].untried = rest
    elif word == "vector":
        rules[-1].vectors.append(Vector(rules[-1].anchor, rest, place))
    elif word == "profile":
        rules[-1].vectors[-1].profiles = (int(rest),)
    elif word == "=":
        rules[-1].vectors[-1].steps[-1].holds = rest
    elif word in FORMS:
        rules[-1].vectors[-1].steps.append(step_of(place, line))
    else:
        raise Malformed(f"{place}: no line begins so: {line}")


def all_rules(folder=FOLDER):
    rules = []
    for path in sorted(folder.glob("*.txt")):
        for place, line in lines_of(path):
            try:
                take(rules, place, line)
            except (IndexError, ValueError) as error:
                raise Malformed(f"{place}: this line has no place here: {line}") from error
    return rules


def vectors_of(rules, profile):
    """The vectors that hold under a profile."""
    return [vector for rule in rules for vector in rule.vectors if profile in vector.profiles]
