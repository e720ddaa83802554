"""The vectors of conformance/ over the model of the rules, wrong models, the library and camel_replay."""

import re
import shlex
import subprocess
import sys

import pytest
from support import tools
from support.processes import LIMIT, run
from wenqolo import updates
from wenqolo.rules import Model
from wenqolo.vectors import PROFILES, all_rules, asking, capture, records, vectors_of, wrong

RULES = all_rules()
VECTORS = {profile: vectors_of(RULES, profile) for profile in PROFILES}

profiles = pytest.mark.parametrize("profile", PROFILES)


def check(profile, answers):
    """Compares answers with those that are expected, and prints how many there are."""
    *faults, summary = asking.report(VECTORS[profile], answers)
    print(summary)
    assert not asking.failed(VECTORS[profile], answers), "\n".join([*faults, summary])


# The vectors by themselves.


def holds_fault(step):
    """What is said that a step's octets hold, and they do not hold."""
    imsi, texts = records.held(step)
    said = records.update_of(step.word, imsi, step.holds)
    expected = updates.withdrawn(said) if step.word == "delete" else []
    if isinstance(said, updates.Insert):
        expected = records.insert_texts(said)
    return "" if said.imsi == imsi and texts == expected else f"the octets are of {imsi} and hold {' '.join(texts)}"


def test_octets_hold_what_their_step_says():
    steps = [step for rule in RULES for vector in rule.vectors for step in vector.steps if step.holds is not None]
    assert steps
    assert [(step.place, fault) for step in steps if (fault := holds_fault(step))] == []


def test_each_anchor_has_a_rule(top):
    """Of those that RULES has or STANDARD names. Each rule is an anchor or a heading of RULES, and comes once."""
    text = (top / "docs/RULES.md").read_text()
    anchors = re.findall(r'<a id="([\w-]+)">', text)
    named = {*anchors, *re.findall(r"RULES\.md#([\w-]+)", (top / "docs/STANDARD.md").read_text())}
    headings = {re.sub(r"[^\w -]", "", heading.lower()).replace(" ", "-")
                for heading in re.findall(r"^#+ (.*)", text, re.M)}
    rules = [rule.anchor for rule in RULES]
    assert len(rules) == len(set(rules))
    assert named <= set(rules) <= named | headings


@pytest.mark.parametrize("rule", RULES, ids=lambda rule: rule.anchor)
def test_rule_has_two_vectors_with_answers_of_both_kinds(rule):
    """Something is taken or triggers, and something is refused or does not trigger. Or it has none, with a reason."""
    answers = {step.answer.split()[0] in ("accepted", "trigger") for vector in rule.vectors for step in vector.steps
               if step.word != "register"}
    if rule.untried:
        assert not rule.vectors
    else:
        assert len(rule.vectors) >= 2 and len(answers) == 2


# The model, and wrong models.


@profiles
def test_model_answers_as_the_vectors_say(profile):
    check(profile, asking.answers_of_model(lambda: Model(profile), VECTORS[profile]))


@pytest.mark.parametrize("model", wrong.models(), ids=lambda model: model.__name__)
def test_wrong_model_fails_on_the_vectors_of_its_own_rule(model):
    failed = {anchor for profile in PROFILES for anchor in asking.failed(
        VECTORS[profile], asking.answers_of_model(lambda: model(profile), VECTORS[profile]))}
    assert wrong.rule_of(model) in failed


def test_capture_has_the_frames_of_each_vector(tmp_path):
    count = capture.write(VECTORS[1], tmp_path / "conformance.pcap")
    places = (tmp_path / "conformance.frames").read_text().splitlines()
    assert [line.split(" ", 1)[1] for line in places] == [f"{vector.place} {vector.rule}" for vector in VECTORS[1]]
    assert count > int(places[-1].split()[0]) > len(places)


# Programs.


@pytest.fixture(scope="module")
def answering(top, library, tmp_path_factory):
    """The program in C over the library."""
    program = tmp_path_factory.mktemp("conformance") / "run"
    words = [*tools.command_of("cc"), "-std=c11", "-O2", "-Wall", "-Wextra", f"-I{library}", "-o", program,
             top / "conformance/run.c", library / "libwenqolo.a", "-lpthread"]
    subprocess.run(words, check=True)
    return program


@pytest.mark.needs("cc")
@profiles
def test_library_answers_as_the_vectors_say(profile, answering, top):
    files = sorted(path.relative_to(top) for path in top.glob("conformance/vectors/*.txt"))
    ended = run(answering, str(profile), *files, cwd=top)
    assert (ended.returncode, ended.stderr) == (0, b"")
    answers = dict(line.split(" ", 1) for line in ended.stdout.decode().splitlines())
    assert len(answers) == sum(len(vector.steps) for vector in VECTORS[profile])
    check(profile, answers)


@profiles
def test_replay_answers_a_script_as_the_vectors_say(profile, replay):
    script = [*asking.script_of(VECTORS[profile])]
    ended = run(*asking.command_of([replay], profile), octets="".join(f"{record}\n" for _, record in script).encode())
    lines = ended.stdout.decode().splitlines()
    assert (ended.returncode, ended.stderr, len(lines)) == (0, b"", len(script))
    check(profile, {step.place: asking.answer_in(line) for (step, _), line in zip(script, lines) if step})


@profiles
def test_replay_answers_between_pipes_as_the_vectors_say(profile, replay):
    check(profile, asking.answers_between_pipes([str(replay)], profile, VECTORS[profile]))


def asked(top, *words, **options):
    """How `conformance/run` ends, and what it says."""
    command = [sys.executable, top / "conformance/run", *words]
    ended = subprocess.run(command, capture_output=True, text=True, timeout=LIMIT, check=False, **options)
    return ended.returncode, ended.stdout + ended.stderr


def test_any_program_is_asked(top, monkeypatch):
    """The model is one, between two pipes. It needs no Rattle."""
    monkeypatch.setenv("PYTHONPATH", str(top / "tools"))
    status, said = asked(top, sys.executable, "-m", "wenqolo.vectors.pipes")
    assert (status, said.count(", each as expected")) == (0, 2)


def test_program_that_answers_wrong_is_told_the_rules(top, tmp_path):
    program = tmp_path / "program"
    program.write_text("#!/bin/sh\nwhile read -r record; do echo refused 5; done\n")
    program.chmod(0o755)
    status, said = asked(top, "--profile", "1", program)
    assert status == 1
    assert "; rules that failed: " in said


def test_program_that_ends_or_is_none_is_named(top):
    status, said = asked(top, "true")
    assert (status, said.startswith("conformance: true, at the record clear: ")) == (1, True)
    assert "no-such-program is no program that can be run" in asked(top, "no-such-program")[1]


def test_program_that_goes_on_after_the_end_of_its_input_is_given_up(monkeypatch):
    monkeypatch.setattr(asking, "LIMIT", 1)
    child = subprocess.Popen(shlex.split("sleep 600"), stdin=subprocess.PIPE)
    with pytest.raises(asking.Failed, match="sleep 600 goes on 1 seconds after the end of its input"):
        asking.end(child)
