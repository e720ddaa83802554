"""What scripts/try compiles anew, keeps, says and leaves, and what `make` says of a replay."""

import os
import signal

import pytest

UNPROVED = "try: nothing was proved: `make replay` and `make explain` run the proved programs\n"
KEPT = "crates/camel_explain/out"
# Root may write everywhere, unless these rights are taken from it.
AS_READER = ["setpriv", "--bounding-set=-dac_override,-dac_read_search"] if os.geteuid() == 0 else []


def tried(yard, asked, *before, **more):
    """A try, for which the toolchain is asked so often, and which leaves one executable."""
    ran = yard.run(*before, "scripts/try", "camel_explain", "a", "b  c", text="line\n", **more)
    assert (ran.returncode, ran.stdout, ran.stderr) == (3, "a b  c line\n", f"error\n{UNPROVED}")
    assert ran.asked == asked
    (file,) = (yard.top / KEPT).iterdir()
    return file


def test_try_compiles_what_is_new_and_nothing_else(yard):
    file = tried(yard, 1)
    assert tried(yard, 0) == file
    yard.edit()
    assert tried(yard, 1) != file
    yard.edit(yard.stage / "version")
    yard.edit(tried(yard, 1))
    tried(yard, 1)


def test_of_six_tries_at_once_one_compiles(yard):
    runs = [yard.begin("scripts/try", "camel_explain") for _ in range(6)]
    assert [run.wait(120) for run in runs] == [3] * 6
    assert yard.asked() == ["try"]
    tried(yard, 0)


@pytest.mark.parametrize("number", [signal.SIGTERM, signal.SIGHUP, signal.SIGKILL])
def test_try_that_is_ended_leaves_nothing(yard, number):
    tried(yard, 1)
    yard.edit()
    run, compiler = yard.begin_until_rt_waits("scripts/try", "camel_explain")
    run.send_signal(number)
    is_told = number != signal.SIGKILL
    assert run.wait(120) == (128 + number if is_told else -number)
    assert not is_told or (yard.stage / "told").exists() and len(list((yard.top / KEPT).iterdir())) == 1
    tried(yard, 1)
    if not is_told:
        os.kill(compiler, signal.SIGTERM)
    assert yard.left() == []


def test_try_where_nothing_can_be_written_keeps_below_tmpdir(yard, tmp_path):
    kept = tried(yard, 1)
    for path in [yard.top, *yard.top.rglob("*")]:
        path.chmod(path.stat().st_mode & ~0o222)
    assert tried(yard, 0, *AS_READER, TMPDIR=str(tmp_path)) == kept
    yard.source.chmod(0o644)
    yard.edit()
    tried(yard, 1, *AS_READER, TMPDIR=str(tmp_path))
    assert tried(yard, 0, *AS_READER, TMPDIR=str(tmp_path)) == kept
    (yard.top / KEPT).chmod(0o755)
    assert tried(yard, 1) != kept


def test_try_prints_the_path_of_what_is_compiled(yard):
    tried(yard, 1)
    for asked in 0, 1:
        ran = yard.run("scripts/try", "--path", "camel_explain")
        (file,) = (yard.top / KEPT).iterdir()
        assert (ran.returncode, ran.stdout, ran.asked) == (0, f"{file.relative_to(yard.top)}\n", asked)
        yard.edit()


def test_try_says_that_the_program_gave_no_answer(yard):
    said = "try: the program gave no answer, for the reason that rt gives above (its status is 4)\n" + UNPROVED
    ran = yard.run("scripts/try", "camel_explain", text="fault\n")
    assert (ran.returncode, ran.stderr) == (125, said)
    yard.edit()
    yard.say("refuses")
    ran = yard.run("scripts/try", "camel_explain", text="line\n")
    assert (ran.returncode, ran.stderr) == (125, said)
    ran = yard.run("scripts/try", "--path", "camel_explain")
    assert (ran.returncode, ran.stdout) == (125, "")


def put_program(yard, crate, text):
    """Puts a program where it is taken for built of what is there."""
    file = yard.top / f"crates/{crate}/out/{crate}"
    file.parent.mkdir()
    yard.put("program", text)
    (yard.tools / "program").rename(file)
    sums = yard.run("scripts/sums", "of", crate).stdout.strip()
    assert yard.run("scripts/sums", "note", file.relative_to(yard.top), crate, sums).returncode == 0


@pytest.mark.parametrize("target, output", [
    ("try", "--limit 1000000 line\n"), ("try-explain", "--limit 1000000 line\n"),
    ("replay", "--limit 1000000\nline\n"), ("explain", "--limit 1000000 -\nline\n"),
])
def test_script_may_be_standard_input(yard, target, output):
    if not target.startswith("try"):
        put_program(yard, f"camel_{target}", 'echo "$@"\ncat\nexit 3')
    ran = yard.run("make", target, "SCRIPT=-", text="line\n")
    assert (ran.returncode, ran.stdout) == (2, output)


@pytest.mark.parametrize("status, said, more", [
    (0, "", ""), (2, "camel_replay: fault 208\n", ""),
    (1, "camel_replay: fault 208\n", "fault 208: docs/NUMBERS.md has its meaning\n"),
    (1, "camel_replay: record 2: fault 203\n", "fault 203: docs/NUMBERS.md has its meaning, and `make explain "
     "SCRIPT=examples/first-call.csv` names the field (`make try-explain` with nothing proved)\n"),
])
def test_replay_names_the_page_of_a_fault(yard, status, said, more):
    put_program(yard, "camel_replay", f"echo line\nprintf '{said}' >&2\nexit {status}")
    ran = yard.run("make", "replay", "SCRIPT=examples/first-call.csv")
    lines = [line for line in ran.stderr.splitlines(True) if not line.startswith("make: ")]
    assert (ran.returncode, ran.stdout, "".join(lines)) == (2 if status else 0, "line\n", said + more)
