"""What `make` takes for built of what is there, builds anew, installs and packs, and what runs side by side leave."""

import os
import shutil
import signal

import pytest


def changes(yard, made, target):
    """Changes one thing after the other, and says of each how `make` ends then, and how often it asks the toolchain."""
    other, edits, fails = yard.source.with_name("other.rt"), yard.stage / "edits", yard.stage / "fails"
    yield "nothing is built", 0, 2
    yield "all is built", 0, 0
    yield "a time is another", os.utime(yard.source), 0
    yield "an older copy of a source", yard.edit(), 2
    assert made.read_text().count("# // edited\n") == 1
    yield "another toolchain", yard.edit(yard.stage / "version"), 2
    yield "one source more, which is empty", other.touch(), 2
    yield "a source removed", other.unlink(), 2
    yield "what was built is another", yard.edit(made), 0 if target == "library" else 2
    yield "a source is edited while it is built", edits.touch() or yard.edit() or 2, 2
    yield "after that", edits.unlink(), 2
    yield "the toolchain fails", fails.touch() or yard.edit() or 2, 1
    yield "after it failed", fails.unlink(), 2
    if target == "library":
        yield "another heap", yard.edit(yard.heap), 2
        yield "another header", yard.edit(yard.top / "include/camel.h"), 0
        assert (made.parent / "camel.h").read_text().endswith("// edited\n")
        log, packed = yard.top / "CHANGELOG.md", sorted(made.parent.iterdir())
        yield "no version of the header", log.write_text("## 9.0.0\n") and 2, 0
        assert sorted(made.parent.iterdir()) == packed


@pytest.mark.parametrize("target, made", [
    ("program", "crates/camel_replay/out/camel_replay"), ("library", "out/library/libwenqolo.a"),
])
def test_what_is_new_is_built_and_nothing_else(yard, target, made):
    for what, status, asked in changes(yard, yard.top / made, target):
        ran = yard.run("make", target, CC="cc -m64")
        assert (what, ran.returncode, ran.asked) == (what, status or 0, asked)
        assert ("a source was changed while it was built" in ran.stderr) == ("while" in what)


def test_libraries_built_side_by_side_do_not_meet(yard):
    yard.run("make", "library")
    (yard.top / "out/library/sums-libwenqolo.a").unlink()
    runs = [yard.begin(f"scripts/{name}") for name in ["library", "library-pack"] * 2]
    said = {line for run in runs for line in run.communicate(timeout=120)[1].splitlines() if "waits" not in line}
    assert said == {"out/library has libwenqolo.a, libwenqolo.so.0 and their headers"}
    assert {path.name for path in (yard.top / "out").glob("library*")} == {"library", "library-parts"}


def installed(folder):
    return sorted(path.name for path in folder.rglob("*") if path.name.startswith("camel_") or path.suffix == ".a")


def test_what_is_built_of_these_sources_is_installed_without_rt(yard, tmp_path):
    for target in "library", "program":
        assert yard.run("make", target).returncode == 0
    (yard.tools / "rt").unlink()
    clone = shutil.copytree(yard.top, tmp_path / "clone", symlinks=True)
    for path in clone.rglob("*"):
        os.utime(path, (946684800, 946684800), follow_symlinks=False)
    first, spaced = tmp_path / "first", tmp_path / "with space"
    assert yard.run("make", "-C", clone, "install", PREFIX=str(first)).returncode == 0
    assert yard.run("make", "-C", clone, "install", PREFIX="/usr", DESTDIR=str(spaced)).returncode == 0
    assert installed(first) == installed(spaced / "usr") == ["camel_replay", "libwenqolo.a"]
    yard.edit(clone / yard.source.relative_to(yard.top))
    ran = yard.run("make", "-C", clone, "install", PREFIX=str(tmp_path / "second"))
    assert (ran.returncode, ran.stderr.count("is not copied: it is built of other sources")) == (2, 2)
    assert installed(tmp_path / "second") == []


def test_package_of_tools_is_made_only_of_what_is_built(yard):
    assert yard.run("make", "library").returncode == 0
    for step, is_made in [(None, False), ("tools", True), ("edit", False)]:
        if step == "tools":
            assert yard.run("make", "tools").returncode == 0
        elif step:
            yard.edit(yard.top / "out/tools/camel_explain")
        ran = yard.run("scripts/deb")
        assert (ran.returncode, "wenqolo-tools is not made" in ran.stderr) == (0, not is_made), ran.stderr


def test_proofs_note_what_they_leave(yard):
    edits = yard.say("edits")
    ran = yard.run("scripts/proofs")
    assert ran.returncode == 1 and "a source was changed while it was built" in ran.stderr
    edits.unlink()
    ran = yard.run("scripts/proofs")
    assert (ran.returncode, ran.stdout) == (0, "rt: line of this run\n")
    assert yard.run("make", "program").asked == yard.run("make", "library").asked == 0
    assert (yard.stage / "tools").read_text().split()[0] == "rattle"
    fails = yard.say("fails")
    yard.edit()
    assert yard.run("scripts/proofs").returncode == 1
    fails.unlink()
    assert yard.run("make", "program").asked == 2


def test_links_come_back_after_proofs_that_were_killed(yard):
    def links():
        return sorted(path.name for path in (yard.top / "out").rglob("*") if path.is_symlink())

    yard.run("make", "library")
    (yard.top / "out/link").symlink_to("nowhere")
    run, rt = yard.begin_until_rt_waits("scripts/proofs")
    assert links() == []
    run.kill()
    os.kill(rt, signal.SIGTERM)
    assert (run.wait(120), yard.run("scripts/proofs").returncode) == (-signal.SIGKILL, 0)
    assert links() == ["libwenqolo.so", "link"]


VERSION_2 = {"proc/self/cgroup": "0::/a/b\n", "sys/fs/cgroup/a/memory.max": "5000000000\n",
             "sys/fs/cgroup/a/memory.stat": "anon 800000000\nfile 9\n", "sys/fs/cgroup/a/b/memory.max": "max\n",
             "sys/fs/cgroup/a/b/memory.stat": "anon 1\n"}
CONTAINER = {"proc/self/cgroup": "4:memory:/docker/a\n0::/\n",
             "sys/fs/cgroup/memory/memory.stat": "total_rss 500000000\n",
             "sys/fs/cgroup/memory/memory.limit_in_bytes": "7000000000\n"}


@pytest.mark.parametrize("lanes, kilobytes, groups", [
    (1, 1000000, {}), (3, 7000000, {}), (4, 20000000, {}), (2, 20000000, VERSION_2), (3, 20000000, CONTAINER),
    (1, 2000000, CONTAINER),
])
def test_as_many_checks_run_as_the_memory_holds(yard, tmp_path, lanes, kilobytes, groups):
    available = {"proc/self/cgroup": "0::/\n", "proc/meminfo": f"MemAvailable: {kilobytes} kB\n"}
    for name, text in (available | groups).items():
        (tmp_path / "root" / name).parent.mkdir(parents=True, exist_ok=True)
        (tmp_path / "root" / name).write_text(text)
    yard.put("nproc", "echo 4")
    assert yard.run("scripts/lanes", "2000000", str(tmp_path / "root")).stdout == f"{lanes}\n"
