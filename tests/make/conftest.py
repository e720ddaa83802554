"""A copy of the repository in which the scripts run. Its crates have one source, and its toolchain is a stand-in."""

import os
import shutil
import subprocess
import sys
import time
from pathlib import Path

import pytest

STAND_INS = Path(__file__).parent / "stand-ins"
# What the scripts are written with, and the names of one stand-in.
BASIC = """sh bash make env dirname mktemp rm cp mv ln ls cat tail tee touch mkdir realpath readlink install sort cut
    sleep sha256sum find awk sed grep diff tar xargs flock chmod head basename date id md5sum nproc stat wc gzip
    setpriv""".split()
TOOLS = "cc ar nm objcopy rattle dpkg-architecture dpkg-gencontrol dpkg-shlibdeps dpkg-deb".split()
CRATES = ["camel_replay", "camel_explain", "camel_map_check", "camel_c staticlib"]


class Yard:
    """The repository in `top`; in `stage` what the stand-ins do and note; in `tools` the programs that are found."""

    def __init__(self, folder, top):
        self.top, self.stage, self.tools = folder / "top", folder / "stage", folder / "tools"
        self.heap = folder / "c/liblibc_c.a"
        ignored = {".git", "out", "target", "__pycache__"}
        at_top = ignored | {"crates", "tests"}
        shutil.copytree(top, self.top, ignore=lambda path, _: at_top if path == str(top) else ignored, symlinks=True)
        (self.top / "crates.txt").write_text("".join(f"{crate}: camel_tbcd\n" for crate in CRATES) + "camel_tbcd:\n")
        (self.top / "scripts/notices").write_text("#!/bin/sh\necho notices\n")
        self.source = self.top / "crates/camel_tbcd/src/lib.rt"
        for crate in ["camel_tbcd", *CRATES]:
            (self.top / "crates" / crate.split()[0] / "src").mkdir(parents=True)
        for path in self.stage, self.tools, self.heap.parent:
            path.mkdir()
        for path in self.source, self.heap, self.stage / "version":
            path.write_text("first\n")
        (self.tools / "python3").symlink_to(sys.executable)
        for tool in BASIC:
            (self.tools / tool).symlink_to(shutil.which(tool))
        shutil.copy(STAND_INS / "rt", self.tools)
        for tool in TOOLS:
            shutil.copy(STAND_INS / "cc", self.tools / tool)

    def put(self, tool, *lines):
        """Puts a program into the place of a tool."""
        (self.tools / tool).unlink(missing_ok=True)
        (self.tools / tool).write_text("\n".join(["#!/bin/sh", *lines, ""]))
        (self.tools / tool).chmod(0o755)

    def environment(self, more):
        return {"PATH": str(self.tools), "STAGE": str(self.stage), "CDPATH": ".:.."} | more

    def begin(self, *words, **more):
        """Begins a command in a session of its own. A signal that is ignored here, as by nohup, would stay so in it."""
        return subprocess.Popen(["env", "--default-signal", *words], cwd=self.top, env=self.environment(more),
                                stdin=subprocess.DEVNULL, stdout=subprocess.PIPE, stderr=subprocess.PIPE, text=True,
                                start_new_session=True)

    def asked(self):
        """What the toolchain was asked since the last run began."""
        return (self.stage / "ran").read_text().split()

    def run(self, *words, text="", **more):
        """Runs a command to its end. `asked` is how often the toolchain was asked."""
        (self.stage / "ran").write_text("")
        ran = subprocess.run(words, cwd=self.top, env=self.environment(more), input=text, capture_output=True,
                             text=True, timeout=120, check=False)
        ran.asked = len(self.asked())
        return ran

    def edit(self, path=None):
        """A source is another, of an older time than what is built."""
        with (path or self.source).open("a") as file:
            file.write("// edited\n")
        os.utime(path or self.source, (946684800, 946684800))

    def say(self, name):
        """Has the stand-ins do what this file says, while it is there."""
        (self.stage / name).touch()
        return self.stage / name

    def begin_until_rt_waits(self, *words):
        """Begins a command, and returns it with the number of the toolchain once that waits."""
        (self.stage / "ran").write_text("")
        waits, end = self.say("waits"), time.monotonic() + 120
        run = self.begin(*words)
        while not waits.read_text() and time.monotonic() < end:
            time.sleep(0.02)
        number = int(waits.read_text())
        waits.unlink()
        return run, number

    def processes(self):
        """The processes that commands have begun."""
        for process in Path("/proc").glob("[0-9]*"):
            try:
                if f"STAGE={self.stage}".encode() in (process / "environ").read_bytes().split(b"\0"):
                    yield (process / "cmdline").read_text()
            except OSError:
                continue

    def left(self):
        """The processes that commands have left, once they had the time to end."""
        end = time.monotonic() + 120
        while (still := list(self.processes())) and time.monotonic() < end:
            time.sleep(0.02)
        return still


@pytest.fixture
def yard(tmp_path, top):
    return Yard(tmp_path, top)
