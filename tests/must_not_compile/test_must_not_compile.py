"""Programs that the compiler has to refuse: each crates/NAME/must-not-compile/PROGRAM.program."""

import os
import re
import shutil
import subprocess
import tempfile
from pathlib import Path

import pytest

CRATES = Path(__file__).resolve().parents[2] / "crates"
PROGRAMS = sorted(CRATES.glob("*/must-not-compile/*.program"))


@pytest.mark.needs("rt")
@pytest.mark.parametrize("program", PROGRAMS, ids=lambda program: program.stem)
def test_program_is_refused_with_the_error_that_it_names(program, top):
    """It is a module of its crate, in a copy of the crates. The copy lies here, and not among the temporary files, so
    that what is built can be linked: a library has hundreds of megabytes. rt looks for no crate below another out/."""
    error = re.match("// error: (.+)", program.read_text())[1]
    crate = program.parents[1]
    *libraries, _ = subprocess.check_output([top / "scripts/crates", crate.name], text=True).split()
    (crate / "out").mkdir(exist_ok=True)
    with tempfile.TemporaryDirectory(prefix="must-not-compile.", dir=crate / "out") as work:
        copy = Path(work) / "crates"
        shutil.copytree(CRATES, copy, symlinks=True, ignore=shutil.ignore_patterns("out"))
        for name in ("crates.txt", "HANDLES"):
            shutil.copy(top / name, work)
        for library in libraries:
            if (built := CRATES / library / "out/rlib").is_dir():
                shutil.copytree(built, copy / library / "out/rlib", copy_function=os.link)
        shutil.copy(program, copy / crate.name / "src/must_not_compile.rt")
        with open(copy / crate.name / "src/lib.rt", "a") as modules:
            modules.write("mod must_not_compile;\n")
        ended = subprocess.run(["rt", "check"], cwd=copy / crate.name, capture_output=True, check=False)
    said = (ended.stdout + ended.stderr).decode()
    assert ended.returncode != 0, "it is compiled"
    assert re.search(rf"^src/must_not_compile\.rt:.*error\[{re.escape(error)}\]", said, re.M), said
