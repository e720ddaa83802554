"""What is measured: it is built, run over scripts, and what it prints is read."""

import os
import shutil
import subprocess
import sys
import tempfile
import time
from pathlib import Path
from typing import NamedTuple

import workload

TOP = Path(__file__).resolve().parent.parent
PEERS = TOP / "bench/peers"
PEER = PEERS / "build/release/peers"
OUT = TOP / "out/bench"
SIZES = "1000,100000,1000000"


class Program(NamedTuple):
    name: str
    seen: str  # Is a publication seen in one step, or its updates one by one?
    command: tuple
    is_peer: bool = True


ALL = [
    Program("lock-tree", "one step", (PEER, "lock-tree")),
    Program("dashmap", "one by one", (PEER, "dashmap")),
    Program("leftright-hash", "one step", (PEER, "leftright-hash")),
    Program("leftright-flat72", "one step", (PEER, "leftright-flat72")),
    Program("urcu-qsbr", "one by one", (PEER, "urcu-qsbr")),
    Program("camel_vlr", "one step", (TOP / "crates/camel_bench/out/camel_bench",), False),
    Program("libwenqolo", "one step", (PEER, "libwenqolo"), False),
]


def need(*tools, packages=()):
    """Ends with status 2 if a tool or a Debian package is missing, before anything is built."""
    missing = [tool for tool in tools if not shutil.which(tool)]
    query = ["dpkg-query", "--show", "--showformat=${db:Status-Status}"]
    for package in packages:
        if subprocess.run([*query, package], capture_output=True, text=True, check=False).stdout != "installed":
            missing.append(f"the Debian package {package}")
    if missing:
        sys.exit(f"run: missing: {', '.join(missing)}")


def build(crate):
    """The program of a crate, proved and built."""
    subprocess.run(["scripts/build", crate, "some minutes"], cwd=TOP, check=True, stdout=sys.stderr)
    return TOP / "crates" / crate / "out" / crate


def library():
    """The folder of the library in C."""
    subprocess.run(["scripts/library"], cwd=TOP, check=True, stdout=sys.stderr)
    return TOP / "out/library"


def compiled(name, *words):
    """The program that these words of the compiler make."""
    OUT.mkdir(parents=True, exist_ok=True)
    subprocess.run(["cc", "-std=gnu11", "-O2", "-Wall", "-Wextra", "-o", OUT / name, *words], cwd=TOP, check=True)
    return OUT / name


def stores():
    """The programs that STORES names, or all: built."""
    only = os.environ.get("STORES", "")
    chosen = [program for program in ALL if not only or program.name in only.split(",")]
    names = {program.name for program in chosen}
    need("cargo", packages=["librust-dashmap-dev", "liburcu-dev"])
    if "camel_vlr" in names:
        build("camel_bench")
    features = []
    if "libwenqolo" in names:
        library()
        features = ["--features", "library"]
    subprocess.run(["cargo", "build", "--release", "--quiet", *features], cwd=PEERS, check=True)
    return chosen


def script(kind, *numbers):
    """The script of the workload for these numbers. It is kept until the measurement ends."""
    OUT.mkdir(parents=True, exist_ok=True)
    path = OUT / ("-".join(map(str, (kind, *numbers))) + ".csv")
    if not path.exists():
        with path.open("w") as file:
            file.writelines(getattr(workload, kind)(*numbers))
    return path


def drop_scripts():
    for path in OUT.glob("*.csv"):
        path.unlink()


def answer(command, path):
    """What a program prints over a script. It ends the measurement if the program fails, or takes ten minutes."""
    with path.open("rb") as file, tempfile.TemporaryFile("w+") as printed:
        words = ["timeout", "--foreground", "600", *map(str, command)]
        status = subprocess.run(words, stdin=file, stdout=printed, check=False).returncode
        if status != 0:
            sys.exit(f"run: {' '.join(words[3:])} over {path.name} ended with status {status}")
        printed.seek(0)
        return printed.read()


def octets_held(command, path):
    """The memory of a program that has read a script, and waits for more."""
    with subprocess.Popen([*map(str, command)], stdin=subprocess.PIPE, stdout=subprocess.DEVNULL) as process:
        with path.open("rb") as file:
            shutil.copyfileobj(file, process.stdin)
        process.stdin.flush()
        waited = 0
        while waited < 10 and process.poll() is None:
            time.sleep(0.02)
            state = Path(f"/proc/{process.pid}/stat").read_text().rpartition(")")[2].split()[0]
            waited = waited + 1 if state == "S" else 0
        pages = Path(f"/proc/{process.pid}/statm").read_text().split()[1]
        return int(pages) * os.sysconf("SC_PAGE_SIZE")


def least_of(commands, turns, measure):
    """The least that is measured of each command, by turns, so that what else the machine does concerns all alike."""
    least = {}
    for _ in range(turns):
        for name, command in commands.items():
            figure = measure(command)
            least[name] = min(figure, least.get(name, figure))
    return least


def numbers_from(name, fallback):
    """The numbers of a variable of the environment, which commas separate."""
    return [int(word) for word in os.environ.get(name, fallback).split(",")]


def rounded(figure):
    """A figure with three digits."""
    return f"{figure:.0f}" if figure >= 100 else f"{figure:.1f}" if figure >= 10 else f"{figure:.2f}"
