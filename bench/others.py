"""The replay beside a plain program, a switch with one event loop, and a decoded argument of MAP."""

import os
import shutil
import subprocess
import tempfile
import time
from pathlib import Path

from programs import OUT, SIZES, TOP, build, compiled, drop_scripts, least_of, library, need, numbers_from, script

# An InsertSubscriberDataArg: an IMSI, an MSISDN, a category, a status, and an O-CSI of two rows with an entry of each
# kind of criterion and one of causes.
ARGUMENT = bytes.fromhex(
    "308189800862020100000000f18108919471160000002182010a830100ad6da029302730110a0102020164800691947116000081010030120a"
    "01040202012c8006919471160000810101a44030310a0102a021800101a11404069194711621430404919455030404912143f5a20602010402"
    "010ba106830111820110820101300b0a0104a306040191040112"
)
DEFINED = f"-DARGUMENT={','.join(map(str, ARGUMENT))}"


def time_replay():
    need("rustc")
    replay, explain = build("camel_replay"), build("camel_explain")
    path, plain = script("replayed"), OUT / "plain"
    subprocess.run(["rustc", "-O", "-o", plain, TOP / "bench/plain.rs"], check=True)
    commands = {"camel_replay": [replay], "plain": [plain]}
    commands |= {f"--threads {count}": [replay, "--threads", str(count)] for count in (1, 2, 4)}
    commands["camel_explain --quiet"] = [explain, "--quiet"]

    def measure(command):
        """The seconds of a run, and the kilobytes that it had at most."""
        with path.open("rb") as file, (OUT / "output").open("wb") as output:
            begin = time.monotonic()
            process = subprocess.Popen(command, stdin=file, stdout=output)
            _, status, usage = os.wait4(process.pid, 0)
            process.returncode = os.waitstatus_to_exitcode(status)
        if process.returncode != 0:
            raise subprocess.CalledProcessError(process.returncode, command)
        return time.monotonic() - begin, usage.ru_maxrss

    least = least_of(commands, numbers_from("TURNS", "5")[0], measure)
    drop_scripts()
    for name, (seconds, kilobytes) in least.items():
        print(f"{name}: {seconds:.2f} s, {seconds / least['camel_replay'][0]:.2f} times camel_replay,"
              f" at most {kilobytes / 1024:.0f} MB")
    print(f"camel_replay to plain: {least['camel_replay'][0] / least['plain'][0]:.2f}")
    print(f"4 threads to 1: {least['--threads 4'][0] / least['--threads 1'][0]:.2f}")
    return 0


def time_loop():
    folder = library()
    program = compiled("event_loop", f"-I{folder}", "bench/event_loop.c", folder / "libwenqolo.a")
    return subprocess.run([program, *map(str, numbers_from("SIZES", SIZES))], check=False).returncode


def asn1c():
    """The program that times the decoder of asn1c."""
    with tempfile.TemporaryDirectory() as work:
        words = ["asn1c", "-fcompound-names", TOP / "bench/map/MapSubset.asn"]
        subprocess.run(words, cwd=work, check=True, capture_output=True)
        sources = [path for path in Path(work).glob("*.c") if not path.name.startswith("converter-")]
        return compiled("asn1c", "-w", "-DASN1C", f"-I{work}", DEFINED, "bench/map/decode.c", *sources, "-lm")


def time_map():
    """By the library, and by a decoder in C that asn1c makes, if it is there (the Debian package asn1c). Only the
    library checks what the data mean."""
    folder = library()
    flags = [f"-I{folder}", DEFINED, "bench/map/decode.c", folder / "libwenqolo.a"]
    commands = {"the library": compiled("library", *flags)}
    if shutil.which("asn1c"):
        commands["asn1c"] = asn1c()
    least = least_of(commands, 9, lambda program: float(subprocess.check_output([program])))
    print(f"an argument of {len(ARGUMENT)} octets")
    for name, nanoseconds in least.items():
        print(f"{name}: {nanoseconds:.0f} ns, {nanoseconds / least['the library']:.2f} of the library's")
    return 0
