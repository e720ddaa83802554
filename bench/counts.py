"""What simulators of valgrind count of looks and updates, so that nothing depends on what else the machine does."""

import re
import subprocess

from programs import OUT, drop_scripts, need, numbers_from, script, stores
from workload import call_count

FEWER, MORE = 1, 5  # The rounds of two runs. What a store takes to be made is in both.
# A far line is not in a cache of 1 MB. An update is counted with a cache of the machine's own size.
LOOKS = ("--cache-sim=yes", "--branch-sim=yes", "--LL=1048576,16,64")
UPDATES = ("--cache-sim=yes", "--toggle-collect=camel_bench::bench::publish*")


def valgrind(tool, command, path, *options):
    """The counts of a run by their names, those of the summary line of what the tool writes, and all that it writes."""
    file = OUT / f"{tool}.out"
    words = ["valgrind", "--fair-sched=try", f"--tool={tool}", f"--{tool}-out-file={file}", *options]
    with path.open("rb") as script_file, (OUT / "valgrind.log").open("w") as log:
        subprocess.run([*words, *map(str, command)], stdin=script_file, stdout=log, stderr=log, check=True)
    text = file.read_text()
    names = re.search(r"^events: (.*)", text, re.M).group(1).split()
    counts = re.findall(r"^(?:summary|totals): (.*)", text, re.M)[-1].split()
    return dict(zip(names, map(int, counts))), text


def of_a_look(command, known):
    """What cachegrind counts of a look more, by the rounds of the command."""
    path = script("run", known, 0, 0)
    fewer, more = (valgrind("cachegrind", [*command, rounds], path, *LOOKS)[0] for rounds in (FEWER, MORE))
    looks = (MORE - FEWER) * call_count(known)
    return {name: (more[name] - fewer[name]) / looks for name in more}


def of_an_update(command, known, batch, publications):
    """What callgrind counts of an update within publications."""
    none, some = (
        valgrind("callgrind", [*command, "run", 0, 0], script("run", known, batch, count), *UPDATES)[0]
        for count in (0, publications)
    )
    return {name: (count - none.get(name, 0)) / (batch * publications) for name, count in some.items()}


def searched(command, known):
    """Of a hundred looks, for how many camel_table searches all entries of a bucket, since the first one with the tag
    is of another key."""
    calls = []
    for rounds in FEWER, MORE:
        words = [*command, "table", rounds]
        _, text = valgrind("callgrind", words, script("run", known, 0, 0), "--compress-strings=no")
        found = re.findall(r"^cfn=[^\n]*camel_table::bucket::position::<[^\n]*\ncalls=(\d+)", text, re.M)
        calls.append(sum(map(int, found)))
    return 100 * (calls[1] - calls[0]) / ((MORE - FEWER) * call_count(known))


def print_look(name, command, known):
    look = of_a_look(command, known)
    print(f"{known} subscribers, a look of {name}: {look['Ir']:.0f} instructions,"
          f" {look['Bcm'] + look['Bim']:.2f} wrong guesses, {look['D1mr'] + look['D1mw']:.2f} lines not in the first"
          f" cache, {look['DLmr'] + look['DLmw']:.2f} far", flush=True)


def count_store():
    need("valgrind")
    # The table of urcu-qsbr grows by a thread of its own, so counts of two runs tell nothing of a look.
    programs = {program.name: program.command for program in stores() if program.name != "urcu-qsbr"}
    own = programs.get("camel_vlr")
    for known in numbers_from("SIZES", "1000,100000"):
        for name, command in programs.items():
            print_look(name, [*command, "run", 1], known)
        if own:
            print_look("the records with no store over them", [*own, "records"], known)
            print_look("the table with no records in it", [*own, "table"], known)
            print(f"{known} subscribers: of 100 such looks {searched(own, known):.1f} wait for another entry's line")
        for batch, publications in ((10, 200), (1000, 4)) if own else ():
            update = of_an_update(own, known, batch, publications)
            first, far = update["D1mr"] + update["D1mw"], update["DLmr"] + update["DLmw"]
            print(f"{known} subscribers, an update, published with {batch - 1} others: {update['Ir']:.0f} instructions,"
                  f" {first:.1f} lines not in the first cache, {far:.1f} from memory", flush=True)
    drop_scripts()
    return 0
