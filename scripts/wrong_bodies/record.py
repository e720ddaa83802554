"""The record of a crate's wrong bodies that were refused, with checksums of what a refusal rests on."""

import hashlib
from pathlib import Path

from wrong_bodies import crates_below
from wrong_bodies.edit import Edit, edits_of
from wrong_bodies.layout import stated

REASON = 100


def file_of(crate):
    return Path("crates", crate, "refused.txt")


def statements_sum(crate):
    """A checksum of what a refusal rests on beside the edit: the contracts and signatures of the crate, and its
    definitions and those of the crates below, in whichever files these are."""
    files = sorted(Path("crates", crate).glob("src/**/*.rt"))
    own = ["\n".join([str(file), *stated(file.read_text())]) for file in files]
    definitions = {f"{name} {it}" for name in crates_below(crate)
                   for file in Path("crates", name).glob("specs/**/*.antt") for it in stated(file.read_text())}
    return sum_of(*own, *sorted(definitions))


def sum_of(*texts):
    return hashlib.sha256("\0".join(texts).encode()).hexdigest()[:16]


def write(crate, refused):
    """Writes the record of a crate, of its edits and why the prover refuses each."""
    lines = [f"{edit.name} {sum_of(edit.text)} {' '.join(why.split())[:REASON]}".rstrip() for edit, why in refused]
    file_of(crate).write_text("".join(f"{line}\n" for line in [f"contracts {statements_sum(crate)}", *lines]))


def faults_of(crate):
    """What is to be tried again, or cannot be tried, of the edits of a crate and of those that `rt must-fail` tries."""
    edits, file = edits_of(crate), file_of(crate)
    tried_by_rt = sorted(Path("crates", crate, "must-fail").glob("*.edit"))
    for edit in [*edits, *(Edit(crate, it.stem, it.read_text()) for it in tried_by_rt)]:
        if edit.fault:
            yield f"{crate}: {edit.name}: {edit.fault}"
    refused = {tuple(line.split(" ")[:2]) for line in file.read_text().splitlines()} if file.is_file() else set()
    own = {(edit.name, sum_of(edit.text)) for edit in edits}
    rests_on = {("contracts", statements_sum(crate))} if edits else set()
    again = f"is to be tried by `make edits CRATE={crate}`"
    if not rests_on <= refused:
        yield f"{crate}: a contract, a signature or a definition has changed since its edits were refused: each {again}"
    else:
        changed = sorted({name for name, _ in (refused - rests_on) ^ own})
        yield from (f"{crate}: {name}: this edit was not refused so: it {again}" for name in changed)
