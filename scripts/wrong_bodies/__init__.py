"""The wrong bodies of crates/NAME/wrong-bodies.txt: how they are tried, and the record of those that were refused."""

import subprocess


def crates_below(crate):
    """The crates that a crate stands on, each after those that it uses, and last the crate."""
    ran = subprocess.run(["scripts/crates", crate], stdout=subprocess.PIPE, text=True, check=True)
    return ran.stdout.split()
