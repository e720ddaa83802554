"""Ctrl-C at a terminal, which sends SIGINT to all that a command has begun in its own group. The stand-in for the
toolchain goes on then, as `rt ci` does until its checks are done."""

import os
import signal

import pytest


@pytest.mark.parametrize("words", [
    ["scripts/build", "camel_replay", "a second"], ["scripts/library"], ["scripts/proofs"],
    ["scripts/try", "camel_explain"], ["make", "program"],
], ids=" ".join)
def test_ctrl_c_ends_at_once_what_a_script_has_begun(yard, words):
    run, _ = yard.begin_until_rt_waits(*words)
    os.killpg(run.pid, signal.SIGINT)
    # GNU make 4.3 ends with 2 if its line has ended before make has met the signal.
    assert run.wait(120) in ([-signal.SIGINT, 130, 2] if words[0] == "make" else [130])
    assert (yard.left(), len(yard.asked())) == ([], 1)
