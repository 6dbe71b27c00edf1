"""Finds the program that the tests drive.

The environment variable IPMD names it. Where it isn't set, the program is the proved one, if `./build` made it of these
sources; and else the unproved one, which `./try` compiles where a source has changed.
"""
import functools
import os
import pathlib
import subprocess

TOP = pathlib.Path(__file__).resolve().parent.parent
PROVED = TOP / "crates" / "ipmd" / "out" / "ipmd"
UNPROVED = TOP / "unproved" / "ipmd-unproved"


def sources_sum():
    """The sum over the sources, as `./build` writes it beside the program."""
    words = ["bash", "-c", ". tools/kit.sh && sources_sum"]
    return subprocess.run(words, cwd=TOP, capture_output=True, text=True, check=True).stdout.strip()


def is_proved():
    """Whether the proved program is there, and made of these sources."""
    written = PROVED.with_name("ipmd.sources")
    return PROVED.is_file() and written.is_file() and written.read_text().strip() == sources_sum()


@functools.cache
def path():
    """The program's path."""
    named = os.environ.get("IPMD")
    if named:
        return os.path.abspath(named)
    if is_proved():
        return str(PROVED)
    subprocess.run(["./try", "--version"], cwd=TOP, check=True, stdout=subprocess.DEVNULL)
    return str(UNPROVED)
