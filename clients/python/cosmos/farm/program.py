"""Runs of the program `cosmos`, and the files that they read."""
from __future__ import annotations

import os
import subprocess
from dataclasses import dataclass
from pathlib import Path
from typing import Mapping, Sequence, Union

Words = Sequence[Union[str, Path]]

MOST_BYTES = 67_108_864
"""The most bytes of a file: the program reads one more, to see that there are too many."""

DONE = 0
SCRIPT_REFUSED = 4
"""The status if a line of the script, or of the list of faults, is refused."""
NOT_WRITTEN = 6
OUT_OF_MEMORY = 7
FARM_FAILED = 8
"""The farm's own status: what one run would have answered isn't known."""


class FarmFault(Exception):
    """The farm can't go on: a program, a worker or a scheduler isn't what it should be."""

    status = FARM_FAILED


class OutOfMemory(FarmFault):
    """The run of a piece was out of memory, wherever it was tried."""

    status = OUT_OF_MEMORY


@dataclass(frozen=True)
class Ran:
    """What a run came to: its status, and what it wrote to standard output and to standard error."""

    status: int
    out: bytes
    said: bytes


def read_input(name: str) -> bytes:
    """The bytes of a file, as far as the program reads them."""
    with open(name, "rb") as file:
        return file.read(MOST_BYTES + 1)


def everywhere(program: str) -> str:
    """The program's path as it holds in every folder. A name without a slash is looked up on the path of each worker."""
    return os.path.abspath(program) if os.sep in program else program


def run(program: str, words: Words, names: Mapping[Path, str]) -> Ran:
    """Runs the program on copies of files, and gives their names in the place of the copies' paths on standard error."""
    done = started(program, words, is_captured=True)
    if done.returncode < 0:
        raise FarmFault(f"{program} was ended by signal {-done.returncode}")
    said = done.stderr
    for path, name in names.items():
        said = said.replace(os.fsencode(path), os.fsencode(name))
    return Ran(done.returncode, done.stdout, said)


def run_plain(program: str, words: Words) -> int:
    """Runs the program on the files as they are named: it writes for itself, and its status is the answer."""
    status = started(program, words, is_captured=False).returncode
    return status if status >= 0 else 128 - status


def started(program: str, words: Words, is_captured: bool) -> subprocess.CompletedProcess[bytes]:
    """Runs the program to its end."""
    try:
        return subprocess.run([program, *words], stdin=subprocess.DEVNULL, capture_output=is_captured, check=False)
    except OSError as error:
        raise FarmFault(f"{program} can't be run: {error.strerror}; --program PATH says where it is") from None
