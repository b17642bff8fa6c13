"""Pieces of work: what each of them has, how large they are, and how their runs come back in order."""
from __future__ import annotations

from dataclasses import dataclass
from pathlib import Path
from typing import Dict, Iterable, Iterator, Optional, Protocol, Tuple

from cosmos.farm.program import Ran, Words


@dataclass(frozen=True)
class Job:
    """What all pieces of a run have in common: a name of its own, the program, and what the user calls the script."""

    name: str
    program: str
    script_name: str


@dataclass(frozen=True)
class Place:
    """Where the netlist and the script are on a worker, and a folder that one piece has for itself."""

    netlist: Path
    script: Path
    room: Path


class Piece(Protocol):
    """A part of the work, which can be sent to a worker."""

    @property
    def size(self) -> int:
        """How many faults or columns it has."""

    def words(self, place: Place) -> Words:
        """The words of the program's command line. Files that only this piece has are written into its room."""

    def script_at(self, place: Place) -> Path:
        """The script among these words."""

    def put_right(self, out: bytes) -> bytes:
        """What the piece's run wrote, with the numbers of the whole."""


def piece_sizes(whole: int, workers: int, size: Optional[int]) -> Iterator[int]:
    """The sizes of pieces that make up a whole.

    They are `size`, if that is given. If not, they are large first and then smaller and smaller: each piece reads the
    netlist and takes the good run anew, so few pieces cost least, and with small ones at the end all workers end at about the same time.
    """
    least = max(1, whole // (16 * workers))
    left = whole
    while left > 0:
        this = min(left, max(least, left // (2 * workers)) if size is None else size)
        yield this
        left -= this


def in_order(ended: Iterable[Tuple[int, Ran]]) -> Iterator[Tuple[int, Ran]]:
    """Runs by their places, each as soon as those before it ended."""
    kept: Dict[int, Ran] = {}
    following = 0
    for place, ran in ended:
        kept[place] = ran
        while following in kept:
            yield following, kept.pop(following)
            following += 1
