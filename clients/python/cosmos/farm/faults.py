"""A list of faults in pieces.

The verdict on a fault depends on the netlist, the script and the fault alone. So each piece is the list with empty lines in
the place of those before it: its verdicts have the numbers of the whole list then. All refusals come before the first
verdict, and two short runs find them (`look`). What is left is the last line, whose counts are added up.
"""
from __future__ import annotations

import re
import tempfile
from dataclasses import astuple, dataclass
from pathlib import Path
from typing import Iterator, Optional, Sequence, Tuple

from cosmos.farm.pieces import Place, piece_sizes
from cosmos.farm.program import DONE, SCRIPT_REFUSED, FarmFault, Ran, Words, run

COUNTS = re.compile(rb"faults (\d+) detected (\d+) possible (\d+) undetected (\d+) refused (\d+)\n")


@dataclass(frozen=True)
class Counts:
    """The counts of the last line."""

    faults: int = 0
    detected: int = 0
    possible: int = 0
    undetected: int = 0
    refused: int = 0

    def __add__(self, more: Counts) -> Counts:
        return Counts(*(one + other for one, other in zip(astuple(self), astuple(more))))

    def line(self) -> bytes:
        """The last line."""
        return b"faults %d detected %d possible %d undetected %d refused %d\n" % astuple(self)


@dataclass(frozen=True)
class FaultPiece:
    """Lines of a list that follow one another: how many stand before them, how many faults they name, and the lines."""

    before: int
    size: int
    lines: bytes

    def words(self, place: Place) -> Words:
        """The words of the program's command line."""
        part = place.room / f"list-from-{self.before + 1}"
        part.write_bytes(b"\n" * self.before + self.lines)
        return ["faults", place.netlist, place.script, part]

    def script_at(self, place: Place) -> Path:
        """All pieces have the same script."""
        return place.script

    def put_right(self, out: bytes) -> bytes:
        """The numbers are right by the empty lines."""
        return out


def names_fault(line: bytes) -> bool:
    """Whether a line of a list that isn't refused names a fault: it has a word, and isn't a comment."""
    text = line.strip(b" \t\r")
    return bool(text) and not text.startswith(b"|")


def count_faults(text: bytes) -> int:
    """How many faults a list names that isn't refused."""
    return sum(map(names_fault, text.split(b"\n")))


def cut_list(text: bytes, workers: int, size: Optional[int]) -> Iterator[FaultPiece]:
    """The pieces of a list in order; there is none if it names no fault."""
    lines = text.split(b"\n")
    naming = [place for place, line in enumerate(lines) if names_fault(line)]
    begin = 0
    for count in piece_sizes(len(naming), workers, size):
        first, last = naming[begin], naming[begin + count - 1]
        yield FaultPiece(first, count, b"\n".join(lines[first : last + 1]))
        begin += count


def look(program: str, names: Sequence[str], texts: Sequence[bytes]) -> Ran:
    """The answer to this netlist, script and list if it is a refusal, else that to the list without its faults.

    Of the refusals that of the netlist comes first, then that of the list, then that of the script in the good run. So one
    run has a list without faults, and one has a script that is refused, which it tells only if the list is not.
    """
    with tempfile.TemporaryDirectory(prefix="cosmos-farm-") as folder:
        netlist, script, faults, nothing, refused = (Path(folder, name) for name in ("net", "script", "list", "none", "bad"))
        for path, text in zip((netlist, script, faults, nothing, refused), (*texts, b"", b"?\n")):
            path.write_bytes(text)
        shown = dict(zip((netlist, script, faults), names))
        good = run(program, ["faults", netlist, script, nothing], shown)
        if good.status not in (DONE, SCRIPT_REFUSED):
            return good
        listed = run(program, ["faults", netlist, refused, faults], shown)
        is_accepted = listed.status == SCRIPT_REFUSED and listed.out.startswith(b"script line 1: ")
        return good if is_accepted else listed


def verdicts(piece: FaultPiece, ran: Ran) -> Tuple[bytes, Counts]:
    """The lines of the verdicts on a piece's faults, and their counts."""
    body, _, last = ran.out[:-1].rpartition(b"\n")
    found = COUNTS.fullmatch(last + b"\n")
    if ran.status != DONE or found is None:
        raise FarmFault(f"the run of the list from line {piece.before + 1} on ended with status {ran.status}")
    counts = Counts(*map(int, found.groups()))
    if counts.faults != piece.size:
        raise FarmFault(f"the run of the list from line {piece.before + 1} on judged {counts.faults} faults, not {piece.size}")
    return body + b"\n", counts
