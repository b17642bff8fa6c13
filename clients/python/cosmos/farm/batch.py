"""The columns of a batch in pieces.

Each column does what it would do alone. So a piece is the script with the letters of its own columns in the values of `set`
and `charge`, and all other words as they are; a script that is refused is refused in each piece at the same line, after the
same rows. Blanks fill the place of the letters that are cut, so no line and no file gets shorter: what is refused for its
length stays refused. Put together, the rows of all pieces stand beside each other, and the refusal comes once, last.

One run has 64 columns at most. The pieces of a script have more of them together, if its values have more letters.
"""
from __future__ import annotations

import re
import tempfile
from dataclasses import dataclass
from pathlib import Path
from typing import Iterator, List, Optional, Sequence, Tuple

from cosmos.farm.pieces import Place
from cosmos.farm.program import DONE, SCRIPT_REFUSED, FarmFault, Ran, Words, run

MOST_IN_A_RUN = 64

WORD = re.compile(rb"[^ \t\r]+")
LETTERS = re.compile(rb"[01Xx]{2,}")


@dataclass(frozen=True)
class ColumnPiece:
    """Columns that follow one another: how many stand before them, how many they are, and how many there are in all."""

    before: int
    size: int
    whole: int

    def words(self, place: Place) -> Words:
        """The words of the program's command line."""
        part = self.script_at(place)
        part.write_bytes(cut_script(place.script.read_bytes(), self))
        return ["batch", place.netlist, str(self.size), part]

    def script_at(self, place: Place) -> Path:
        """Each piece has a script of its own."""
        return place.room / "script"

    def put_right(self, out: bytes) -> bytes:
        """Each line begins with the number of its column, but for that of a refusal."""
        if not self.before:
            return out
        return b"".join(self._renumbered(line) for line in out.splitlines(keepends=True))

    def _renumbered(self, line: bytes) -> bytes:
        """A line with its column's number in the whole."""
        number, blank, rest = line.partition(b" ")
        return b"%d%s%s" % (self.before + int(number), blank, rest) if number.isdigit() else line


def is_cut(line: bytes) -> bool:
    """Whether the values of a script's line have a letter for each column."""
    command = WORD.search(line)
    return command is not None and command.group() in (b"set", b"charge")


def letters_of(word: bytes) -> bytes:
    """The letters of an assignment that has several."""
    name, _, value = word.rpartition(b"=")
    return value if name and LETTERS.fullmatch(value) else b""


def columns_in(script: bytes) -> int:
    """How many columns a script is for: as many as its first value with several letters has."""
    for line in filter(is_cut, script.split(b"\n")):
        for word in WORD.findall(line):
            if letters_of(word):
                return len(letters_of(word))
    return 1


def cut_script(script: bytes, piece: ColumnPiece) -> bytes:
    """The script of a piece, which is as long."""
    lines = script.split(b"\n")
    return b"\n".join(WORD.sub(lambda word: cut_word(word.group(), piece), line) if is_cut(line) else line for line in lines)


def cut_word(word: bytes, piece: ColumnPiece) -> bytes:
    """A word of `set` or `charge` in the script of a piece. What doesn't fit the columns mustn't fit the piece's either."""
    letters = letters_of(word)
    if not letters:
        return word
    if len(letters) != piece.whole:
        return word[:-1] + b"?"
    begin = len(word) - len(letters)
    return (word[:begin] + letters[piece.before : piece.before + piece.size]).ljust(len(word))


def cut_columns(columns: int, size: Optional[int]) -> List[ColumnPiece]:
    """The pieces of so many columns, in order.

    64 columns take little more time than one does. So there are no more pieces than they need, and these are alike.
    """
    if size is None:
        size = -(-columns // -(-columns // MOST_IN_A_RUN))
    size = min(size, MOST_IN_A_RUN)
    return [ColumnPiece(before, min(size, columns - before), columns) for before in range(0, columns, size)]


def run_here(program: str, names: Sequence[str], texts: Sequence[bytes], columns: int) -> Ran:
    """One run of a netlist and a script in so many columns, by the program of this machine."""
    with tempfile.TemporaryDirectory(prefix="cosmos-farm-") as folder:
        paths = [Path(folder, "net"), Path(folder, "script")]
        for path, text in zip(paths, texts):
            path.write_bytes(text)
        return run(program, ["batch", paths[0], str(columns), paths[1]], dict(zip(paths, names)))


def parted(ran: Ran) -> Tuple[bytes, bytes]:
    """The rows of a run, and the line of its refusal, which is empty if there is none."""
    if ran.status == DONE:
        return ran.out, b""
    rows, feed, refusal = ran.out[:-1].rpartition(b"\n")
    return rows + feed, refusal + b"\n"


def rows_of(text: bytes, columns: int) -> List[bytes]:
    """The rows of a run in so many columns, with a line for each of them."""
    lines = text.splitlines(keepends=True)
    return [b"".join(lines[at : at + columns]) for at in range(0, len(lines), columns)]


def merged(pieces: Sequence[ColumnPiece], runs: Sequence[Ran]) -> Iterator[bytes]:
    """What one run of all columns writes, row by row."""
    for piece, ran in zip(pieces, runs):
        if ran.status not in (DONE, SCRIPT_REFUSED):
            raise FarmFault(f"the run of the columns from {piece.before + 1} on ended with status {ran.status}")
    parts = [parted(ran) for ran in runs]
    rows = [rows_of(text, piece.size) for piece, (text, _) in zip(pieces, parts)]
    refusals = {refusal for _, refusal in parts}
    if len(refusals) > 1 or len({len(of_piece) for of_piece in rows}) > 1:
        raise FarmFault("the columns' runs differ in how many lines they write, or in what is refused")
    for row in zip(*rows):
        yield b"".join(row)
    yield refusals.pop()
