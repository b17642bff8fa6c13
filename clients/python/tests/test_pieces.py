"""How work is cut, and how it comes back in order."""
from __future__ import annotations

import pytest

from cosmos.farm.faults import FaultPiece, cut_list
from cosmos.farm.pieces import in_order, piece_sizes
from cosmos.farm.program import Ran


@pytest.mark.parametrize("whole", [0, 1, 2, 23, 1000, 65_537])
@pytest.mark.parametrize("workers", [1, 4, 100])
@pytest.mark.parametrize("size", [None, 1, 7, 100_000])
def test_pieces_make_up_the_whole(whole: int, workers: int, size: int | None) -> None:
    sizes = list(piece_sizes(whole, workers, size))
    assert sum(sizes) == whole
    assert all(this > 0 for this in sizes)
    assert sizes == sorted(sizes, reverse=True)
    if size is None:
        assert len(sizes) <= 8 * workers


def test_a_list_is_cut_at_its_faults() -> None:
    text = b"| one\nopen 1\n\n\topen 2\r\n|\n\nopen 2\nzero a"
    assert list(cut_list(text, 1, 2)) == [FaultPiece(1, 2, b"open 1\n\n\topen 2\r"), FaultPiece(6, 2, b"open 2\nzero a")]


def test_runs_come_back_in_order() -> None:
    runs = [Ran(0, b"%d" % place, b"") for place in range(4)]
    assert list(in_order((place, runs[place]) for place in (2, 0, 1, 3))) == list(enumerate(runs))
