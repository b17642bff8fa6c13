"""The columns of a batch in pieces, beside one run."""
from __future__ import annotations

from pathlib import Path
from typing import List

import pytest
from circuits import CIRCUITS, EXAMPLES, put_circuit, put_columns, put_example
from conftest import Farm

from cosmos.farm.batch import ColumnPiece, columns_in, cut_columns, cut_script

PIECES = ("1", "3", "7")
INVERTER = "p a Vdd out\nn a Gnd out\n"
# Columns have no values of buses, of which the adder has several.
OF_LETTERS = [name for name in EXAMPLES if name != "adder"]


@pytest.mark.parametrize("piece", PIECES)
@pytest.mark.parametrize("name", OF_LETTERS)
def test_rows_of_an_example_are_those_of_one_run(
    name: str, piece: str, tmp_path: Path, one_run: Farm, quick_farm: Farm
) -> None:
    put_example(name, tmp_path)
    put_columns(tmp_path, 10)
    whole = one_run("batch", "net", "10", "script")
    assert whole.status == 0
    assert quick_farm("batch", "--piece", piece, "net", "10", "script") == whole
    if columns_in((tmp_path / "script").read_bytes()) == 10:
        assert quick_farm("batch", "--piece", piece, "net", "script") == whole


@pytest.mark.parametrize("piece", PIECES)
@pytest.mark.parametrize("name", CIRCUITS)
def test_rows_of_a_circuit_are_those_of_one_run(
    name: str, piece: str, tmp_path: Path, one_run: Farm, quick_farm: Farm
) -> None:
    put_circuit(name, tmp_path)
    put_columns(tmp_path, 10)
    whole = one_run("batch", "net", "10", "script")
    assert whole.status == 0 and whole.out.count(b"\n") >= 100
    assert quick_farm("batch", "--piece", piece, "net", "script") == whole


REFUSED = [
    "set a=0110\nphase\nset b=0\n",
    "set a=0110\nphase\nset a=011\nphase\n",
    "set a=0110\nphase\nset a=01 a=0\n",
    "set a=0110\nphase\nset a=0z10\n",
    "set a=0110\nphase\nset a=011\xff\n",
    "set a=0110\nphase\nset =0110\n",
    "set a=0110\nphase\nset a=0110 out=0110\n",
    "set a=0110\nphase\nexpect a=0\n",
    "set a=0110\nphase\ncycle 2\n",
    "set a=0110\nphase\ncharge a=0110\n",
    "set a=0110\nphase\nset\n",
    "set a=0110\nphase\nset b=0110" + " " * 65_526 + "\n",
    "set a=0110\nphase\nset b=0110" + " " * 65_525 + "\n",
    "charge x=0110\n",
]


@pytest.mark.parametrize("piece", ("1", "2", "3"))
@pytest.mark.parametrize("text", REFUSED)
def test_a_refused_script_has_the_rows_before_it_and_one_refusal(
    text: str, piece: str, tmp_path: Path, one_run: Farm, quick_farm: Farm
) -> None:
    (tmp_path / "net").write_text(INVERTER)
    (tmp_path / "script").write_bytes(b"input a\nwatch a out\n" + text.encode("latin-1"))
    whole = one_run("batch", "net", "4", "script")
    assert whole.status == 4
    ran = quick_farm("batch", "--piece", piece, "net", "4", "script")
    assert (ran.status, ran.out) == (whole.status, whole.out)
    assert ran.said.split(b"'")[0] == whole.said.split(b"'")[0]


@pytest.mark.parametrize("last", ["", "\n", "\r\n", "\n| end\n", "\n\n\tset  a=XX00\t a=1\r\n phase"])
def test_the_end_of_a_script_may_have_a_line_feed_or_none(last: str, tmp_path: Path, one_run: Farm, quick_farm: Farm) -> None:
    (tmp_path / "net").write_text(INVERTER)
    (tmp_path / "script").write_bytes(b"input a\nwatch a out\nset a=0110\r\nphase" + last.encode())
    assert quick_farm("batch", "--piece", "1", "net", "script") == one_run("batch", "net", "4", "script")


@pytest.mark.parametrize("columns", ["0", "65", "-1", "x", "", "00004", "4"])
def test_a_number_of_columns_is_read_as_by_one_run(columns: str, tmp_path: Path, one_run: Farm, quick_farm: Farm) -> None:
    (tmp_path / "net").write_text(INVERTER)
    (tmp_path / "script").write_text("input a\nwatch a out\nset a=0\nphase\n")
    assert quick_farm("batch", "--piece", "3", "--", "net", columns, "script") == one_run("batch", "net", columns, "script")


@pytest.mark.parametrize("missing", ["net", "script"])
@pytest.mark.parametrize("netlist", [INVERTER, "p a\n"])
def test_missing_files_and_refused_netlists_are_told_as_by_one_run(
    netlist: str, missing: str, tmp_path: Path, one_run: Farm, quick_farm: Farm
) -> None:
    (tmp_path / "net").write_text(netlist)
    (tmp_path / "script").write_text("input a\nset a=0110\nphase\n")
    (tmp_path / missing).unlink()
    assert quick_farm("batch", "net", "4", "script") == one_run("batch", "net", "4", "script")


def test_one_piece_needs_no_cluster(tmp_path: Path, one_run: Farm, farm: Farm) -> None:
    (tmp_path / "net").write_text(INVERTER)
    (tmp_path / "script").write_text("input a\nwatch a out\nset a=0110\nphase\n")
    assert farm("batch", "net", "script") == one_run("batch", "net", "4", "script")


def test_more_columns_than_one_run_has_are_those_of_several(tmp_path: Path, one_run: Farm, farm: Farm) -> None:
    put_circuit("multiplier", tmp_path)
    put_columns(tmp_path, 150)
    ran = farm("batch", "--workers", "2", "net", "script")
    text = (tmp_path / "script").read_bytes()
    wanted: List[bytes] = []
    for column in range(150):
        (tmp_path / "one").write_bytes(cut_script(text, ColumnPiece(column, 1, 150)))
        wanted.append(one_run("sim", "net", "one").out)
    rows = zip(*(lines.splitlines(keepends=True) for lines in wanted))
    assert ran.out == b"".join(b"%d %s" % (column, line) for row in rows for column, line in enumerate(row, 1))
    assert ran.status == 0


def test_a_cut_script_is_as_long_and_has_the_letters_of_its_columns() -> None:
    text = b"set a=0110 b=1\r\n| set a=0110\nclock a=0110\n charge x==XX01\tc=01"
    assert cut_script(text, ColumnPiece(1, 2, 4)) == (
        b"set a=11   b=1\r\n| set a=0110\nclock a=0110\n charge x==X0  \tc=0?"
    )


def test_pieces_of_columns_are_alike_and_no_more_than_are_needed() -> None:
    assert [piece.size for piece in cut_columns(64, None)] == [64]
    assert [piece.size for piece in cut_columns(65, None)] == [33, 32]
    assert [piece.size for piece in cut_columns(10, 3)] == [3, 3, 3, 1]
    assert [piece.size for piece in cut_columns(100, 80)] == [64, 36]
