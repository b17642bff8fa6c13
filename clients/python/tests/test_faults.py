"""A list of faults in pieces, beside one run."""
from __future__ import annotations

import os
import subprocess
from pathlib import Path

import pytest
from circuits import CIRCUITS, EXAMPLES, put_circuit, put_example, put_faults
from conftest import CLIENT, FARM, ROOT, Farm

PIECES = ("1", "3", "7")
WORDS = ("net", "script", "list")


@pytest.mark.parametrize("piece", PIECES)
@pytest.mark.parametrize("name", EXAMPLES)
def test_verdicts_of_an_example_are_those_of_one_run(
    name: str, piece: str, tmp_path: Path, one_run: Farm, quick_farm: Farm
) -> None:
    put_example(name, tmp_path)
    put_faults(tmp_path, 20)
    whole = one_run("faults", *WORDS)
    assert whole.status == 0 and whole.out.count(b"\n") == 25
    assert quick_farm("faults", "--piece", piece, *WORDS) == whole


@pytest.mark.parametrize("piece", PIECES)
@pytest.mark.parametrize("name", CIRCUITS)
def test_verdicts_of_a_circuit_are_those_of_one_run(
    name: str, piece: str, tmp_path: Path, one_run: Farm, quick_farm: Farm
) -> None:
    put_circuit(name, tmp_path)
    put_faults(tmp_path, 30)
    whole = one_run("faults", *WORDS)
    assert whole.status == 0 and whole.out.count(b"\n") == 37
    assert quick_farm("faults", "--piece", piece, *WORDS) == whole


def test_the_example_is_as_the_readme_says(tmp_path: Path, quick_farm: Farm) -> None:
    put_example("nand-gate", tmp_path)
    (tmp_path / "list").write_bytes((ROOT / "examples/nand-gate.faults").read_bytes())
    wanted = (ROOT / "examples/nand-gate.verdicts").read_text()
    assert quick_farm("faults", "--piece", "3", *WORDS).out == wanted.encode()
    assert f"```text\n{wanted}```\n" in (CLIENT / "README.md").read_text()


@pytest.mark.parametrize("last", ["", "\n", "\r\n", "\n\n| end", "\nopen 2"])
def test_the_end_of_a_list_may_have_a_line_feed_or_none(last: str, tmp_path: Path, one_run: Farm, quick_farm: Farm) -> None:
    put_example("nand-gate", tmp_path)
    (tmp_path / "list").write_text("open 1\n\nzero a\nzero a" + last)
    assert quick_farm("faults", "--piece", "1", *WORDS) == one_run("faults", *WORDS)


@pytest.mark.parametrize("text", ["", "\n", "| nothing\n\n  \t\n\r\n", "|"])
def test_a_list_without_faults_counts_none(text: str, tmp_path: Path, one_run: Farm, farm: Farm) -> None:
    put_example("nand-gate", tmp_path)
    (tmp_path / "list").write_text(text)
    whole = one_run("faults", *WORDS)
    assert whole.out == b"faults 0 detected 0 possible 0 undetected 0 refused 0\n"
    assert farm("faults", *WORDS) == whole


def test_a_script_that_reports_keeps_and_edits_has_the_verdicts_of_one_run(
    tmp_path: Path, one_run: Farm, quick_farm: Farm
) -> None:
    put_example("repaired-gate", tmp_path)
    with open(tmp_path / "script", "a") as script:
        script.write("\nkeep 1\nreport\nstrength 1 1\nphase\nreport\n")
    put_faults(tmp_path, 12)
    assert quick_farm("faults", "--piece", "2", *WORDS) == one_run("faults", *WORDS)


BAD = {"net": "p a Vdd\n", "script": "input a\nset b=0\n", "list": "open 1\n\nopen 9\nzero Vdd\n"}


@pytest.mark.parametrize("missing", [(), ("net",), ("script",), ("list",), ("script", "list"), ("net", "list")])
@pytest.mark.parametrize("refused", [(), ("net",), ("script",), ("list",), ("script", "list"), ("net", "script", "list")])
def test_refusals_and_missing_files_are_told_as_by_one_run(
    refused: tuple[str, ...], missing: tuple[str, ...], tmp_path: Path, one_run: Farm, quick_farm: Farm
) -> None:
    put_example("inverter", tmp_path)
    (tmp_path / "list").write_text("open 1\nzero a\n")
    for name in refused:
        (tmp_path / name).write_text(BAD[name])
    for name in missing:
        (tmp_path / name).unlink()
    assert quick_farm("faults", *WORDS) == one_run("faults", *WORDS)


def test_a_cluster_of_its_own_has_the_answer_of_one_run(tmp_path: Path, one_run: Farm, farm: Farm) -> None:
    put_circuit("rotator", tmp_path)
    put_faults(tmp_path, 40)
    assert farm("faults", "--workers", "2", *WORDS) == one_run("faults", *WORDS)


def test_the_list_may_be_a_pipe(tmp_path: Path, program: str, one_run: Farm) -> None:
    put_example("nand-gate", tmp_path)
    put_faults(tmp_path, 9)
    done = subprocess.run(
        [*FARM, "faults", "--program", program, "--workers", "1", "net", "script", "/dev/stdin"],
        cwd=tmp_path,
        input=(tmp_path / "list").read_bytes(),
        capture_output=True,
        env={**os.environ, "PYTHONPATH": str(CLIENT)},
        check=True,
    )
    assert done.stdout == one_run("faults", *WORDS).out
