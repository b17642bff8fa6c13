"""The repository's rows of `faults` and `batch`: each run as the gate runs it, by the farm."""
from __future__ import annotations

import shutil
import subprocess
from pathlib import Path

import pytest
from conftest import ROOT, Farm

FORMS = {"faults": 4, "batch": 4}


def is_run(row: Path) -> bool:
    """Whether a row is a command line of the farm's requests, which the program is called with as it is."""
    if not (row / "args").exists() or (row / "how").exists():
        return False
    words = (row / "args").read_text().split("\n")[:-1]
    return words != [] and FORMS.get(words[0]) == len(words)


ROWS = [row.name for row in sorted((ROOT / "rows").iterdir()) if is_run(row)]


@pytest.mark.parametrize("name", ROWS)
def test_a_row_is_as_it_should_be(name: str, tmp_path: Path, quick_farm: Farm) -> None:
    row = ROOT / "rows" / name
    shutil.copytree(row, tmp_path, dirs_exist_ok=True)
    if (row / "make").exists():
        subprocess.run(["sh", "./make"], cwd=tmp_path, check=True)
    request, *words = (row / "args").read_text().split("\n")[:-1]
    ran = quick_farm(request, "--piece", "1", *words)
    assert (ran.status, ran.out) == (int((row / "status").read_text()), (row / "stdout").read_bytes())
    if (row / "stderr").exists():
        assert ran.said == (row / "stderr").read_bytes()
