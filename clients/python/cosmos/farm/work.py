"""What is done on a worker: one piece, by one run of the program."""
from __future__ import annotations

import os
import shutil
import tempfile
from pathlib import Path

from distributed import get_worker

from cosmos.farm.pieces import Job, Piece, Place
from cosmos.farm.program import OUT_OF_MEMORY, OutOfMemory, Ran, run


def run_piece(job: Job, piece: Piece, netlist: bytes, script: bytes) -> Ran:
    """Runs a piece on the worker that calls this."""
    folder = folder_of(job, Path(get_worker().local_directory))
    folder.mkdir(parents=True, exist_ok=True)
    put(folder / "net", netlist)
    put(folder / "script", script)
    with tempfile.TemporaryDirectory(dir=folder) as room:
        place = Place(folder / "net", folder / "script", Path(room))
        ran = run(job.program, piece.words(place), {piece.script_at(place): job.script_name})
    if ran.status == OUT_OF_MEMORY:
        raise OutOfMemory("the run of a piece was out of memory")
    return Ran(ran.status, piece.put_right(ran.out), ran.said)


def folder_of(job: Job, local: Path) -> Path:
    """A run's folder in that of a worker."""
    return local / f"cosmos-{job.name}"


def put(path: Path, text: bytes) -> None:
    """Writes a file once. Another thread of the worker may be at it too, so it gets its name when it is whole."""
    if path.exists():
        return
    number, name = tempfile.mkstemp(dir=path.parent)
    with os.fdopen(number, "wb") as file:
        file.write(text)
    os.replace(name, path)


def clear(job: Job) -> None:
    """Removes a run's folder from the worker that calls this."""
    shutil.rmtree(folder_of(job, Path(get_worker().local_directory)), ignore_errors=True)
