"""Workers that die, outputs that can't be written, and clusters that aren't there."""
from __future__ import annotations

import os
import re
import subprocess
from contextlib import suppress
from pathlib import Path
from typing import List, Set

import pytest
from circuits import put_circuit, put_faults
from conftest import CLIENT, FARM, Farm

WORDS = ("net", "script", "list")


def put_killer(folder: Path, program: str, piece: int, times: int) -> str:
    """A program that notes each run, and for a piece kills the worker that runs it, so many times, before it is run."""
    path = folder / "killer"
    path.write_text(
        f"""#!/bin/sh
# under `faults` the fourth word is the list
part=$(basename "$4")
echo "$part" >> {folder}/noted
if [ "$part" = list-from-{piece} ] && [ "$(grep -c "^$part$" {folder}/noted)" -le {times} ]; then
    kill -9 $PPID
    exit 1
fi
exec {program} "$@"
"""
    )
    path.chmod(0o755)
    return str(path)


def put_many(folder: Path) -> List[str]:
    """Puts a circuit with a list of 30 faults, a line each, into a folder, and gives the names of their pieces of three."""
    put_circuit("rotator", folder)
    put_faults(folder, 40)
    faults = [line for line in (folder / "list").read_text().split("\n") if line[:1] in ("o", "c", "z")][:30]
    (folder / "list").write_text("\n".join(faults) + "\n")
    return [f"list-from-{first}" for first in range(1, 31, 3)]


def noted(folder: Path) -> List[str]:
    """The pieces that were begun, by their names."""
    return sorted(name for name in (folder / "noted").read_text().split() if name.startswith("list-from-"))


def test_the_piece_of_a_killed_worker_runs_again(tmp_path: Path, program: str, one_run: Farm, farm: Farm) -> None:
    pieces = put_many(tmp_path)
    killer = put_killer(tmp_path, program, 13, 1)
    ran = farm("faults", "--program", killer, "--workers", "3", "--piece", "3", *WORDS)
    assert (ran.status, ran.out) == (0, one_run("faults", *WORDS).out)
    begun = noted(tmp_path)
    assert begun.count("list-from-13") == 2
    assert set(begun) == set(pieces)


def test_the_only_worker_may_be_killed(tmp_path: Path, program: str, one_run: Farm, farm: Farm) -> None:
    pieces = put_many(tmp_path)
    killer = put_killer(tmp_path, program, 13, 2)
    ran = farm("faults", "--program", killer, "--workers", "1", "--piece", "3", *WORDS)
    assert (ran.status, ran.out) == (0, one_run("faults", *WORDS).out)
    assert noted(tmp_path).count("list-from-13") == 3
    assert set(noted(tmp_path)) == set(pieces)


def test_a_piece_that_kills_each_worker_ends_the_farm(tmp_path: Path, program: str, one_run: Farm, farm: Farm) -> None:
    put_many(tmp_path)
    killer = put_killer(tmp_path, program, 13, 99)
    ran = farm("faults", "--program", killer, "--workers", "3", "--piece", "3", *WORDS)
    assert ran.status == 8
    assert one_run("faults", *WORDS).out.startswith(ran.out)
    assert ran.said.splitlines()[-1].startswith(b"cosmos-farm: the workers ")


def test_a_program_that_is_ended_by_a_signal_runs_again(tmp_path: Path, program: str, one_run: Farm, farm: Farm) -> None:
    put_many(tmp_path)
    killer = Path(put_killer(tmp_path, program, 13, 1))
    killer.write_text(killer.read_text().replace("kill -9 $PPID", "kill -9 $$"))
    ran = farm("faults", "--program", str(killer), "--workers", "2", "--piece", "3", *WORDS)
    assert (ran.status, ran.out) == (0, one_run("faults", *WORDS).out)
    assert noted(tmp_path).count("list-from-13") == 2


def test_a_program_that_is_out_of_memory_ends_the_farm_so(tmp_path: Path, program: str, one_run: Farm, farm: Farm) -> None:
    put_many(tmp_path)
    killer = Path(put_killer(tmp_path, program, 13, 99))
    killer.write_text(killer.read_text().replace("kill -9 $PPID", "").replace("exit 1", "exit 7"))
    ran = farm("faults", "--program", str(killer), "--workers", "2", "--piece", "3", *WORDS)
    assert ran.status == 7
    assert one_run("faults", *WORDS).out.startswith(ran.out)


def listening_of(process: int) -> List[str]:
    """The addresses at which a process listens, as Linux has them."""
    sockets: Set[str] = set()
    for entry in list(Path(f"/proc/{process}/fd").iterdir()):
        with suppress(FileNotFoundError):  # such as that of the folder itself
            found = re.fullmatch(r"socket:\[(\d+)\]", os.readlink(entry))
            sockets.update(found.groups() if found else ())
    tables = [table for table in (Path("/proc/net/tcp"), Path("/proc/net/tcp6")) if table.exists()]
    lines = [line.split() for table in tables for line in table.read_text().splitlines()[1:]]
    return [words[1].split(":")[0] for words in lines if words[3] == "0A" and words[9] in sockets]


def test_a_cluster_listens_on_this_machine_only(tmp_path: Path) -> None:
    from cosmos.farm.pool import client_of

    with client_of(None, 2) as client:
        processes = [os.getpid(), *client.run(os.getpid).values()]
        addresses = [address for process in processes for address in listening_of(process)]
    assert len(processes) == 3 and len(addresses) >= 4
    assert set(addresses) == {"0100007F"}


def test_a_full_device_is_a_write_fault(tmp_path: Path, program: str) -> None:
    put_many(tmp_path)
    words = ["--program", program, "--workers", "1", *WORDS]
    with open("/dev/full", "wb") as full:
        done = subprocess.run(
            [*FARM, "faults", *words],
            cwd=tmp_path,
            stdout=full,
            stderr=subprocess.PIPE,
            env={**os.environ, "PYTHONPATH": str(CLIENT)},
            check=False,
        )
    assert done.returncode == 6
    assert done.stderr == b"cosmos: the output can't be written: No space left on device (os error 28)\n"


@pytest.mark.parametrize("words", [("--program", "./nothing"), ("--program", "nothing-of-this-name")])
def test_a_program_that_is_not_there_is_told(words: tuple[str, ...], tmp_path: Path, farm: Farm) -> None:
    put_many(tmp_path)
    ran = farm("faults", *words, *WORDS)
    assert (ran.status, ran.out) == (8, b"")
    assert ran.said.startswith(b"cosmos-farm: ") and b"can't be run" in ran.said


def test_a_scheduler_that_is_not_there_is_told(tmp_path: Path, farm: Farm) -> None:
    put_many(tmp_path)
    ran = farm("faults", "--scheduler", "tcp://127.0.0.1:9", *WORDS)
    assert (ran.status, ran.out) == (8, b"")
    assert ran.said.startswith(b"cosmos-farm: the cluster failed: ")


@pytest.mark.parametrize("words", [(), ("faults",), ("faults", "net"), ("batch", "--piece", "0", "net", "script"), ("sim",)])
def test_other_words_are_no_command_line(words: tuple[str, ...], tmp_path: Path) -> None:
    done = subprocess.run(
        [*FARM, *words], cwd=tmp_path, capture_output=True, env={**os.environ, "PYTHONPATH": str(CLIENT)}, check=False
    )
    assert (done.returncode, done.stdout) == (2, b"")
