"""What the tests share: the program, workers, and the farm's answer beside that of one run."""
from __future__ import annotations

import os
import subprocess
import sys
import tempfile
from pathlib import Path
from typing import Callable, Iterator, List

import pytest

from cosmos.farm.pool import cluster_of
from cosmos.farm.program import Ran

CLIENT = Path(__file__).resolve().parents[1]
ROOT = CLIENT.parents[1]
FARM = [sys.executable, "-m", "cosmos", "farm"]

Farm = Callable[..., Ran]


def pytest_addoption(parser: pytest.Parser) -> None:
    """The option that names the program."""
    parser.addoption("--program", default=str(ROOT / "crates/cosmos/out/cosmos"), help="the built program")


@pytest.fixture(scope="session")
def program(pytestconfig: pytest.Config) -> str:
    """The program's path."""
    path: str = os.path.abspath(pytestconfig.getoption("--program"))
    assert os.access(path, os.X_OK), f"{path} isn't a program; --program PATH says where it is"
    return path


@pytest.fixture(scope="session")
def scheduler() -> Iterator[str]:
    """The address of a scheduler with three workers."""
    with tempfile.TemporaryDirectory() as folder, cluster_of(3, folder) as cluster:
        yield cluster.scheduler_address


def answer(words: List[str], folder: Path) -> Ran:
    """The answer to a command line in a folder."""
    done = subprocess.run(words, cwd=folder, capture_output=True, env={**os.environ, "PYTHONPATH": str(CLIENT)}, check=False)
    return Ran(done.returncode, done.stdout, done.stderr)


@pytest.fixture
def one_run(program: str, tmp_path: Path) -> Farm:
    """The answer of one run to these words."""
    return lambda *words: answer([program, *words], tmp_path)


@pytest.fixture
def farm(program: str, tmp_path: Path) -> Farm:
    """The answer of the farm to these words, with a cluster of its own if they name none."""
    return lambda *words: answer([*FARM, words[0], "--program", program, *words[1:]], tmp_path)


@pytest.fixture
def quick_farm(program: str, tmp_path: Path, scheduler: str, capfdbinary: pytest.CaptureFixture[bytes]) -> Farm:
    """The same on the workers that run already, in this process, which is quicker."""
    from cosmos.farm import command

    def ask(*words: str) -> Ran:
        """The answer to these words."""
        at = os.getcwd()
        os.chdir(tmp_path)
        try:
            capfdbinary.readouterr()
            status = command.main([words[0], "--program", program, "--scheduler", scheduler, *words[1:]])
        finally:
            os.chdir(at)
        written = capfdbinary.readouterr()
        return Ran(status, written.out, written.err)

    return ask
