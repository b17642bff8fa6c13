"""Netlists with scripts and lists of faults: the examples, and circuits of tools/circuits with few words and bits."""
from __future__ import annotations

import random
import re
import subprocess
import sys
from pathlib import Path
from typing import List

from conftest import ROOT

EXAMPLES = [path.stem for path in sorted((ROOT / "examples").glob("*.sim"))]
CIRCUITS = {
    "multiplier": "data_paths.py mult 3 4 1",
    "rotator": "data_paths.py barrel 4 6 1",
    "shift-register": "data_paths.py shift 2 6 1",
    "accumulator": "dynamic.py domino 1 4 1",
    "state-machine": "dynamic.py pla 1 6 1",
    "processor": "processor.py 256 fib 3 1",
}


def put_example(name: str, folder: Path) -> None:
    """Puts an example's netlist and script as `net` and `script` into a folder."""
    for suffix, target in (("sim", "net"), ("cmd", "script")):
        (folder / target).write_bytes((ROOT / f"examples/{name}.{suffix}").read_bytes())


def put_circuit(name: str, folder: Path) -> None:
    """The same with a circuit of tools/circuits."""
    generator, *words = CIRCUITS[name].split()
    subprocess.run([sys.executable, ROOT / "tools/circuits" / generator, *words, folder / "made"], check=True)
    (folder / "made.sim").rename(folder / "net")
    (folder / "made.cmd").rename(folder / "script")


def put_faults(folder: Path, count: int) -> None:
    """Puts a list of so many faults of the netlist into its folder, with comments, empty lines, and faults twice."""
    source = random.Random(count)
    lines: List[str] = ["| a list", ""]
    transistors = [line.split() for line in (folder / "net").read_text().splitlines() if re.match("[nepd] ", line)]
    names = sorted({name for words in transistors for name in words[1:4] if name.lower().rstrip("!") not in ("vdd", "gnd")})
    for at in range(count):
        kind = source.choice(("open", "closed", "zero", "one"))
        lines.append(f"{kind} {source.randint(1, len(transistors)) if kind in ('open', 'closed') else source.choice(names)}")
        if at % 5 == 0:
            lines += ["", " \t ", "  | open 1", lines[-1] + "\r"]
    (folder / "list").write_text("\n".join(lines))


def put_columns(folder: Path, columns: int) -> None:
    """Gives most values of the script's `set` and `charge` a letter for each of so many columns; what columns lack goes."""
    source = random.Random(columns)

    def letters(found: re.Match[str]) -> str:
        """The value's letters, or now and then the one that it has."""
        return found.group() if source.random() < 0.2 else "=" + "".join(source.choice("01Xx") for _ in range(columns))

    lines = []
    for line in (folder / "script").read_text().splitlines():
        if line.startswith(("set ", "charge ")):
            line = re.sub("=[01Xx](?!\\S)", letters, line)
        lines.append("" if line.startswith(("expect ", "report", "keep ")) else line)
    (folder / "script").write_text("\n".join(lines))
