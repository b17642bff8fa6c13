"""The command line: `faults NET SCRIPT LIST` and `batch NET [L] SCRIPT`, each with the program's answer."""
from __future__ import annotations

import argparse
import os
import re
import signal
import sys
from types import FrameType
from typing import Iterable, Iterator, List, Optional, Sequence, Tuple

from cosmos.farm import batch, faults
from cosmos.farm.output import Output, OutputFault
from cosmos.farm.pieces import Piece, in_order
from cosmos.farm.program import DONE, FARM_FAILED, NOT_WRITTEN, FarmFault, Ran, everywhere, read_input, run_plain

INTERRUPTED = 130


def number(word: str) -> int:
    """A number from 1 on."""
    if not re.fullmatch("[0-9]+", word) or int(word) < 1:
        raise argparse.ArgumentTypeError(f"{word} is no number from 1 on")
    return int(word)


def is_column_count(word: str) -> bool:
    """Whether a word of `batch` is a number of columns that one run can have."""
    found = re.fullmatch("0*([1-9][0-9]?)", word)
    return found is not None and int(found[1]) <= batch.MOST_IN_A_RUN


def parser(called: Optional[str]) -> argparse.ArgumentParser:
    """The forms of the command line."""
    options = argparse.ArgumentParser(add_help=False)
    options.add_argument("--scheduler", metavar="ADDRESS", help="a scheduler of Dask that runs, as tcp://127.0.0.1:8786")
    options.add_argument("--workers", type=number, metavar="N", help="so many workers; with --scheduler wait for so many")
    options.add_argument("--piece", type=number, metavar="N", help="so many faults or columns a piece")
    options.add_argument("--program", default="cosmos", metavar="PATH", help="the program, on each worker (default: cosmos)")
    whole = argparse.ArgumentParser(prog=called or "cosmos-farm", description="Runs cosmos in pieces, with the bytes of one run.")
    requests = whole.add_subparsers(dest="request", metavar="REQUEST", required=True)
    of_faults = requests.add_parser("faults", parents=[options], help="a list of faults in pieces")
    of_batch = requests.add_parser("batch", parents=[options], help="the columns of a batch in pieces")
    of_batch.set_defaults(answer=answer_batch)
    of_faults.set_defaults(answer=answer_faults)
    for words in (of_faults, of_batch):
        words.add_argument("net", metavar="NET", help="a netlist")
    of_faults.add_argument("script", metavar="SCRIPT", help="a script")
    of_faults.add_argument("list", metavar="LIST", help="a list of faults")
    of_batch.add_argument("columns", metavar="L", nargs="?", help="the number of columns (default: that of the letters)")
    of_batch.add_argument("script", metavar="SCRIPT", help="a script with a letter for each column")
    return whole


def worker_count(options: argparse.Namespace, most: int) -> int:
    """How many workers are wanted: of a cluster that runs, or here, where there are at most as many as pieces."""
    if options.scheduler is not None:
        return int(options.workers or 1)
    processors = len(os.sched_getaffinity(0)) if hasattr(os, "sched_getaffinity") else os.cpu_count() or 1
    return min(int(options.workers or processors), most)


def told(ran: Ran, output: Output) -> int:
    """Writes what a run wrote, and gives its status."""
    output.write(ran.out)
    output.say(ran.said)
    return ran.status


def answer_faults(options: argparse.Namespace, output: Output) -> int:
    """Answers `faults`."""
    names = (options.net, options.script, options.list)
    try:
        netlist, script, text = map(read_input, names)
    except OSError:
        return run_plain(options.program, ["faults", *names])
    first = faults.look(options.program, names, (netlist, script, text))
    if first.status != DONE or not faults.count_faults(text):
        return told(first, output)
    judge(options, (netlist, script), text, output)
    return DONE


def shown(ended: Iterable[Tuple[int, Ran]], pieces: Sequence[Piece], what: str, output: Output) -> Iterator[Tuple[int, Ran]]:
    """The runs of pieces as they end, while a bar shows how many of all faults or columns they had."""
    done, whole = 0, sum(piece.size for piece in pieces)
    output.show(done, whole, what)
    for place, ran in ended:
        done += pieces[place].size
        output.show(done, whole, what)
        yield place, ran
    output.hide()


def judge(options: argparse.Namespace, texts: Tuple[bytes, bytes], text: bytes, output: Output) -> None:
    """Judges the faults of a list, and writes the verdicts in order as soon as they are there, and their counts."""
    from cosmos.farm.pool import pool_of  # Dask takes a second to load, which a refusal need not wait for

    counts = faults.Counts()
    workers = worker_count(options, -(-faults.count_faults(text) // (options.piece or 1)))
    with pool_of(options.program, texts, options.script, options.scheduler, workers) as pool:
        pieces = list(faults.cut_list(text, pool.threads, options.piece))
        for place, ran in in_order(shown(pool.run(pieces), pieces, "faults", output)):
            lines, more = faults.verdicts(pieces[place], ran)
            counts += more
            output.write(lines)
    output.write(counts.line())


def answer_batch(options: argparse.Namespace, output: Output) -> int:
    """Answers `batch`. If the command line says how many columns there are, there are no more than in one run."""
    names, columns = (options.net, options.script), options.columns
    if columns is not None and not is_column_count(columns):
        return run_plain(options.program, ["batch", options.net, columns, options.script])
    try:
        netlist, script = map(read_input, names)
    except OSError:
        return run_plain(options.program, ["batch", options.net, columns or "1", options.script])
    first = batch.run_here(options.program, names, (netlist, b""), 1)
    if first.status != DONE:
        return told(first, output)
    count = batch.columns_in(script) if columns is None else int(columns)
    pieces = batch.cut_columns(count, options.piece)
    if len(pieces) == 1 and options.scheduler is None:
        return told(batch.run_here(options.program, names, (netlist, script), count), output)
    return run_columns(options, (netlist, script), pieces, output)


def run_columns(
    options: argparse.Namespace, texts: Tuple[bytes, bytes], pieces: List[batch.ColumnPiece], output: Output
) -> int:
    """Runs the columns, and writes their rows when all are there."""
    from cosmos.farm.pool import pool_of  # as above

    workers = worker_count(options, len(pieces))
    with pool_of(options.program, texts, options.script, options.scheduler, workers) as pool:
        runs = [ran for _, ran in in_order(shown(pool.run(pieces), pieces, "columns", output))]
    for row in batch.merged(pieces, runs):
        output.write(row)
    output.say(runs[0].said)
    return runs[0].status


def end(number: int, _: Optional[FrameType]) -> None:
    """Ends the farm at a signal, after its cluster and its folders."""
    raise SystemExit(128 + number)


def main(words: Optional[Sequence[str]] = None, called: Optional[str] = None) -> int:
    """Answers the words of the command line, and gives the status."""
    options = parser(called).parse_args(words)
    options.program = everywhere(options.program)
    signal.signal(signal.SIGTERM, end)
    output = Output()
    try:
        status: int = options.answer(options, output)
        return status
    except OutputFault as fault:
        output.say(f"{fault}\n".encode())
        return NOT_WRITTEN
    except FarmFault as fault:
        output.say(f"cosmos-farm: {fault}\n".encode())
        return fault.status
    except ModuleNotFoundError as error:
        output.say(f"cosmos-farm: {error}; Dask's package distributed is needed\n".encode())
        return FARM_FAILED
    except KeyboardInterrupt:
        output.hide()
        return INTERRUPTED


if __name__ == "__main__":
    sys.exit(main())
