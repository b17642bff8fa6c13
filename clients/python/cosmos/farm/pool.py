"""Workers of Dask that run pieces: a cluster on this machine, or one that runs already."""
from __future__ import annotations

import asyncio
import logging
import signal
import tempfile
import threading
import uuid
from collections import Counter
from concurrent.futures import CancelledError
from contextlib import ExitStack, contextmanager, suppress
from dataclasses import dataclass
from itertools import islice
from typing import Dict, Iterable, Iterator, Optional, Tuple

from distributed import Client, Future, KilledWorker, LocalCluster, as_completed

from cosmos.farm.pieces import Job, Piece
from cosmos.farm.program import FarmFault, Ran
from cosmos.farm.work import clear, run_piece

SECONDS_TO_CONNECT = 5
SECONDS_TO_START = 60
MOST_TRIES = 4
"""How often a piece is tried, if its run dies, or all workers do that have its files."""
HERE = "127.0.0.1"


@dataclass(frozen=True)
class Files:
    """The netlist and the script, as workers hold them."""

    netlist: Future
    script: Future


@dataclass(frozen=True)
class Flight:
    """A piece that was sent: its place, how often it was sent, with which files, and to which worker if one was there."""

    place: int
    piece: Piece
    tries: int
    files: Files
    worker: Optional[str]


class Pool:
    """Workers that hold a netlist and a script, and run pieces."""

    def __init__(self, client: Client, job: Job, netlist: bytes, script: bytes) -> None:
        self._client = client
        self._job = job
        self._texts = (netlist, script)
        self._files = self._scattered()
        self._flights: Dict[Future, Flight] = {}

    @property
    def threads(self) -> int:
        """How many pieces can run at once."""
        return max(1, sum(self._threads().values()))

    def run(self, pieces: Iterable[Piece]) -> Iterator[Tuple[int, Ran]]:
        """Runs pieces, and gives the place of each and what its run came to as soon as it ends.

        No more pieces are under way than there are threads: what is left goes to the workers that are ready for it, and to
        those that come later. If a worker dies its pieces are run by others.
        """
        waiting = enumerate(pieces)
        ended = as_completed()
        for place, piece in islice(waiting, self.threads):
            ended.add(self._sent(place, piece, 1))
        for future in ended:
            flight = self._flights.pop(future)
            ran = self._came_to(future, flight)
            if ran is None:
                ended.add(self._sent(flight.place, flight.piece, flight.tries + 1))
                continue
            for place, piece in islice(waiting, max(0, self.threads - len(self._flights))):
                ended.add(self._sent(place, piece, 1))
            yield flight.place, ran

    def _threads(self) -> Dict[str, int]:
        """The threads of each worker."""
        workers = self._client.scheduler_info()["workers"]
        return {address: worker["nthreads"] for address, worker in workers.items()}

    def _idlest(self) -> Optional[str]:
        """The worker with the most threads that no piece was sent to."""
        threads = self._threads()
        sent = Counter(flight.worker for flight in self._flights.values())
        return max(threads, key=lambda worker: threads[worker] - sent[worker]) if threads else None

    def _scattered(self) -> Files:
        """Sends the files to all workers, once each."""
        return Files(*self._client.scatter(list(self._texts), broadcast=True, hash=False))

    def _sent(self, place: int, piece: Piece, tries: int) -> Future:
        """Sends a piece to the idlest worker; if that dies, Dask gives it to another one."""
        files, worker = self._files, self._idlest()
        future: Future = self._client.submit(
            run_piece,
            self._job,
            piece,
            files.netlist,
            files.script,
            key=f"{self._job.name}-{place}-{tries}",
            workers=worker,
            allow_other_workers=worker is not None,
            retries=MOST_TRIES - 1,
        )
        self._flights[future] = Flight(place, piece, tries, files, worker)
        return future

    def _came_to(self, future: Future, flight: Flight) -> Optional[Ran]:
        """What a piece's run came to, or nothing if all workers died that had its files: these are sent anew then."""
        try:
            ran: Ran = future.result()
            return ran
        except CancelledError:
            if flight.tries == MOST_TRIES:
                raise FarmFault("the workers died, again and again") from None
            if flight.files is self._files:
                self._client.wait_for_workers(1, SECONDS_TO_START)
                self._files = self._scattered()
            return None
        except KilledWorker:
            raise FarmFault(f"the workers that ran piece {flight.place + 1} died, one after the other") from None
        except ImportError as error:
            raise FarmFault(f"a worker hasn't this package: {error}") from None


@contextmanager
def deaf() -> Iterator[None]:
    """What starts in here doesn't hear Ctrl-C on the terminal: the farm hears it, and ends its workers."""
    if threading.current_thread() is not threading.main_thread():
        yield
        return
    before = signal.signal(signal.SIGINT, signal.SIG_IGN)
    try:
        yield
    finally:
        signal.signal(signal.SIGINT, before)


def cluster_of(workers: int, folder: str) -> LocalCluster:
    """A cluster of so many workers on this machine, whose ports are open to this machine only."""
    with deaf():
        return LocalCluster(
            n_workers=workers,
            threads_per_worker=1,
            host=HERE,
            dashboard_address=f"{HERE}:0",
            worker_dashboard_address=f"{HERE}:0",
            scheduler_kwargs={"dashboard": False},
            memory_limit=0,
            local_directory=folder,
            silence_logs=logging.CRITICAL,
        )


@contextmanager
def client_of(scheduler: Optional[str], workers: int) -> Iterator[Client]:
    """A client of the scheduler with this address, or of a cluster that ends with it, as does the folder of its files."""
    with ExitStack() as stack:
        if scheduler is not None:
            client = stack.enter_context(Client(scheduler, timeout=SECONDS_TO_CONNECT))
            client.wait_for_workers(workers, SECONDS_TO_START)
        else:
            folder = stack.enter_context(tempfile.TemporaryDirectory(prefix="cosmos-farm-"))
            client = stack.enter_context(Client(stack.enter_context(cluster_of(workers, folder))))
        yield client


@contextmanager
def pool_of(
    program: str, texts: Tuple[bytes, bytes], script_name: str, scheduler: Optional[str], workers: int
) -> Iterator[Pool]:
    """A pool with a netlist and a script; the workers' copies of them go with it."""
    job = Job(f"farm{uuid.uuid4().hex}", program, script_name)
    try:
        with client_of(scheduler, workers) as client:
            try:
                yield Pool(client, job, *texts)
            finally:
                if scheduler is not None:
                    with suppress(Exception):
                        client.run(clear, job)
    except (OSError, TimeoutError, asyncio.TimeoutError) as error:
        raise FarmFault(f"the cluster failed: {error}") from None
