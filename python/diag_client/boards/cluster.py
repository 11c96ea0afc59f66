"""The workers of a Dask cluster. Each answers with the package and the program that are installed where it runs."""

from __future__ import annotations

import contextlib
import importlib
import math
import sys
import time
import uuid
from concurrent.futures import Future
from typing import Any

from ..errors import sentence
from ..program import find_program
from . import workers
from .workers import Batch, Device, UnusableCluster

# So many seconds the scheduler may take to answer, and the first worker to be there.
PATIENCE = 30
# So many seconds at least are between two times that it is asked for the number of its workers.
PAUSE = 1.0
NEEDED = "`pip install 'diag-client[cluster]'`, or Debian's python3-distributed"


def program_of_worker() -> str:
    """The program that is started where this runs."""
    return find_program()


class Cluster:
    """All workers of a cluster, by the address of its scheduler. Each of their threads serves the devices by a program of its own."""

    def __init__(self, address: str) -> None:
        self._address = address
        self._run = uuid.uuid4().hex
        self._size = 0
        self._counted = -math.inf
        try:
            distributed: Any = importlib.import_module("distributed")
        except ModuleNotFoundError:
            raise UnusableCluster(f"a cluster needs dask.distributed for {sys.executable}: {NEEDED}") from None
        self.lost: tuple[type[Exception], ...] = (distributed.KilledWorker,)
        try:
            self._client = distributed.Client(address, timeout=PATIENCE, set_as_default=False)
            self._client.wait_for_workers(1, timeout=PATIENCE)
        except (OSError, ValueError, TimeoutError) as error:
            raise UnusableCluster(f"{address}: no scheduler with workers answers there: {sentence(error)}") from None
        try:
            self._check()
        except BaseException:
            self._client.close()
            raise
        self._executor = self._client.get_executor(pure=False)

    @property
    def size(self) -> int:
        """How many threads there are. The scheduler is asked now and then, since workers may come and go."""
        now = time.monotonic()
        if now - self._counted > PAUSE:
            self._counted, self._size = now, sum(self._client.nthreads().values())
        return self._size

    def device(self, path: str) -> Device:
        """A device as the workers get it."""
        return Device.packed(path)

    def submit(self, what: str, batch: Batch) -> Future[Any]:
        """Lets a worker answer. If it dies, the scheduler asks others, and gives up after some."""
        answered: Future[Any] = self._executor.submit(getattr(workers, what), batch, self._run)
        return answered

    def stop(self) -> None:
        """Ends the programs that were started for this run."""
        with contextlib.suppress(Exception):
            self._executor.shutdown(wait=False)
            self._client.run(workers.stop, self._run, on_error="ignore")
        self._client.close()

    def _check(self) -> None:
        """Raises an error unless each worker has the package and a program."""
        for worker, found in self._client.run(program_of_worker, on_error="return").items():
            if isinstance(found, Exception):
                raise UnusableCluster(f"worker {worker} of {self._address} cannot answer: {sentence(found)}")
