"""Runs a sweep's batches on this machine's processors, or on a Dask cluster. Both yield the index and the results of
each batch when it is done."""

from __future__ import annotations

import functools
import importlib
import os
from typing import Any, Iterator, Sequence

from .batches import Batch, Results, run_batch
from .pool import each_done
from .program import Mistake

# The faults of a batch for a cluster: enough that sending it there and back takes little of its time.
CLUSTER_BATCH = 400

# The most faults of a batch on this machine, and about the most seconds that it may take: an interruption loses the
# batches that are running.
MOST_LOCAL = 256
LONGEST_LOCAL = 1.0

# How often a batch is started again after its worker went away.
RETRIES = 10


def local_size(faults: int, jobs: int, seconds: float) -> int:
    """The size of a batch on this machine, given the seconds of a run. Each processor has several batches, so that all
    have work until the end."""
    share = max(16, -(-faults // (4 * jobs)))
    return max(1, min(MOST_LOCAL, share, int(LONGEST_LOCAL / max(seconds, 0.0001))))


def run_local(path: str, batches: Sequence[Batch], jobs: int) -> Iterator[tuple[int, Results]]:
    """Runs batches concurrently on this machine, each in its own process."""
    return each_done(functools.partial(run_batch, path), batches, jobs)


def package_file(folder: str) -> str:
    """This package with its tables as one file, for workers that do not have it."""
    import zipfile

    package = os.path.dirname(os.path.abspath(__file__))
    path = os.path.join(folder, "nooks_bench.zip")
    with zipfile.ZipFile(path, "w") as packed:
        for name in sorted(os.listdir(package)):
            if name.endswith((".py", ".json")):
                packed.write(os.path.join(package, name), f"nooks_bench/{name}")
    return path


def run_dask(address: str, path: str, batches: Sequence[Batch]) -> Iterator[tuple[int, Results]]:
    """Runs batches on a cluster. If a worker goes away, the scheduler gives its batch to another one."""
    import logging
    import tempfile

    try:
        distributed: Any = importlib.import_module("distributed")
    except ImportError as error:
        raise Mistake("--dask needs `distributed` (python3-distributed), and this Python has none") from error
    try:
        client = distributed.Client(address, timeout=20)
    except (OSError, ValueError) as error:
        raise Mistake(f"no Dask scheduler answers at {address}: {error}") from error
    with client, tempfile.TemporaryDirectory() as folder:
        client.upload_file(package_file(folder))
        futures = [client.submit(run_batch, path, batch, pure=False, retries=RETRIES) for batch in batches]
        indices = {future.key: index for index, future in enumerate(futures)}
        try:
            for future in distributed.as_completed(futures):
                yield indices[future.key], future.result()
        finally:
            # All results are here, or nothing waits for them any more: what the client logs while it closes is noise.
            logging.disable(logging.CRITICAL)
