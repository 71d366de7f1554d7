"""Work in several processes of this machine, which end at once when the caller is interrupted.

`concurrent.futures.ProcessPoolExecutor` waits at its exit for the work that its processes have begun, and before Python
3.14 cannot end them. `multiprocessing.Pool` takes locks that a process may hold when it is ended. Here each process has
a separate pipe, and the caller waits for these pipes only."""

from __future__ import annotations

import contextlib
import multiprocessing
import os
import signal
import sys
from multiprocessing.connection import Connection, wait
from multiprocessing.process import BaseProcess
from typing import Any, Callable, Iterator, Sequence, TypeVar

from .program import Mistake

Item = TypeVar("Item")
Result = TypeVar("Result")


def processors() -> int:
    """Returns how many processors this process may use."""
    if hasattr(os, "sched_getaffinity"):
        return len(os.sched_getaffinity(0))
    return os.cpu_count() or 1


@contextlib.contextmanager
def uninterrupted() -> Iterator[None]:
    """Blocks Ctrl-C for the duration of its body, so that changes that belong together are all made."""
    before = signal.pthread_sigmask(signal.SIG_BLOCK, {signal.SIGINT})
    try:
        yield
    finally:
        signal.pthread_sigmask(signal.SIG_SETMASK, before)


def leave(*_: object) -> None:
    """Ends a worker at SIGTERM by an exception, so that `subprocess.run` ends the program that it waits for."""
    sys.exit(1)


def serve(work: Callable[[Any], Any], tasks: Connection) -> None:
    """Runs a worker: it does one task after the other, until there is none or its parent is gone."""
    # Ctrl-C reaches every process of the terminal; the parent ends the workers. A handler, unlike SIG_IGN, is not
    # inherited by the program that a worker runs.
    signal.signal(signal.SIGINT, lambda *_: None)
    signal.signal(signal.SIGTERM, leave)
    signal.pthread_sigmask(signal.SIG_UNBLOCK, {signal.SIGINT})
    parent = multiprocessing.parent_process()
    while parent is None or tasks in wait([tasks, parent.sentinel]):
        try:
            item = tasks.recv()
        except EOFError:
            return
        try:
            answer = (True, work(item))
        except Exception as error:
            answer = (False, error)
        tasks.send(answer)


class Workers:
    """Processes, each with the index of the item that it works on."""

    def __init__(self, work: Callable[[Any], Any], number: int) -> None:
        self.pipes: dict[Connection, BaseProcess] = {}
        self.busy: dict[Connection, int] = {}
        # A worker must not be interrupted before it has set its handlers.
        with uninterrupted():
            for _ in range(number):
                own_end, worker_end = multiprocessing.Pipe()
                process = multiprocessing.Process(target=serve, args=(work, worker_end), daemon=True)
                process.start()
                worker_end.close()
                self.pipes[own_end] = process

    def give(self, items: Sequence[Any], first: int) -> int:
        """Gives items to idle workers, from index `first` on, and returns the index of the next one."""
        for pipe in self.pipes:
            if pipe not in self.busy and first < len(items):
                try:
                    pipe.send(items[first])
                except OSError as error:
                    raise Mistake(f"a process of this sweep ended: {error.strerror}") from error
                self.busy[pipe] = first
                first += 1
        return first

    def take(self) -> Iterator[tuple[int, Any]]:
        """Waits for workers that are done, and yields their indices and results."""
        for ready in wait(list(self.busy)):
            assert isinstance(ready, Connection)
            index = self.busy.pop(ready)
            try:
                done, result = ready.recv()
            except (EOFError, OSError) as error:
                raise Mistake("a process of this sweep ended before its work was done") from error
            if not done:
                raise result
            yield index, result

    def end(self) -> None:
        """Ends all processes, whatever they do."""
        for process in self.pipes.values():
            process.terminate()
        for pipe, process in self.pipes.items():
            process.join(1)
            if process.is_alive():
                process.kill()
                process.join()
            pipe.close()


def each_done(work: Callable[[Item], Result], items: Sequence[Item], jobs: int) -> Iterator[tuple[int, Result]]:
    """Does the work on each item in up to `jobs` processes, and yields the index and the result of each as it is done.
    The work ends when the caller stops iterating, also by an interruption."""
    number = min(jobs, len(items))
    if number <= 1:
        yield from ((index, work(item)) for index, item in enumerate(items))
        return
    workers = Workers(work, number)
    try:
        given = workers.give(items, 0)
        while workers.busy:
            yield from workers.take()
            given = workers.give(items, given)
    finally:
        with uninterrupted():
            workers.end()
