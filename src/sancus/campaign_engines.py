"""Who computes the chunks of a campaign: processes of this machine, or a cluster of Dask."""

from __future__ import annotations

import multiprocessing
import os
import signal
from collections import deque
from concurrent.futures import FIRST_COMPLETED, Executor, Future, ProcessPoolExecutor, wait
from contextlib import contextmanager
from dataclasses import dataclass
from threading import Thread
from typing import Deque, Iterable, Iterator, Set, Tuple

from sancus.campaign import Chunk, Plan, run_chunk
from sancus.errors import NoCampaign

# So many chunks wait for each process.
CHUNKS_EACH = 2
# How many times a chunk is asked for again whose process was ended, and how long a scheduler may take to answer.
RETRIES, SECONDS = 3, 10
INSTALL = "`pip install distributed`, or Debian's python3-distributed"


@dataclass
class Engine:
    """Who computes, and how many chunks at a time."""

    executor: Executor
    room: int

    def chunks(self, plan: Plan, missing: Iterable[Tuple[int, int]]) -> Iterator[Chunk]:
        """The chunks of ranges of seeds, each when it is done. After one that can't go on no other is begun."""
        left: Deque[Tuple[int, int]] = deque(missing)
        waiting: Set[Future[Chunk]] = set()
        is_ended = False
        while left or waiting:
            while left and len(waiting) < self.room:
                waiting.add(self.executor.submit(run_chunk, plan, *left.popleft()))
            ready, waiting = wait(waiting, return_when=FIRST_COMPLETED)
            for it in ready:
                chunk = result_of(it)
                yield chunk
                is_ended = is_ended or bool(chunk.words)
                if chunk.rest[0] < chunk.rest[1]:
                    left.appendleft(chunk.rest)
            if is_ended:
                left.clear()


def result_of(future: "Future[Chunk]") -> Chunk:
    try:
        return future.result()
    except Exception as error:  # noqa: BLE001 (of whatever engine)
        words = str(error).partition("\n")[0]
        raise NoCampaign(f"a process that computes was lost: {type(error).__name__}: {words}") from None


def processors() -> int:
    """How many processors this process may use."""
    return len(os.sched_getaffinity(0)) if hasattr(os, "sched_getaffinity") else os.cpu_count() or 1


@contextmanager
def on_this_machine(jobs: int) -> Iterator[Engine]:
    pool = ProcessPoolExecutor(jobs, multiprocessing.get_context("fork"), initializer=begin)
    try:
        yield Engine(pool, CHUNKS_EACH * jobs)
    except BaseException:
        # (its processes end with this one)
        pool.shutdown(wait=False, cancel_futures=True)
        raise
    pool.shutdown()


def begin() -> None:
    """A process that computes leaves an interrupt to its parent, and ends with it."""
    signal.signal(signal.SIGINT, signal.SIG_IGN)
    Thread(target=end_with_parent, daemon=True).start()


def end_with_parent() -> None:
    parent = multiprocessing.parent_process()
    if parent:
        parent.join()
        os._exit(1)


@contextmanager
def on_a_cluster(address: str) -> Iterator[Engine]:
    """The workers of a scheduler of Dask, on which this package is installed."""
    try:
        from distributed import Client
    except ImportError:
        raise NoCampaign(f"--dask needs the library distributed: {INSTALL}") from None
    try:
        client = Client(address, timeout=SECONDS)
    except (OSError, ValueError) as error:
        raise NoCampaign(f"no scheduler answers at {address}: {str(error)[:200]}") from None
    with client:
        cores = sum(client.ncores().values())
        if not cores:
            raise NoCampaign(f"the scheduler at {address} has no workers")
        yield Engine(client.get_executor(pure=False, retries=RETRIES), CHUNKS_EACH * cores)
