"""cluster.py [LOG_SIZE [SECONDS]]: a transform of 2**LOG_SIZE elements (22) in 64 chunks by three worker processes, of which one is
killed on the way, gives what the plain call does. No other worker takes more memory than its share asks for: by the peak of its
resident set, as Linux counts it (VmHWM), less what it had before the work. Past the seconds (100) the test fails."""
import asyncio
import contextlib
import logging
import os
import signal
import subprocess
import sys
import tempfile
import time

import dask.array
import distributed
import numpy

import ark_poly
from ark_poly import dask as ark_dask

FIELD = ark_poly.BLS12_381_FR
WIDTH = ark_poly.words(FIELD)
OFFSET = 7
WORKERS = 3
CHUNKS = 64
# The victim is killed when it has so many blocks of columns, or pieces of them for the rows.
ENOUGH = 4
# What thousands of small tasks take in a worker, whatever they are about.
BOOKS = 64 << 20


def bound(size):
    """How many bytes a worker may take: when all the others' chunks are there, its share of what a step reads, of the pieces of
    it, and of what the step makes; eight chunks on which it works or which it sends; and its books."""
    total = 8 * WIDTH * size
    return 3 * total // (WORKERS - 1) + 8 * total // CHUNKS + BOOKS


def drawn(size, block_id=None):
    """A chunk, the same whenever it is made again."""
    words = numpy.random.default_rng(block_id[0]).integers(0, 1 << 64, (size, WIDTH), dtype=numpy.uint64)
    words[:, -1] >>= numpy.uint64(2)
    return words


def held(address, dask_scheduler=None):
    """How many blocks of columns, and pieces of them, a worker has in memory."""
    worker = dask_scheduler.workers.get(address)
    kept = worker.has_what if worker else ()
    return sum(any("_columns" in str(it.key) for it in (task, *task.dependencies)) for task in kept)


def memory(process, name):
    with open(f"/proc/{process.pid}/status", encoding="ascii") as status:
        return next(int(line.split()[1]) << 10 for line in status if line.startswith(name + ":"))


async def work(address, name, folder):
    how = {"host": "127.0.0.1", "nthreads": 1, "memory_limit": 0, "local_directory": folder}
    async with distributed.Worker(address, name=name, **how) as worker:
        await worker.finished()


@contextlib.contextmanager
def started(address, folder):
    """Three worker processes, by their names, none of which is left."""
    # Freed chunks go back to the system at once: else the peak is that of the heap's holes.
    env = {**os.environ, "MALLOC_MMAP_THRESHOLD_": "65536", "MALLOC_TRIM_THRESHOLD_": "65536"}
    processes = {}
    try:
        for i in range(WORKERS):
            with open(os.path.join(folder, f"{i}.log"), "w", encoding="utf-8") as log:
                command = [sys.executable, os.path.abspath(__file__), "worker", address, str(i), folder]
                processes[str(i)] = subprocess.Popen(command, env=env, stdout=log, stderr=log)
        yield processes
    except BaseException:
        for name in processes:
            with open(os.path.join(folder, f"{name}.log"), encoding="utf-8") as log:
                sys.stderr.write(f"worker {name}: {log.read()[-2000:]}\n")
        raise
    finally:
        for process in processes.values():
            process.kill()
        for process in processes.values():
            process.wait()


def lose_a_worker(client, processes, done):
    """Kills a worker that has some of the columns, and says how many."""
    address, name = next((address, it["name"]) for address, it in client.scheduler_info()["workers"].items())
    while (count := client.run_on_scheduler(held, address)) < ENOUGH:
        assert not all(future.done() for future in done), "all was done before a worker could be killed"
        time.sleep(0.01)
    processes[name].kill()
    processes.pop(name).wait()
    assert not all(future.done() for future in done), "all was done when the worker was killed"
    return count


def check(size, cluster, folder):
    with distributed.Client(cluster) as client, started(cluster.scheduler_address, folder) as processes:
        while len(client.scheduler_info()["workers"]) < WORKERS:
            assert all(process.poll() is None for process in processes.values()), "a worker ended before the work"
            time.sleep(0.05)
        before = {name: memory(process, "VmRSS") for name, process in processes.items()}
        chunk = size // CHUNKS
        how = {"dtype": numpy.uint64, "meta": numpy.empty((0, 0), dtype=numpy.uint64)}
        coefficients = dask.array.map_blocks(drawn, chunk, chunks=((chunk,) * CHUNKS, (WIDTH,)), **how)
        begin = time.monotonic()
        found = ark_dask.fft(coefficients, FIELD, OFFSET).persist()
        blocks = distributed.futures_of(found)
        alive = dict(processes)
        count = lose_a_worker(client, alive, blocks)
        distributed.wait(found)
        seconds = time.monotonic() - begin

        wanted = ark_poly.fft(FIELD, numpy.concatenate([drawn(chunk, (i,)) for i in range(CHUNKS)]), OFFSET)
        start = 0
        for part in found.blocks:
            values = part.compute()
            assert numpy.array_equal(values, wanted[start : start + len(values)]), f"other values from {start} on"
            start += len(values)
        assert start == size

        taken = {name: memory(process, "VmHWM") - before[name] for name, process in alive.items()}
        assert len(taken) == WORKERS - 1 and all(process.poll() is None for process in alive.values()), "another worker died"
        peaks = ", ".join(f"{it / 2**20:.0f}" for it in taken.values())
        allowed = bound(size) / 2**20
        assert max(taken.values()) <= bound(size), f"workers took {peaks} MiB of {allowed:.0f}"
        print(
            f"{size} elements in {CHUNKS} chunks by {WORKERS} workers, one killed with {count} blocks or pieces: the plain"
            f" answer in {seconds:.1f} s; the others took {peaks} MiB of {allowed:.0f}"
        )


def late(number, frame):
    raise TimeoutError("the cluster took too long")


def main():
    size = 1 << (int(sys.argv[1]) if sys.argv[1:] else 22)
    signal.signal(signal.SIGALRM, late)
    signal.alarm(int(sys.argv[2]) if sys.argv[2:] else 100)
    logging.getLogger("distributed").setLevel(logging.CRITICAL)
    how = {"n_workers": 0, "host": "127.0.0.1", "dashboard_address": None, "silence_logs": logging.CRITICAL}
    with tempfile.TemporaryDirectory() as folder, distributed.LocalCluster(**how) as cluster:
        try:
            check(size, cluster, folder)
        finally:
            # (no answer is waited for once more: the signal then ends the process)
            signal.signal(signal.SIGALRM, signal.SIG_DFL)
            signal.alarm(20)


if __name__ == "__main__":
    if sys.argv[1:2] == ["worker"]:
        asyncio.run(work(*sys.argv[2:]))
    else:
        main()
