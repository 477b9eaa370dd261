"""The mean of each chunk of the array that make_array.py makes, over Dask by four processes.

    dask_means.py FOLDER

A process has one chunk at a time, so that the cluster never holds the array. The processes are
started by `spawn`: no call is made in the forked child of a process with threads.
"""

import os
import sys
import tempfile

import dask
import dask.array
import numpy as np
from distributed import Client, LocalCluster
from make_array import CHUNKS, SHAPE, heights
from watch import memory
from zarrs_codecs import Array


def mean_of(chunk):
    """The mean of a chunk, as an array of one element."""
    return chunk.mean(keepdims=True, dtype="float64")


def made_means():
    """The means of the chunks as they were made: all but the string's row is zeros."""
    rows = heights(range(SHAPE[0])).astype("float64").reshape(-1, CHUNKS[0] * CHUNKS[2])
    return rows.sum(axis=1) / np.prod(CHUNKS)


def main(folder):
    array = Array(folder)
    lazy = dask.array.from_array(array, chunks=array.chunks, name=False)
    means = lazy.map_blocks(mean_of, chunks=(1, 1, 1), dtype="float64")
    settings = {"n_workers": 4, "threads_per_worker": 1, "dashboard_address": None}
    with (
        dask.config.set({"distributed.worker.multiprocessing-method": "spawn"}),
        tempfile.TemporaryDirectory() as scratch,
        LocalCluster(processes=True, local_directory=scratch, **settings) as cluster,
        Client(cluster) as client,
    ):
        found = means.compute().ravel()
        workers = set(client.run(os.getpid).values())
        peak = max(client.run(memory, "VmHWM").values())
    print(f"{found.size} means by {len(workers)} processes of at most {peak / 2**20:.0f} MiB each")
    print("the first four:", *(f"{mean:.4f}" for mean in found[:4]))
    print("the least and the greatest:", f"{found.min():.4f} {found.max():.4f}")
    print("as they were made:", np.allclose(found, made_means()))


if __name__ == "__main__":
    main(sys.argv[1])
