"""A field's means over time, and the field twice as high, by xarray and Dask: four processes read and write stores of
zarr-python 3, whose chunks the library codes.

    xarray_means.py FOLDER

What it takes is one line, below the imports. It needs zarr-python 3, xarray, dask and distributed.
"""

import os
import sys
import tempfile

import dask
import numpy as np
import xarray as xr
import zarr
from distributed import Client, LocalCluster
from zarrs_codecs import CodecPipeline

zarr.config.set({"codec_pipeline.path": "zarrs_codecs.CodecPipeline"})
SHAPE, CHUNKS = (24, 256, 256), (4, 128, 128)
AXES = ("time", "y", "x")


def made_field():
    """Waves that go from corner to corner."""
    time, y, x = np.ogrid[: SHAPE[0], : SHAPE[1], : SHAPE[2]]
    return np.sin((x + y) / 40 - time / 4).astype("float32")


def stored(data, folder, **more):
    """Stores a field in chunks of its own. Each task writes the chunks that it has alone."""
    encoding = {"field": {"chunks": CHUNKS}}
    data.to_dataset(name="field").to_zarr(folder, mode="w", zarr_format=3, consolidated=False, encoding=encoding, **more)


def counts():
    """How many chunks this process has read and written by the library, and how many by zarr-python's own pipeline."""
    stats = CodecPipeline.stats
    return np.array([stats.read, stats.written, stats.read_by_zarr_python + stats.written_by_zarr_python])


def main(folder):
    field = made_field()
    stored(xr.DataArray(field, dims=AXES), f"{folder}/field.zarr")
    settings = {"n_workers": 4, "threads_per_worker": 1, "dashboard_address": None}
    with (
        dask.config.set({"distributed.worker.multiprocessing-method": "spawn"}),
        tempfile.TemporaryDirectory() as scratch,
        LocalCluster(processes=True, local_directory=scratch, **settings) as cluster,
        Client(cluster) as client,
    ):
        # Dask's chunks are those of the store
        lazy = xr.open_zarr(f"{folder}/field.zarr", chunks={}, consolidated=False).field
        means = lazy.mean("time").compute().values
        stored(lazy * 2, f"{folder}/twice.zarr")
        try:
            stored(lazy.chunk(time=3), f"{folder}/torn.zarr")
        except ValueError:
            print("two tasks in one chunk: refused by xarray")
        found = sum(client.run(counts).values())
        workers = set(client.run(os.getpid).values())
    twice = xr.open_zarr(f"{folder}/twice.zarr", consolidated=False).field.values
    print(f"{len(workers)} processes: {found[0]} chunks read and {found[1]} written by the library, {found[2]} by zarr-python")
    print("means as they are due:", np.allclose(means, field.mean(axis=0), atol=1e-5))
    print("twice the field:", bool((twice == field * 2).all()))


if __name__ == "__main__":
    main(sys.argv[1])
