"""Reads a region of the array that make_array.py makes, tells what that took, and draws it.

    region.py FOLDER PICTURE.png
"""

import sys

import numpy as np
from make_array import ROW, heights
from tqdm import tqdm
from watch import Watch
from zarrs_codecs import Array


def read_string(array, bar):
    """The string's row at each moment; the bar goes over the first moments of the chunks."""
    string = np.empty((array.shape[0], array.shape[2]), array.dtype)
    for first in bar:
        moments = slice(first, first + array.chunks[0])
        string[moments] = array[moments, ROW]
    return string


def draw(string, picture):
    """Draws the string's heights: places from left to right, moments from top to bottom."""
    import matplotlib

    matplotlib.use("Agg")
    from matplotlib import pyplot

    figure, axes = pyplot.subplots(figsize=(5, 5), layout="constrained")
    image = axes.imshow(string, aspect="auto", cmap="RdBu", vmin=-1000, vmax=1000)
    axes.set(xlabel="place", ylabel="moment", title="A pulse on a string")
    figure.colorbar(image, label="height")
    figure.savefig(picture, dpi=80)


def main(folder, picture):
    array = Array(folder)
    size = array.size * array.dtype.itemsize
    bar = tqdm(range(0, array.shape[0], array.chunks[0]), unit="chunk")
    watch = Watch()
    string = read_string(array, bar)
    read, memory = watch.bytes_read(), watch.more_memory()
    print(f"the array has {size:,} bytes, the answer {string.nbytes:,}")
    print(f"read: {read:,} bytes, {read / string.nbytes:.2f} answers")
    print(f"memory, with the answer: {memory:,} bytes more, {memory / string.nbytes:.2f} answers")
    print("as it was made:", np.array_equal(string, heights(range(array.shape[0]))))
    draw(string, picture)
    print("drawn:", picture)


if __name__ == "__main__":
    main(*sys.argv[1:])
