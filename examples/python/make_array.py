"""Makes an array of 4 GiB: how high a string stands at 4096 moments, in a room of 512 x 512 places.

    make_array.py FOLDER

Its 64 chunks of 64 MiB are files with holes: only the string's own row is written, by numpy alone.
"""

import json
import pathlib
import sys

import numpy as np

SHAPE = (4096, 512, 512)
CHUNKS = (64, 512, 512)
ROW = 256


def heights(moments):
    """How high the string stands at its 512 places, a row for each moment.

    It is fixed at both ends: a pulse runs both ways along it, and is thrown back upside down.
    """

    def pulse(at):
        at = at % 1024
        return 1000 * (np.exp(-(((at - 160) / 20) ** 2)) - np.exp(-(((at - 864) / 20) ** 2)))

    places, moved = np.arange(512), 0.5 * np.asarray(moments)[:, None]
    return ((pulse(places - moved) + pulse(places + moved)) / 2).astype("<f4")


def make(folder):
    """Writes the array's metadata and its chunks."""
    metadata = {
        "zarr_format": 3,
        "node_type": "array",
        "shape": SHAPE,
        "data_type": "float32",
        "chunk_grid": {"name": "regular", "configuration": {"chunk_shape": CHUNKS}},
        "chunk_key_encoding": {"name": "default", "configuration": {"separator": "/"}},
        "fill_value": 0.0,
        "codecs": [{"name": "bytes", "configuration": {"endian": "little"}}],
    }
    folder = pathlib.Path(folder)
    folder.mkdir(parents=True)
    (folder / "zarr.json").write_text(json.dumps(metadata, indent=2))
    for chunk in range(SHAPE[0] // CHUNKS[0]):
        path = folder / "c" / str(chunk) / "0" / "0"
        path.parent.mkdir(parents=True)
        first = chunk * CHUNKS[0]
        with open(path, "wb") as file:
            file.truncate(4 * CHUNKS[0] * CHUNKS[1] * CHUNKS[2])
            for moment, row in enumerate(heights(range(first, first + CHUNKS[0]))):
                file.seek(4 * CHUNKS[2] * (moment * CHUNKS[1] + ROW))
                file.write(row.tobytes())


if __name__ == "__main__":
    make(sys.argv[1])
    chunks = [path.stat() for path in pathlib.Path(sys.argv[1]).glob("c/*/0/0")]
    size = sum(chunk.st_size for chunk in chunks) / 2**30
    on_disk = 512 * sum(chunk.st_blocks for chunk in chunks) / 2**20
    print(f"{len(chunks)} chunks, {size:.2f} GiB, {on_disk:.0f} MiB of them on disk")
