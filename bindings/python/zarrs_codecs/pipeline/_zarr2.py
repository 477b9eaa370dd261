"""The codecs of Zarr v2 arrays, as Zarr v3 declares them."""

from typing import Any

import numpy as np

from .._numcodecs import NAMES, PREFIX

_SHUFFLES = {0: "noshuffle", 1: "shuffle", 2: "bitshuffle"}
_TEXTS = ("vlen-utf8", "vlen-bytes")


def codecs_of(codec: Any, dtype: np.dtype[Any], order: str, axes: int) -> list[Any] | None:
    """The list of codecs that a v2 array's compressor and filters are, for elements of this type, in this order in memory;
    None where there is no such list."""
    found: list[Any] = []
    if order == "F" and axes > 1:
        found.append({"name": "transpose", "configuration": {"order": list(reversed(range(axes)))}})
    filters = [one.get_config() for one in codec.filters or ()]
    if dtype.kind not in "OT":
        found.append({"name": "bytes", "configuration": {"endian": "big" if dtype.byteorder == ">" else "little"}})
    elif filters and filters[0].get("id") in _TEXTS:
        found.append({"name": filters.pop(0)["id"]})
    else:
        return None
    found += [_of_numcodecs(one) for one in filters]
    if codec.compressor is not None:
        found.append(_compressor(codec.compressor.get_config(), 1 if filters else dtype.itemsize))
    return None if None in found else found


def _of_numcodecs(declared: dict[str, Any]) -> dict[str, Any] | None:
    """A bytes-to-bytes codec of numcodecs by zarr-python's name for it; None of another one."""
    name = f"{PREFIX}{declared.get('id')}"
    if name not in NAMES:
        return None
    return {"name": name, "configuration": {key: value for key, value in declared.items() if key != "id"}}


def _compressor(declared: dict[str, Any], size: int) -> dict[str, Any] | None:
    """A compressor of numcodecs as a codec of Zarr v3; None of another one."""
    match declared.get("id"):
        case "zstd":
            configuration = {"level": declared["level"], "checksum": bool(declared.get("checksum", False))}
        case "gzip":
            configuration = {"level": declared["level"]}
        case "blosc":
            # -1 is a choice by the elements' size
            shuffle = _SHUFFLES.get(declared["shuffle"], "bitshuffle" if size == 1 else "shuffle")
            configuration = {key: declared[key] for key in ("cname", "clevel", "blocksize")}
            configuration |= {"shuffle": shuffle, "typesize": min(size, 255)}
        case _:
            return _of_numcodecs(declared)
    return {"name": declared["id"], "configuration": configuration}
