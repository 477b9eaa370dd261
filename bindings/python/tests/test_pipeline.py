"""The codec pipeline for zarr-python 3: what it is to zarr-python, which chunks it takes, and what it stores."""

import asyncio
import importlib
import importlib.util
import multiprocessing
import os
import pickle
import re
import subprocess
import sys
import threading
from concurrent.futures import ThreadPoolExecutor
from dataclasses import replace
from pathlib import Path

import numpy as np
import pytest
from pipelines import IS_3_0, OURS, THEIRS, Far, counted, made, opened, same_bits, some_store, using

import zarr
import zarrs_codecs as z
from zarr.codecs import BloscCodec, BytesCodec, Crc32cCodec, ShardingCodec, TransposeCodec, ZstdCodec
from zarr.core.buffer import cpu
from zarr.storage import LocalStore, MemoryStore
from zarrs_codecs.pipeline import Statistics

pytestmark = pytest.mark.filterwarnings("ignore")
PACKAGE = Path(__file__).resolve().parents[1]
NAN = np.array([0x7FC12345], "u4").view("f4")[0]


def pipeline_of(array):
    return array._async_array.codec_pipeline


def small(path=OURS, **more):
    return made(MemoryStore(), path, **{"shape": (6, 8), "chunks": (4, 4), "dtype": "u2", **more})


# -- what it is to zarr-python


def test_it_has_its_name_and_module():
    assert z.CodecPipeline.__module__ == "zarrs_codecs" and "CodecPipeline" in dir(z)
    assert type(pipeline_of(small())) is z.CodecPipeline
    assert not isinstance(pipeline_of(small(THEIRS)), z.CodecPipeline)
    with pytest.raises(AttributeError, match="no attribute 'Pipeline'"):
        z.Pipeline


def test_the_package_needs_no_zarr_python():
    """It is imported when the pipeline is looked at, and no sooner."""
    code = "import sys, zarrs_codecs as z; assert 'zarr' not in sys.modules; z.CodecPipeline; assert 'zarr' in sys.modules"
    subprocess.run([sys.executable, "-c", code], check=True)
    code = "import sys; sys.modules['zarr'] = None; import zarrs_codecs as z; z.Chain(['bytes'], 3, 'uint8'); z.CodecPipeline"
    run = subprocess.run([sys.executable, "-c", code], capture_output=True, text=True)
    assert run.returncode == 1 and "ModuleNotFoundError" in run.stderr


def run_of(program, folder, **more):
    """What a program writes that runs in a folder."""
    environment = {**os.environ, "PYTHONPATH": os.pathsep.join([str(PACKAGE), *sys.path]), **more}
    run = subprocess.run([sys.executable, "-c", program], cwd=folder, env=environment, capture_output=True, text=True)
    assert run.returncode == 0, run.stderr
    return run.stdout


@pytest.mark.skipif(sys.version_info < (3, 11), reason="this Python reads no pyproject.toml")
def test_an_installed_package_needs_no_look_at_it(tmp_path):
    """zarr-python finds the pipeline by the entry point, and its path in the environment."""
    import tomllib

    groups = tomllib.loads((PACKAGE / "pyproject.toml").read_text())["project"]["entry-points"]
    installed = tmp_path / "zarrs_codecs-0.0.dist-info"
    installed.mkdir()
    (installed / "METADATA").write_text("Metadata-Version: 2.1\nName: zarrs_codecs\nVersion: 0.0\n")
    lines = [f"[{group}]\n" + "".join(f"{name} = {it}\n" for name, it in names.items()) for group, names in groups.items()]
    (installed / "entry_points.txt").write_text("".join(lines))
    program = "import sys, zarr; a = zarr.create_array({}, shape=4, dtype='u1'); print(a._async_array.codec_pipeline)"
    paths = os.pathsep.join([str(tmp_path), str(PACKAGE), *sys.path])
    assert run_of(program, tmp_path, PYTHONPATH=paths, ZARR_CODEC_PIPELINE__PATH=OURS).startswith("CodecPipeline(codecs=")


def test_the_packages_modules_are_in_the_wheel():
    (listed,) = re.findall(r"^packages = (.*)$", (PACKAGE / "pyproject.toml").read_text(), re.MULTILINE)
    folders = {path.parent.relative_to(PACKAGE) for path in (PACKAGE / "zarrs_codecs").rglob("*.py")}
    assert {".".join(folder.parts) for folder in folders} == set(re.findall(r'"(.*?)"', listed))


@pytest.mark.skipif(importlib.util.find_spec("xarray") is None, reason="xarray isn't installed")
def test_the_program_of_the_page(tmp_path):
    page = (PACKAGE.parent / "README.md").read_text()
    (program,) = re.findall(r"```python\n(.*?)```", page.partition("## With zarr-python")[2].partition("\n## ")[0], re.DOTALL)
    printed = run_of(program, tmp_path)
    assert printed.startswith("[6. 7.]\n") and "0  chunks written by zarr-python\n" in printed
    assert re.search(r"^ +[1-9]\d*  chunks written by the library$", printed, re.MULTILINE)


def test_pipelines_compare_by_their_codecs():
    one, other = (pipeline_of(small()) for _ in range(2))
    assert one == other and one != pipeline_of(small(dtype="u2", compressors=None))
    assert repr(one).startswith("CodecPipeline(codecs=(BytesCodec(") and len(list(one)) == 2
    if IS_3_0:
        assert hash(one) == hash(other)
    assert small() != small(THEIRS)


@pytest.mark.parametrize("codecs", [{}, {"compressors": [BloscCodec()]}, {"shards": (4, 8)}, {"compressors": None}])
def test_arrays_are_pickled(codecs, tmp_path):
    array = made(LocalStore(tmp_path), shape=(8, 8), chunks=(4, 4), dtype="f4", **codecs)
    array[...] = np.arange(64).reshape(8, 8)
    again = pickle.loads(pickle.dumps(array))
    assert again == array and type(pipeline_of(again)) is z.CodecPipeline
    same_bits(again[1:3, 2:7], array[1:3, 2:7])
    again[0, 0] = 7
    assert array[0, 0] == 7
    assert pickle.loads(pickle.dumps(pipeline_of(array))) == pipeline_of(array)


def test_it_says_what_zarr_pythons_says():
    for more in ({}, {"shards": (4, 8)}, {"compressors": None}, {"shards": (4, 8), "filters": [TransposeCodec(order=(1, 0))]}):
        ours, theirs = pipeline_of(small(**more)), pipeline_of(small(THEIRS, **more))
        assert list(ours) == list(theirs)
        assert ours.supports_partial_decode == theirs.supports_partial_decode
        assert ours.supports_partial_encode == theirs.supports_partial_encode
    assert pipeline_of(small(compressors=[Crc32cCodec()])).compute_encoded_size(32, None) == 36


def test_codecs_that_dont_fit_are_zarr_pythons_errors():
    with pytest.raises(ValueError, match="order"):
        small(filters=[TransposeCodec(order=(2, 1, 0))])
    with pytest.raises(ValueError, match="divisible"):
        small(serializer=ShardingCodec(chunk_shape=(3, 3)))


# -- which chunks it takes


@pytest.mark.parametrize("indices", [[np.s_[:]], [np.s_[1], np.s_[2:5, 3:7]]])
def test_it_counts_which_way_chunks_go(indices):
    array = small()
    with counted() as stats:
        array[...] = 1
        for index in indices:
            array[index]
    assert stats.written == 4 and stats.read > 0 and not stats.reasons
    assert stats.read_by_zarr_python == stats.written_by_zarr_python == stats.requests == 0
    theirs = small(THEIRS)
    with counted() as stats:
        theirs[...] = 1
    assert stats.written == stats.written_by_zarr_python == 0
    assert "4  chunks written by the library" not in repr(stats)


class OtherBytes(BytesCodec):
    """A codec that somebody has in the place of zarr-python's."""


def test_codecs_that_arent_zarr_pythons_own_are_run_by_zarr_python():
    for codec in (OtherBytes(endian="little"), ShardingCodec(chunk_shape=(2, 2), codecs=[OtherBytes(endian="little")])):
        array = small(serializer=codec, compressors=None)
        object.__setattr__(array._async_array, "codec_pipeline", z.CodecPipeline.from_codecs([codec]))
        with counted() as stats:
            array[...] = 7
            assert (array[1:, 2:] == 7).all()
        assert stats.written_by_zarr_python == stats.read_by_zarr_python == 4, stats
        assert list(stats.reasons) == ["the codec OtherBytes isn't zarr-python's own"]


@pytest.mark.parametrize("form", [2, pytest.param(3, marks=pytest.mark.skipif(IS_3_0, reason="zarr-python 3.0 has no such type"))])
def test_structs_are_run_by_zarr_python(form):
    """Chunk for chunk; the statistics say why."""
    kind = np.dtype([("a", "u1"), ("b", "<f4")])
    array = small(dtype=kind, zarr_format=form, fill_value=None if form == 2 else np.zeros((), kind)[()], compressors=None)
    new = np.zeros((6, 8), kind)
    new["b"] = np.arange(48).reshape(6, 8)
    with counted() as stats:
        array[...] = new
        same_bits(array[...], new)
        same_bits(array[1:5, 2], new[1:5, 2])
    assert stats.written == stats.read == 0
    assert stats.written_by_zarr_python == 4 and stats.read_by_zarr_python == 6
    assert dict(stats.reasons) == {"elements are a struct of a, b": 10}
    same_bits(opened(array, THEIRS)[...], new)


# zarr-python's names of numcodecs' codecs, and what it makes them of
NUMCODECS = {
    "Zlib": {"level": 1},
    "GZip": {"level": 1},
    "BZ2": {"level": 1},
    "LZMA": {"preset": 1},
    "LZ4": {"acceleration": 1},
    "Zstd": {"level": 1},
    "Blosc": {"cname": "lz4", "clevel": 5, "shuffle": 1, "blocksize": 0},
    "Shuffle": {"elementsize": 2},
    "CRC32": {},
    "Adler32": {},
    "Fletcher32": {},
    "JenkinsLookup3": {},
}


def their_numcodecs():
    """The module that has zarr-python's classes of numcodecs' codecs."""
    return importlib.import_module("zarr.codecs.numcodecs" if importlib.util.find_spec("zarr.codecs.numcodecs") else "numcodecs.zarr3")


@pytest.mark.parametrize("shards", [None, (4, 8)], ids=["chunks", "shards"])
@pytest.mark.parametrize("name", NUMCODECS)
def test_numcodecs_at_the_end_of_a_list(name, shards):
    codec = getattr(their_numcodecs(), name)(**NUMCODECS[name])
    array = small(compressors=[codec], shards=shards, chunks=(2, 4))
    new = np.arange(48, dtype="u2").reshape(6, 8)
    with counted() as stats:
        array[...] = new
        same_bits(array[1:5, 2:], new[1:5, 2:])
        array[3, 3:6] = new[3, 3:6] = 99
        same_bits(array[...], new)
    assert stats.written and stats.read and not stats.reasons, stats
    theirs = opened(array, THEIRS)
    same_bits(theirs[...], new)
    theirs[1, 1:7] = new[1, 1:7] = 77
    same_bits(array[...], new)


@pytest.mark.parametrize("behind", [None, [Crc32cCodec()], [ZstdCodec(level=1), Crc32cCodec()]], ids=["", "checksum", "zstd"])
def test_shards_of_zstd_behind_a_transposition(behind):
    shard = ShardingCodec(chunk_shape=(2, 2), codecs=[BytesCodec(), ZstdCodec(level=1)])
    array = small(filters=[TransposeCodec(order=(1, 0))], serializer=shard, compressors=behind)
    new = np.arange(48, dtype="u2").reshape(6, 8)
    with counted() as stats:
        array[...] = new
        array[3, 3:6] = new[3, 3:6] = 99
        same_bits(array[1:5, 2:], new[1:5, 2:])
    assert stats.written and stats.read and not stats.reasons, stats
    theirs = opened(array, THEIRS)
    same_bits(theirs[...], new)


def test_numcodecs_elsewhere_are_run_by_zarr_python():
    codec = their_numcodecs().Delta(dtype="<u2")
    array = small(filters=[codec], compressors=None)
    with counted() as stats:
        array[...] = 9
        assert (array[2:] == 9).all()
    assert stats.written == stats.read == 0 and "numcodecs.delta" in repr(stats)


def test_arrays_of_zarr_2_with_other_codecs_are_run_by_zarr_python():
    import numcodecs

    for more in ({"filters": [numcodecs.Delta("u2")]}, {"filters": [numcodecs.Shuffle(2), numcodecs.Delta("u2")]}):
        array = made(MemoryStore(), shape=(6,), chunks=(4,), dtype="u2", zarr_format=2, **more)
        with counted() as stats:
            array[...] = np.arange(6)
            assert array[2:].tolist() == [2, 3, 4, 5]
        assert stats.written_by_zarr_python == stats.read_by_zarr_python == 2 and stats.read == 0
        assert "Zarr v2 with filters" in repr(stats)


class Another(np.ndarray):
    """An array that isn't numpy's own, as one of another device isn't."""


class AnotherBuffer(cpu.NDBuffer):
    def as_ndarray_like(self):
        return self._data.view(Another)


def test_arrays_that_arent_numpys_are_zarr_pythons():
    array = small()
    array[...] = np.arange(48).reshape(6, 8)
    out = AnotherBuffer(np.zeros((6, 8), "u2"))
    with counted() as stats:
        array.get_basic_selection(..., out=out)
    assert stats.read == 0 and stats.read_by_zarr_python == 4
    assert list(stats.reasons) == ["an array is a Another, and not numpy's"]
    same_bits(out.as_numpy_array(), np.arange(48, dtype="u2").reshape(6, 8))


def test_chunks_of_a_batch_go_each_their_way():
    array = small(shape=(8,), chunks=(4,), config={"write_empty_chunks": True})
    array[...] = np.arange(8)
    spec, path = spec_of(array), array.store_path
    # the library takes no such fill value, which isn't of the type
    odd = replace(spec, fill_value=1 << 70)
    batch = [(path / "c/0", odd, (slice(4),), (slice(4),), True), (path / "c/1", spec, (slice(4),), (slice(4, 8),), True)]
    out = cpu.NDBuffer.from_numpy_array(np.zeros(8, "u2"))
    with counted() as stats:
        assert asyncio.run(pipeline_of(array).read(batch, out)) == ({"status": "present"},) * 2
        assert out.as_numpy_array().tolist() == list(range(8))
        asyncio.run(pipeline_of(array).write(batch, cpu.NDBuffer.from_numpy_array(np.arange(8, 16, dtype="u2"))))
    assert (stats.read, stats.read_by_zarr_python) == (stats.written, stats.written_by_zarr_python) == (1, 1)
    assert array[...].tolist() == list(range(8, 16))


def test_values_and_chunks_at_hand():
    array = small()
    pipeline, spec = pipeline_of(array), spec_of(array)
    chunk = np.arange(16, dtype="u2").reshape(4, 4)
    with counted() as stats:
        values = asyncio.run(pipeline.encode([(cpu.NDBuffer.from_numpy_array(chunk), spec), (None, spec)]))
        assert values[1] is None
        chunks = asyncio.run(pipeline.decode([(None, spec), (values[0], spec)]))
    assert chunks[0] is None and stats.written == stats.read == 2
    same_bits(chunks[1].as_numpy_array(), chunk)
    theirs = asyncio.run(pipeline.plain.decode([(values[0], spec)]))
    same_bits(next(iter(theirs)).as_numpy_array(), chunk)


def spec_of(array):
    """The form of an array's chunks."""
    asked = []

    class Asking(z.CodecPipeline):
        async def read(self, batch_info, out, drop_axes=()):
            asked.extend(spec for _, spec, *_ in batch_info)
            return ()

    ours = pipeline_of(array)
    object.__setattr__(array._async_array, "codec_pipeline", Asking(ours.codecs, ours.plain))
    array[...]
    object.__setattr__(array._async_array, "codec_pipeline", ours)
    return asked[0]


@pytest.mark.parametrize("store", ["memory", "folder", "far"])
def test_one_byte_string_without_axes(store, tmp_path):
    """zarr-python 3.0 has an array of it in the array."""
    array = made(some_store(store, tmp_path), shape=(), chunks=(), dtype="bytes" if IS_3_0 else "variable_length_bytes")
    array[...] = np.array(b"ab\0", object)
    found = array[...]
    assert (found[()] if isinstance(found, np.ndarray) else found) == b"ab\0"


def test_an_empty_batch():
    array = small()
    out = cpu.NDBuffer.from_numpy_array(np.zeros(0, "u2"))
    assert asyncio.run(pipeline_of(array).read([], out)) == ()
    asyncio.run(pipeline_of(array).write([], out))
    assert array[3:3].shape == (0, 8)
    array[3:3] = 1
    assert (array[...] == 0).all()


def test_statistics_begin_anew():
    stats = Statistics()
    stats.add("written_by_zarr_python", 2, "a reason")
    assert "2  by zarr-python since: a reason" in repr(stats)
    stats.clear()
    assert stats.written_by_zarr_python == 0 and not stats.reasons


# -- what is stored


def keys(array):
    return sorted(key for key in array.store_path.store._store_dict if "zarr.json" not in key)


def test_fill_values_are_compared_by_their_bits():
    """zarr-python drops chunks of another NaN."""
    array = made(MemoryStore(), shape=(4,), chunks=(2,), dtype="f4", fill_value=np.nan, compressors=None)
    array[...] = [np.nan, np.nan, NAN, NAN]
    assert keys(array) == ["c/1"]
    assert array[...].view("u4").tolist() == [0x7FC00000] * 2 + [0x7FC12345] * 2
    zeros = made(MemoryStore(), shape=(4,), chunks=(2,), dtype="f8", fill_value=0.0)
    zeros[...] = [-0.0, -0.0, 0.0, 0.0]
    assert keys(zeros) == ["c/0"] and np.signbit(zeros[...]).tolist() == [True, True, False, False]
    same_bits(opened(zeros, THEIRS)[...], zeros[...])
    below = made(MemoryStore(), shape=(4,), chunks=(2,), dtype="f8", fill_value=-0.0)
    below[...] = [-0.0, -0.0, 0.0, 0.0]
    assert keys(below) == ["c/1"] and np.signbit(below[...]).tolist() == [True, True, False, False]


@pytest.mark.parametrize("codecs", [{}, {"shards": (4,)}, {"compressors": None}])
@pytest.mark.parametrize("kind, fill, other", [("i2", 0, 5), ("f4", np.nan, 1), ("bool", True, False), ("c8", 1j, 0)])
def test_chunks_of_fill_values(kind, fill, other, codecs):
    array = made(MemoryStore(), shape=(8,), chunks=(2,), dtype=kind, fill_value=fill, **codecs)
    array[...] = other
    assert len(keys(array)) == (2 if "shards" in codecs else 4)
    array[:3] = fill
    array[3] = fill
    assert keys(array) == (["c/1"] if "shards" in codecs else ["c/2", "c/3"])
    array[...] = fill
    assert keys(array) == []
    expected = np.full(8, fill, kind)
    same_bits(array[...], expected)
    keeps = {"write_empty_chunks": True}
    kept = made(MemoryStore(), shape=(8,), chunks=(2,), dtype=kind, fill_value=fill, config=keeps, **codecs)
    kept[...] = fill
    assert len(keys(kept)) == (2 if "shards" in codecs else 4)
    kept[1] = other
    kept[1] = fill
    assert len(keys(kept)) == (2 if "shards" in codecs else 4)
    same_bits(kept[...], expected)
    same_bits(opened(kept, THEIRS)[...], expected)


def test_texts_of_fill_values():
    array = made(MemoryStore(), shape=(6,), chunks=(2,), dtype=str, fill_value="?")
    array[...] = np.array(["?", "?", "a", "?", "", ""], object)
    assert keys(array) == ["c/1", "c/2"]
    assert array[...].tolist() == ["?", "?", "a", "?", "", ""]
    array[2] = "?"
    assert keys(array) == ["c/2"]
    assert opened(array, THEIRS)[...].tolist() == ["?", "?", "?", "?", "", ""]


def test_other_inner_chunks_of_a_shard_stay_as_they_are():
    array = made(MemoryStore(), shape=(8, 8), chunks=(2, 2), shards=(8, 8), dtype="u2", compressors=[ZstdCodec(level=19)])
    array[...] = np.arange(64).reshape(8, 8)
    before = array.store_path.store._store_dict["c/0/0"].to_bytes()
    array[0, 0] = 9999
    after = array.store_path.store._store_dict["c/0/0"].to_bytes()
    assert before != after and before[60:200] in after
    # one of fill values is left out
    array[:2, :2] = 0
    assert len(array.store_path.store._store_dict["c/0/0"].to_bytes()) < len(before)
    same_bits(opened(array, THEIRS)[...], array[...])


def test_a_store_in_memory_keeps_no_more_than_values():
    array = made(MemoryStore(), shape=(4000,), chunks=(4000,), dtype=str, compressors=None)
    array[...] = np.array(["a text"] * 4000, object)
    value = array.store_path.store._store_dict["c/0"].as_numpy_array()
    held = value if value.base is None else value.base
    while getattr(held, "base", None) is not None:
        held = held.base
    assert memoryview(held).nbytes <= 1.2 * value.nbytes


# -- errors


def damaged(codecs, key="c/0/0", place=5, store=None):
    """An array with a value of which a byte is another one."""
    array = made(MemoryStore(), shape=(8, 8), chunks=(4, 4), dtype="u2", **codecs)
    array[...] = 1 + np.arange(64).reshape(8, 8)
    held = array.store_path.store._store_dict
    value = bytearray(held[key].to_bytes())
    value[place] ^= 255
    held[key] = cpu.Buffer.from_bytes(bytes(value))
    return array


def test_errors_say_which_codec_and_which_chunk():
    array = damaged({"compressors": [Crc32cCodec()]}, "c/1/0")
    for index in (np.s_[:], np.s_[5, 1]):
        with pytest.raises(z.BytesCodec, match=r"by codec 1, 'crc32c', in memory://\d+/c/1/0$") as raised:
            array[index]
        assert raised.value.codec == (1, "crc32c")
    with pytest.raises(z.BytesCodec, match="c/1/0"):
        array[5, 1] = 3
    assert (array[:4] == 1 + np.arange(32).reshape(4, 8)).all()


@pytest.mark.parametrize("store", ["memory", "far"])
def test_errors_say_which_inner_chunk(store):
    inner = ShardingCodec(chunk_shape=(2, 2), codecs=[BytesCodec(), Crc32cCodec()])
    array = damaged({"serializer": inner, "compressors": None}, place=40)
    if store == "far":
        with using(OURS):
            array = zarr.open_array(Far(array.store_path.store), mode="r")
    for index in (np.s_[:], np.s_[2:4, 2:4]):
        with pytest.raises(z.Refused, match="of inner chunk 3.*'sharding_indexed'.*codecs.*'crc32c'.*c/0/0$"):
            array[index]


def test_errors_are_pickled():
    array = damaged({"compressors": [Crc32cCodec()]})
    with pytest.raises(z.BytesCodec) as raised:
        array[...]
    assert str(pickle.loads(pickle.dumps(raised.value))) == str(raised.value)


def test_a_batch_that_fails_ends_what_it_began(tmp_path):
    array = made(LocalStore(tmp_path), shape=(64, 4096), chunks=(1, 4096), dtype="u4", compressors=[Crc32cCodec()])
    array[...] = 1
    (tmp_path / "c/9/0").write_bytes(b"1234")
    (tmp_path / "c/40/0").write_bytes(b"1234")
    with pytest.raises(z.Refused, match="c/9/0"):
        array[...]
    assert (array[10:40] == 1).all()


# -- processes and threads


def of_child(folder, expected, out):
    """A child's read and write of an array that it opens, and of one that it was given."""
    with using(OURS):
        array = zarr.open_array(str(folder), mode="r+")
    same_bits(array[...], expected)
    array[0] = 5
    out.put(int(array[...].sum()))


@pytest.mark.parametrize("way", ["fork", "spawn"])
def test_processes(way, tmp_path):
    """Also one that was forked off behind reads by other threads."""
    array = made(LocalStore(tmp_path), shape=(256, 1024), chunks=(16, 1024), dtype="u4", compressors=None)
    expected = np.arange(256 * 1024, dtype="u4").reshape(256, 1024)
    array[...] = expected
    same_bits(array[...], expected)
    context = multiprocessing.get_context(way)
    out = context.Queue()
    child = context.Process(target=of_child, args=(tmp_path, expected, out))
    child.start()
    found = out.get(timeout=600)
    child.join()
    expected[0] = 5
    assert child.exitcode == 0 and found == expected.sum(dtype="u8")
    same_bits(array[...], expected)


def test_threads_read_and_write_together(tmp_path):
    array = made(LocalStore(tmp_path), shape=(64, 4096), chunks=(4, 4096), dtype="u4")
    expected = np.arange(64 * 4096, dtype="u4").reshape(64, 4096)

    def work(number):
        rows = slice(4 * number, 4 * number + 4)
        for _ in range(5):
            array[rows] = expected[rows]
            same_bits(array[rows], expected[rows])

    with ThreadPoolExecutor(16) as pool:
        list(pool.map(work, range(16)))
    same_bits(array[...], expected)


@pytest.mark.parametrize("count", [1, 3])
def test_how_many_threads_is_zarr_pythons_setting(count, tmp_path):
    array = made(LocalStore(tmp_path), shape=(64, 65536), chunks=(4, 65536), dtype="u4", compressors=[ZstdCodec(level=1)])
    with zarr.config.set({"threading.max_workers": count}):
        array[...] = 1
        assert (array[...] == 1).all()
        from zarrs_codecs.pipeline import _threads

        assert _threads.thread_count() == count and _threads.pool()._max_workers == count


def test_calls_are_run_by_threads_that_have_nothing_to_do():
    from zarrs_codecs.pipeline._threads import pool, run_all

    assert run_all([]) == []
    seen = set()

    def call(number):
        seen.add(threading.get_ident())
        return number * number

    calls = [lambda number=number: call(number) for number in range(100)]
    # more at once than there are threads, each of which waits for its own
    found = [pool().submit(run_all, calls) for _ in range(20)]
    assert all(one.result(timeout=600) == [number * number for number in range(100)] for one in found)

    def fails(number):
        if number in (3, 7):
            raise ValueError(number)

    with pytest.raises(ValueError, match="3"):
        run_all([lambda number=number: fails(number) for number in range(20)])


def test_a_read_that_is_given_up(tmp_path):
    """What is awaited no more leaves nothing that others wait for."""
    far = Far(MemoryStore(), 0.2)
    with using(THEIRS):
        zarr.create_array(far, shape=(8,), chunks=(2,), dtype="u1", compressors=None)[...] = 1
    array = opened(zarr.open_array(far), OURS)

    async def give_up():
        try:
            await asyncio.wait_for(array._async_array.getitem(slice(None)), 0.05)
        except asyncio.TimeoutError:
            return True

    assert asyncio.run(give_up())
    assert (array[...] == 1).all()
