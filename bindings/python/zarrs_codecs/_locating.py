"""Which codec an error is of, and which key: found by asking the library about lists that differ from the one that fails."""

import bisect
import contextlib
import itertools
import json
import reprlib
from collections.abc import Callable, Iterator
from typing import Any

from ._checksum import LENGTH as CHECKSUM_LENGTH
from ._checksum import NAME as CHECKSUM
from ._checksum import without_checksum
from .refusals import Refused

# What the library says of a list of codecs, or of one codec: the name of a failure, or "Done".
Ask = Callable[[Any], str]
# The errors that rest on codecs and on what they are given, and not on what is stored.
OF_CODECS = {
    "Syntax",
    "UnknownName",
    "InvalidConfiguration",
    "MissingArrayToBytes",
    "MultipleArrayToBytes",
    "BitOrder",
    "MultipleAuto",
    "ZeroSize",
    "NotAPermutation",
    "UnsupportedDataType",
    "EndiannessMissing",
    "InvalidFillValue",
    "IncompatibleDimensionality",
    "Overflow",
    "ReshapeDimension",
    "ReshapeElements",
    "BitRange",
    "ElementCount",
    "IndivisibleShape",
    "IndexNotFixed",
}

# The errors that rest on what is stored, or on what elements make of it.
OF_VALUES = {
    "InvalidBytesLength",
    "InvalidByteRange",
    "PaddingByte",
    "IndexLength",
    "InvalidOffsets",
    "OffsetTooLarge",
    "OffsetNotKept",
    "MaskValue",
    "HeaderOverflow",
    "BytesCodec",
    "ElementCount",
    "NotInPlace",
}

# Those that rest on no value.
_OF_ELEMENTS = ("OffsetTooLarge", "OffsetNotKept", "NotInPlace")
# Those of a codec as such.
_OF_NO_KEY = ("UnknownName", "IndexNotFixed")

# So many bytes of codecs are asked about to find where a failure is, which takes some 50 ms.
_MOST_BYTES = 1 << 20

_LITTLE = {"name": "bytes", "configuration": {"endian": "little"}}
_VLEN = {
    "index_codecs": [_LITTLE],
    "data_codecs": ["bytes"],
    "index_data_type": "uint64",
    "index_location": "start",
}
_TEXTS = {"name": "zarrs.vlen", "configuration": _VLEN}
# Codecs that take what they are given, to be put in the place of others.
_WILLING = [
    _LITTLE,
    _TEXTS,
    *(
        {"name": "zarrs.optional", "configuration": {"mask_codecs": ["bytes"], "data_codecs": [data]}}
        for data in (_LITTLE, _TEXTS)
    ),
]
# Values of keys that are right by themselves.
_RIGHT: dict[str, list[Any]] = {
    "endian": ["little"],
    "order": [list(range(axes)) for axes in range(17)],
    "shape": [[-1]],
    "mask_codecs": [["bytes"]],
    "data_codecs": [[codec] for codec in _WILLING],
    **{key: [value] for key, value in _VLEN.items() if key != "data_codecs"},
}
# The same of `sharding_indexed`.
_RIGHT_OF_SHARDS: dict[str, list[Any]] = {
    "chunk_shape": [[1] * axes for axes in range(17)],
    "codecs": [[codec] for codec in _WILLING],
    "index_codecs": [[_LITTLE]],
    "index_location": ["end"],
}


def _right_of(codec: Any) -> dict[str, list[Any]]:
    """Values of a codec's keys that are right by themselves."""
    return _RIGHT_OF_SHARDS if name_of(codec) == "sharding_indexed" else _RIGHT


def name_of(codec: Any) -> str:
    """A codec's name, as far as it has one."""
    name = codec.get("name") if isinstance(codec, dict) else codec
    return name if isinstance(name, str) else reprlib.repr(name)


def _willing(ask: Ask) -> Any:
    """A codec that takes what a list is given; None where none does."""
    return next((codec for codec in _WILLING if ask([codec]) == "Done"), None)


class _Spent(Exception):
    """So much was asked already that no more is."""


def _bounded(ask: Ask, codecs: list[Any]) -> Ask:
    """The same, until as much was asked as is worth it to say where a failure is."""
    left = iter(range(_MOST_BYTES // len(json.dumps(codecs)) + 1))

    def asked(other: Any) -> str:
        if next(left, None) is None:
            raise _Spent
        return ask(other)

    return asked


def _comes(ask: Ask, begin: list[Any], failure: str, willing: Any) -> bool:
    """Whether the failure comes with the first codecs of a list, whatever follows them."""
    if failure == "MultipleArrayToBytes":
        return ask(begin) == failure
    answer = ask([*begin, willing])
    return answer == failure or answer != "Done" and ask(begin) == failure


def _place(ask: Ask, codecs: list[Any], failure: str, willing: Any) -> int | None:
    """The place of the first codec with which the failure comes, whatever follows it; it comes with all longer lists."""
    if not codecs or not _comes(ask, codecs, failure, willing):
        return None
    counts = range(1, len(codecs) + 1)
    return bisect.bisect_left(counts, True, key=lambda count: _comes(ask, codecs[:count], failure, willing))


def _lists_of(configuration: Any, right: dict[str, list[Any]]) -> dict[str, list[Any]]:
    """The lists of codecs in a codec's configuration."""
    if not isinstance(configuration, dict):
        return {}
    return {
        key: value
        for key, value in configuration.items()
        if key in right and key.endswith("codecs") and isinstance(value, list)
    }


def _failing_list(ask: Ask, codec: Any, failure: str) -> tuple[str, list[Any], Ask] | None:
    """The list of codecs in a codec that the failure is of: its key, itself, and how to ask about others."""
    configuration = codec.get("configuration") if isinstance(codec, dict) else None
    lists = _lists_of(configuration, _right_of(codec))
    if not isinstance(configuration, dict) or not lists:
        return None
    for right in itertools.product(*(_right_of(codec)[key] for key in lists)):
        all_right = {**configuration, **dict(zip(lists, right))}
        if ask({**codec, "configuration": all_right}) != "Done":
            continue
        for key, codecs in lists.items():

            def ask_list(other: Any, key: str = key) -> str:
                return ask({**codec, "configuration": {**all_right, key: other}})

            if ask_list(codecs) == failure:
                return key, codecs, ask_list
    return None


def _without(members: dict[str, Any], key: str) -> dict[str, Any]:
    return {name: value for name, value in members.items() if name != key}


def _other_configurations(
    configuration: dict[str, Any], right: dict[str, list[Any]]
) -> Iterator[tuple[str, dict[str, Any]]]:
    """A key, and the configuration with another value of it, or without it."""
    for key in configuration:
        yield from ((key, {**configuration, key: value}) for value in right.get(key, ()))
        yield key, _without(configuration, key)
    for key, values in right.items():
        if key not in configuration:
            yield from ((key, {**configuration, key: value}) for value in values)


def _key(ask: Ask, codec: Any, failure: str) -> str | None:
    """The key of a codec that the failure is of: with another value of it, or without it, it doesn't come."""
    codec = codec if isinstance(codec, dict) else {"name": codec}
    configuration = codec.get("configuration", {})
    if not isinstance(configuration, dict):
        return "configuration" if failure == "InvalidConfiguration" else None
    found = (
        key
        for key, other in _other_configurations(configuration, _right_of(codec))
        if ask({**codec, "configuration": other}) not in (failure, "InvalidConfiguration")
    )
    return next(found, None) or _first_key(ask, codec, configuration, failure)


def _first_key(ask: Ask, codec: dict[str, Any], configuration: dict[str, Any], failure: str) -> str | None:
    """The first of several keys that are wrong or missing: it fails where all others are right."""
    rights = _right_of(codec)
    for right in itertools.product(*rights.values()):
        others = dict(zip(rights, right))
        if ask({**codec, "configuration": others}) != failure:
            break
    else:
        return None
    for key, value in configuration.items():
        if ask({**codec, "configuration": {**others, key: value}}) == failure:
            return key
    for key in others:
        if ask({**codec, "configuration": _without(others, key)}) == failure:
            return key
    return None


def locate(error: Refused, ask: Ask, codecs: list[Any]) -> None:
    """Puts into an error which of these codecs it is of, and which key, where that is found."""
    with contextlib.suppress(_Spent):
        _locate(error, _bounded(ask, codecs), codecs)


def _locate(error: Refused, ask: Ask, codecs: list[Any]) -> None:
    """The same, level by level of lists in codecs."""
    failure = type(error).__name__
    key: str | None = None
    while (willing := _willing(ask)) is not None:
        place = _place(ask, codecs, failure, willing)
        if place is None:
            error.key = key
            return
        codec, begin = codecs[place], codecs[:place]
        if error.codec is None:
            error.codec = place, name_of(codec)
        else:
            error.inner = (*error.inner, (str(key), place, name_of(codec)))

        def ask_one(other: Any, ask: Ask = ask, begin: list[Any] = begin, willing: Any = willing) -> str:
            answer = ask([*begin, other])
            return ask([*begin, other, willing]) if answer == "MissingArrayToBytes" else answer

        found = _failing_list(ask_one, codec, failure)
        if found is None:
            error.key = None if failure in _OF_NO_KEY else _key(ask_one, codec, failure)
            return
        key, codecs, ask = found
    error.key = key


def _fails(codec: Any, value: Any) -> tuple[bool, Any]:
    """Whether a bytes-to-bytes codec of the library fails to decode a value, and what it makes of it else."""
    size = memoryview(value).nbytes - CHECKSUM_LENGTH
    if size <= 0:
        return size < 0 or any(memoryview(value).cast("B")), b""
    try:
        return False, without_checksum(codec, value)
    except Refused:
        return True, None


def locate_stored(error: Refused, ask: Ask, codecs: list[Any], value: Any) -> None:
    """Puts into an error of a value which of these codecs it is of, where that is found: bytes-to-bytes codecs are
    asked from the last one on, and where they take the value it is of the array-to-bytes codec. That a value isn't
    edited in place is of the codec behind this one, where there is one."""
    place = next(at for at in range(len(codecs)) if ask(codecs[: at + 1]) != "MissingArrayToBytes")
    if type(error).__name__ == "NotInPlace":
        place = min(place + 1, len(codecs) - 1)
    behind = () if type(error).__name__ in _OF_ELEMENTS else range(len(codecs) - 1, place, -1)
    for at in behind:
        if value is None or name_of(codecs[at]) != CHECKSUM:
            return
        has_failed, value = _fails(codecs[at], value)
        if has_failed:
            place = at
            break
    error.codec = place, name_of(codecs[place])
