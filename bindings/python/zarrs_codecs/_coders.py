"""Which coder a list of codecs has: the library, or Python, which cuts shards with codecs of Python inside."""

from typing import Any

from ._coder import Coder, Form, Shard
from ._layout import is_sharded
from ._library_coder import LibraryCoder
from ._outer_codecs import are_outer
from ._sharding import ShardCoder, has_pythons
from ._wrapped import WrappedShard, shard_place


def shard_of(codecs: list[Any], form: Form) -> Shard:
    """The coder of a shard that Python cuts."""
    return ShardCoder(codecs, form, coder_of)


def coder_of(codecs: list[Any], form: Form) -> Coder:
    """The coder of a list of codecs. Raises the error of the codecs for such chunks, if there is one."""
    if has_pythons(codecs):
        return shard_of(codecs, form)
    place = shard_place(codecs, len(form.shape))
    if place is not None and are_outer(codecs, place + 1):
        return WrappedShard(codecs, form, place, coder_of)
    return LibraryCoder(codecs, form, shard_of)


def array_coder(coder: Coder, codecs: list[Any]) -> Coder:
    """The coder of an array's chunks, where a list of codecs has this one. Python cuts shards whose inner chunks hold texts
    that the library asks for one after the other, since each of these calls may go to a store that is far away."""
    if not isinstance(coder, LibraryCoder) or not is_sharded(codecs) or coder.layout.has_shards_inside:
        return coder
    shard = shard_of(codecs, coder.form)
    return coder if shard.chunk.is_planned or shard.chunk.is_read_whole else shard
