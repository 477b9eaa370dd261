"""What all of the library's errors are."""

import os


class Refused(Exception):
    """A call failed. Each error is a class below this one; the call has changed nothing.

    Where they are known, the message and the attributes say what failed. Of a shard the message says of which inner chunk
    an error is, by its number in the index, and of those around it.

    Attributes
    ----------
    codec : tuple of int and str, or None
        The place in the list of codecs, from 0, and the codec's name.
    inner : tuple of tuple
        Where the codec has lists of codecs and the error is of one in them: for each level the list's key, the place in it
        and the name there.
    key : str or None
        The key of the last one's configuration.
    path : str, os.PathLike or None
        The chunk's file or `zarr.json`.
    hint : str or None
        What could help.

    Examples
    --------
    >>> from zarrs_codecs import Chain
    >>> try:
    ...     Chain(["bytes"], (2,), "int16")
    ... except Refused as error:
    ...     type(error).__name__, error.codec, error.key
    ('EndiannessMissing', (0, 'bytes'), 'endian')
    """

    codec: tuple[int, str] | None = None
    inner: tuple[tuple[str, int, str], ...] = ()
    key: str | None = None
    path: str | os.PathLike[str] | None = None
    hint: str | None = None

    def __str__(self) -> str:
        text = super().__str__()
        if self.codec is not None:
            text += f", by codec {self.codec[0]}, {self.codec[1]!r}"
        text += "".join(f", in its {key}[{place}], {name!r}" for key, place, name in self.inner)
        if self.key is not None:
            text += f", for its key {self.key!r}"
        if self.hint is not None:
            text += f"; {self.hint}"
        if self.path is not None:
            text += f", in {os.fspath(self.path)}"
        return text


class Wrong(Refused, ValueError):
    """What the caller gave, or what is stored, is wrong."""
