"""The docstrings of public names: numpydoc's sections, with each parameter in its place."""

import dataclasses
import importlib.util
import inspect
import re

import pytest

import zarrs_codecs

SECTIONS = ["Parameters", "Attributes", "Returns", "Raises", "Examples"]


def public():
    """The public functions, classes and methods, and names of them."""
    things = {name: getattr(zarrs_codecs, name) for name in zarrs_codecs.__all__}
    if importlib.util.find_spec("zarr") is not None:
        things["CodecPipeline"] = zarrs_codecs.CodecPipeline
        things["Statistics"] = type(zarrs_codecs.CodecPipeline.stats)
    for name, thing in things.items():
        if inspect.isclass(thing):
            yield name, thing
            for part, value in vars(thing).items():
                value = getattr(value, "__func__", getattr(value, "fget", value))
                if not part.startswith("_") and inspect.isfunction(value):
                    yield f"{name}.{part}", value


PUBLIC = dict(public())


def sections(text):
    """What stands in each of a docstring's sections, in order."""
    parts = re.split(r"^(\w+)\n-{3,}\n", inspect.cleandoc(text), flags=re.MULTILINE)
    return dict(zip(parts[1::2], parts[2::2], strict=True))


def test_sections():
    assert sections("A.\n\n    Returns\n    -------\n    int\n        One.\n") == {"Returns": "int\n    One."}


@pytest.mark.parametrize("name", PUBLIC)
def test_sections_of(name):
    thing = PUBLIC[name]
    found = sections(thing.__doc__)
    assert list(found) == [one for one in SECTIONS if one in found]
    for one, text in found.items():
        is_underlined = re.search(rf"^ *{one}\n *{'-' * len(one)}$", thing.__doc__, re.MULTILINE)
        assert is_underlined and text.strip()
    if ">>>" in thing.__doc__:
        assert ">>>" in found["Examples"] and ">>>" not in thing.__doc__.partition("Examples\n")[0]


@pytest.mark.parametrize("name", [name for name, thing in PUBLIC.items() if not (inspect.isclass(thing) and issubclass(thing, Exception))])
def test_parameters_of(name):
    """Each parameter has its line, in order, and each function that returns something says what."""
    thing = PUBLIC[name]
    found = sections(thing.__doc__)
    is_made_of_fields = inspect.isclass(thing) and ("__init__" not in vars(thing) or dataclasses.is_dataclass(thing))
    signature = inspect.signature(thing.__init__ if inspect.isclass(thing) else thing)
    due = [] if is_made_of_fields else [one for one in signature.parameters if one not in ("self", "cls")]
    lines = re.findall(r"^(?:\*\*)?(\w[\w, ]*?)(?: : .*)?$", found.get("Parameters", ""), re.MULTILINE)
    assert [one for line in lines for one in line.split(", ")] == due
    is_property = inspect.isfunction(thing) and not due and "Returns" not in found
    if inspect.isfunction(thing) and not is_property:
        assert ("Returns" in found) == (signature.return_annotation is not None)
