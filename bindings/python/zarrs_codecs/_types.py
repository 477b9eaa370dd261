"""Types that signatures name."""

import operator
from typing import Any

import numpy as np
import numpy.typing as npt

# An array of elements of any type.
AnyArray = npt.NDArray[Any]
# The bytes of a value.
Bytes = npt.NDArray[np.uint8]
Shape = tuple[int, ...]


def sizes_of(shape: Any) -> Shape:
    """The sizes of a shape, which is a number where there is one axis."""
    return (operator.index(shape),) if hasattr(shape, "__index__") and np.ndim(shape) == 0 else tuple(map(operator.index, shape))


def listed(array: AnyArray) -> list[Any]:
    """An array's elements in a list, whose types numpy doesn't say."""
    elements: Any = array.tolist()
    return list(elements)
