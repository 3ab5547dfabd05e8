"""The types of arguments and answers, for type checkers."""
from typing import TYPE_CHECKING, Any, Sequence, Union

from .poses import Pose

if TYPE_CHECKING:
    from typing import Protocol

    class Buffer(Protocol):
        """A buffer of numbers: array.array, memoryview, a ctypes array, numpy's ndarray."""

        def __buffer__(self, flags: int, /) -> memoryview: ...
else:
    Buffer = Any

Numbers = Union[Sequence[float], Buffer]
PoseOrNumbers = Union[Pose, Numbers]
