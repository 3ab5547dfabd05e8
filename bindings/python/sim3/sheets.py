"""Retaken sheets: the pose of the highest take for each of up to 512 sheets."""
import array
import ctypes
from typing import NamedTuple, Tuple

from . import raw
from .numbers import ctypes_numbers
from .poses import Pose, answered_pose, frames, require_pose, uint16
from .refusals import explained, refusal, wrong_length

POSE = raw.KINDS["pose"][0]
OUTCOMES = {1: "new", 2: "replaced", 3: "older"}


class Shelved(NamedTuple):
    """The outcome of Sheets.put: `how` is "new", "replaced" or "older", which is not kept, and `before` the take that
    was kept before, 0 for a new sheet."""

    how: str
    before: int


class Sheets:
    """For each sheet the pose of the highest take."""

    def __init__(self):
        self._store = (ctypes.c_uint8 * raw.SHEETS_SIZE)()
        refused = raw.call("sheets_start", self._store)
        if refused:
            raise explained(refused, "Sheets", {})

    def put(self, sheet, take, x) -> Shelved:
        """A shot of a sheet, a Pose: it is kept if none of that sheet is, or one of a lower take. Refusal 10
        where the take is the one that is kept, 11 where the sheet would be the 513th; then nothing changes."""
        sheet = uint16("sim3.Sheets.put: sheet", sheet, "a sheet")
        take = uint16("sim3.Sheets.put: take", take, "a take")
        x = require_pose("sim3.Sheets.put: x", x)
        numbers = ctypes_numbers("sim3.Sheets.put: x", x.numbers)
        if len(numbers) != POSE:
            raise wrong_length("Sheets.put", "x", "pose", len(numbers))
        out = (ctypes.c_uint16 * 2)()
        refused = raw.call("sheets_put", self._store, sheet, take, numbers,
                           frames("sim3.Sheets.put: x.", x.from_, x.to), out)
        if refused == 10:
            raise refusal(10, "Sheets.put",
                          f"take {take} is the one that is kept of sheet {sheet}; number the takes of a sheet anew")
        if refused == 11:
            raise refusal(11, "Sheets.put", f"sheet {sheet} would be the 513th; 512 are kept, so begin another store")
        if refused:
            raise explained(refused, "Sheets.put", {})
        return Shelved(OUTCOMES[out[0]], out[1])

    def get(self, sheet) -> Tuple[int, Pose]:
        """The take and the pose that are kept of a sheet; refusal 12 where none was ever kept."""
        sheet = uint16("sim3.Sheets.get: sheet", sheet, "a sheet")
        take, numbers, found = (ctypes.c_uint16 * 1)(), (ctypes.c_double * POSE)(), (ctypes.c_uint16 * 2)()
        refused = raw.call("sheets_get", self._store, sheet, take, numbers, found)
        if refused == 12:
            raise refusal(12, "Sheets.get", f"nothing was ever kept of sheet {sheet}; look which sheets were put")
        if refused:
            raise explained(refused, "Sheets.get", {})
        return take[0], answered_pose(array.array("d", numbers), *found)
