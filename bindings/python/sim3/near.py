"""How near another arm of the coefficients is, at either width."""
from typing import NamedTuple, Optional

from . import raw
from .numbers import number
from .refusals import explained, refusal

DOWN, UP = "down", "up"


class Near(NamedTuple):
    """At the `count`th neighbour of z in the `direction`, "down" or "up", the arm is `arm`, and no nearer number has
    another arm."""

    count: int
    direction: str
    arm: int


def nearest_arm(width, sigma, z) -> Optional[Near]:
    """The answer of the C function at a width, or Refusal."""
    sigma = number(f"{width.package}.nearest_arm: sigma", sigma, width)
    z = number(f"{width.package}.nearest_arm: z", z, width)
    (kind, size), = raw.NEAR_WRITES.values()
    near = (kind * size)()
    refused = raw.call("nearest_arm", sigma, z, near, width=width)
    if refused == 8:
        raise refusal(8, "nearest_arm", f"sigma is {sigma!r} and z is {z!r}; a NaN or an infinity has no "
                                        "neighbours, so look at both first", width)
    if refused:
        raise explained(refused, "nearest_arm", {"z": z}, width)
    count, direction, arm = near
    return Near(count, (DOWN, UP)[direction], arm) if count else None
