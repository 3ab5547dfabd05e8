"""The host's function values for singles: those of host, computed in doubles, and each rounded once."""
import ctypes
from typing import List, Sequence, Tuple

from . import host


def single(x):
    """The nearest single."""
    return ctypes.c_float(x).value


def singles(numbers):
    return [single(x) for x in numbers]


def norm_sq(phi: Sequence[float]) -> float:
    """z of a rotation vector."""
    return single(host.norm_sq(phi))


def values(sigma: float, z: float) -> List[float]:
    """The ten function values for a log scale and a squared angle: root, sin_half, cos_half, sin,
    e, m, e0, m0, up, down."""
    return singles(host.values(sigma, z))


def tangent_values(tau: Sequence[float]) -> List[float]:
    """The ten values of a tangent, whose squared angle is not rounded before the root."""
    return singles(host.tangent_values(tau))


def up(x: Sequence[float]) -> float:
    """e^sigma of a pose's eight numbers."""
    return single(host.up(x))


def down(x: Sequence[float]) -> float:
    """e^-sigma of a pose's eight numbers."""
    return single(host.down(x))


def ds(x: Sequence[float], y: Sequence[float]) -> float:
    """e^(sigma of X - sigma of Y), which X Y^-1 reads."""
    return single(host.ds(x, y))


def rotation_jacobians(phi: Sequence[float]) -> Tuple[List[float], List[float]]:
    """SO(3)'s left Jacobian at phi and its inverse, each column by column."""
    jl, jl_inv = host.rotation_jacobians(phi)
    return singles(jl), singles(jl_inv)
