"""The engine through its static library: every call goes to target/calls/libcalls.so, with the host's own function
values (bindings/python/sim3/host.py).

Poses, tangents and blocks are flat lists of numbers in the order of the records.
"""
import ctypes
import os
import pathlib
import subprocess
import sys

TOP = pathlib.Path(__file__).resolve().parent.parent.parent
sys.path.insert(0, str(TOP / "bindings/python"))
from sim3 import host  # noqa: E402

ARCHIVE = TOP / "target/calls/libcalls.a"
LIBRARY = TOP / "target/calls/libcalls.so"


def library():
    """The archive as a shared library, linked anew where the archive is newer."""
    if not ARCHIVE.exists():
        raise SystemExit(f"laws: {ARCHIVE.relative_to(TOP)} is not built; tests/calls/build makes it")
    if not LIBRARY.exists() or LIBRARY.stat().st_mtime < ARCHIVE.stat().st_mtime:
        compiler = os.environ.get("CC", "cc")
        words = [compiler, "-shared", "-o", LIBRARY, "-Wl,--whole-archive", ARCHIVE, "-Wl,--no-whole-archive"]
        try:
            subprocess.run(words, check=True)
        except (OSError, subprocess.CalledProcessError) as error:
            raise SystemExit(f"laws: the C compiler '{compiler}' did not link {LIBRARY.relative_to(TOP)}: "
                             f"{error}") from None
    return ctypes.CDLL(str(LIBRARY))


ENGINE = library()


def call(number, given, count):
    """The `count` numbers that function `number` answers to the given ones; no law meets a refusal."""
    out = (ctypes.c_double * count)()
    status = getattr(ENGINE, f"call_{number}")((ctypes.c_double * len(given))(*given), out)
    if status:
        raise ArithmeticError(f"function {number} refused by {status}")
    return list(out)


def mirrored(sigma, v):
    """The values of the negative tangent, as the scope mirrors them."""
    root, sin_half, cos_half, sine, e, m, e0, m0, up, down = v
    if sigma == 0:
        e, m, e0, m0 = e0, m0, e, m
    return [root, sin_half, cos_half, sine, e, m, e0, m0, down, up]


# ---- the group
IDENTITY = [1.0] + [0.0] * 7


def exp(tau):
    return call(200, tau + host.tangent_values(tau), 8)


def mul(x, y):
    return call(201, x + y + [host.up(x)], 8)


def inverse(x):
    return call(202, x + [host.down(x)], 8)


def act(x, p):
    return call(203, x + [host.up(x)] + p, 3)


def mul_inv(x, y):
    return call(80, x + y + [host.ds(x, y)], 8)


def inv_mul(x, y):
    """y^-1 x."""
    return call(81, x + y + [host.down(y)], 8)


# ---- blocks: a, b, c, f, e
def block_pair(tau):
    """J_l, its inverse, J_r, its inverse."""
    jl, inv = host.rotation_jacobians(tau[:3])
    four = call(204, tau + host.tangent_values(tau) + jl + inv, 124)
    return four[:31], four[31:62], four[62:93], four[93:]


def adjoint(x):
    return call(86, x + [host.up(x)], 31)


def ad(tau):
    return call(87, tau, 31)


def block_identity():
    out = (ctypes.c_double * 31)()
    ENGINE.call_110(out)
    return list(out)


def block_mul(j, k):
    return call(111, j + k, 31)


def block_neg(j):
    return call(112, j, 31)


def block_inverse(j):
    return call(205, j, 31)


def apply(j, tau):
    return call(115, j + tau, 7)


def written_dense(j):
    """What write_dense writes: seven columns of seven."""
    flat = call(117, j, 49)
    return [flat[7 * i:7 * i + 7] for i in range(7)]


def columns(j):
    """What the block makes of the seven unit tangents."""
    return [apply(j, [float(row == column) for row in range(7)]) for column in range(7)]


def two(number, given):
    pair = call(number, given, 62)
    return pair[:31], pair[31:]


def lplus_jacobians(tau):
    return two(93, tau + host.tangent_values(tau) + host.rotation_jacobians(tau[:3])[0])


def rplus_jacobians(tau):
    """With the values of -tau and J_l(-phi), which is J_l(phi) transposed."""
    jl = host.rotation_jacobians(tau[:3])[0]
    transposed = [jl[3 * row + column] for column in range(3) for row in range(3)]
    return two(94, tau + mirrored(tau[6], host.tangent_values(tau)) + transposed)


def compose_jacobians(side, x, y):
    return two(95, x + y + [host.down(y)]) if side == "right" else two(96, x + y + [host.up(x)])


def inverse_jacobian(side, x):
    return call(97, x + [host.up(x)], 31) if side == "right" else call(98, x + [host.down(x)], 31)


def act_jacobians(side, x, p):
    """Columns by phi, rho and sigma, and columns by the point."""
    flat = call(84 if side == "right" else 85, x + [host.up(x)] + p, 30)
    columns = [flat[3 * i:3 * i + 3] for i in range(10)]
    return columns[:7], columns[7:]
