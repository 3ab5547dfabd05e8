"""The engine at one width: a class whose methods are the functions of the package, over the C functions."""
from __future__ import annotations

import array
import ctypes
import struct
from typing import Optional, Tuple

from . import arrays, near, points, raw
from .hints import Buffer, Numbers, PoseOrNumbers
from .numbers import ctypes_numbers, ctypes_over, number
from .poses import FRAMES, Pose, answered_pose, frames, numbers_of, require_pose
from .refusals import explained, wrong_length

ZERO_FRAMES = bytes(FRAMES.size)  # zeros, for frames to be written


def parts(out, kinds):
    """The lists that follow one another in `out`; the list itself if there is one."""
    if len(kinds) == 1:
        return out
    found, at = [], 0
    for kind in kinds:
        size = raw.KINDS[kind][0]
        found.append(out[at:at + size])
        at += size
    return tuple(found)


class Engine:
    """The functions over the numbers of a width; `host` computes the values that a caller leaves out."""

    def __init__(self, width, host):
        self.width, self.host = width, host
        self.zero_pose = bytes(8 * width.size)  # of zeros, for a pose to be written

    # ---- calls of the C functions

    def or_host(self, name, given, function, *arguments):
        """A value of the caller, or the host's if it is None; the host's is not computed in another environment."""
        if given is not None:
            return given
        if raw.differs():
            raise raw.other_environment(name, self.width)
        return function(*arguments)

    def number(self, name, argument, x):
        """A number of one argument."""
        if type(x) is float and self.width.size == 8:
            return x
        return number(f"{self.width.package}.{name}: {argument}", x, self.width)

    def read(self, name, argument, x):
        """Reads an argument that is a list, which must have the length of its kind."""
        kind = raw.kinds(name)[argument]
        if isinstance(x, ctypes.Array) and self.fits(kind, x):
            return x
        found = ctypes_numbers(f"{self.width.package}.{name}: {argument}", numbers_of(x) if kind == "pose" else x,
                               self.width)
        count = len(found)
        if count != raw.KINDS[kind][0]:
            del found  # so that who catches the refusal can change the length of x
            raise wrong_length(name, argument, kind, count, self.width)
        return found

    def fits(self, kind, x):
        """Whether a ctypes array is already what `read` returns for this kind."""
        return (x._type_ is self.width.number and len(x) == raw.KINDS[kind][0]
                and ctypes.addressof(x) % self.width.size == 0)

    def call_c(self, name, *arguments):
        """The answer of a C function, or Refusal."""
        signature, given = raw.FUNCTIONS[name], {}
        for (argument, kind), x in zip(signature.takes, arguments):
            given[argument] = self.number(name, argument, x) if kind == raw.NUMBER else self.read(name, argument, x)
        size = sum(raw.KINDS[kind][0] for kind in signature.gives)
        out = array.array(self.width.code, [0.0]) * size
        refused = raw.call(name, *given.values(), ctypes_over(out, size, self.width), width=self.width)
        if refused:
            refusal = explained(refused, name, given, self.width)
            given.clear()  # so that who catches it can change the length of a list
            raise refusal
        return parts(out, signature.gives)

    def read_pose(self, name, argument, x):
        """A pose's numbers in an array, without a copy if they are in one; a copy of their bytes; and the bytes of its
        frames."""
        if not isinstance(x, Pose):
            require_pose(f"{self.width.package}.{name}: {argument}", x)
        numbers, from_, to = x
        if type(numbers) in (list, tuple):
            try:
                numbers = array.array(self.width.code, numbers)
            except (TypeError, OverflowError):
                pass  # `read` says which of them is no number
        data = numbers.tobytes() if type(numbers) is array.array and numbers.typecode == self.width.code else b""
        if len(data) != len(self.zero_pose):
            data = bytes(self.read(name, argument, numbers))
            numbers = array.array(self.width.code, data)
        return numbers, data, self.read_frames(name, argument + ".", from_, to)

    def read_frames(self, name, argument, from_, to):
        """The bytes of the list of a pose's frames."""
        try:
            return FRAMES.pack(from_, to)
        except struct.error:
            return bytes(frames(f"{self.width.package}.{name}: {argument}", from_, to))

    def call_c_pose(self, name, *words, given=()):
        """The pose that a C function writes, or Refusal. The words are its arguments before the outs, with a list as
        bytes, a copy that nobody changes; `given` has the two poses that it joins."""
        numbers, pose_frames = array.array(self.width.code, self.zero_pose), array.array("H", ZERO_FRAMES)
        if raw.differs():
            raise raw.other_environment(name, self.width)
        function = raw.fast_function(name + self.width.ending)
        refused = function(*words, numbers.buffer_info()[0], 8, pose_frames.buffer_info()[0], 2)
        if refused:
            frames_given = {argument + "_frames": pose[1:] for argument, pose in zip("xy", given)}
            raise explained(refused, name, frames_given, self.width)
        return answered_pose(numbers, *pose_frames)

    # ---- poses

    def exp(self, tau: Numbers, from_: int, to: int, values: Optional[Numbers] = None) -> Pose:
        """Exp(tau), a pose with these frames."""
        tau = self.read("exp", "tau", tau)
        values = self.read("exp", "values", self.or_host("exp", values, self.host.tangent_values, tau))
        return self.call_c_pose("exp", tau, 7, values, 10, self.read_frames("exp", "", from_, to), 2)

    def mul(self, x: Pose, y: Pose, up: Optional[float] = None) -> Pose:
        """X Y, from where Y starts to where X goes; up is e^sigma of X. Refusal 9 where X does not start from
        the frame to which Y goes."""
        of_x, x_data, x_frames = self.read_pose("mul", "x", x)
        _, y_data, y_frames = self.read_pose("mul", "y", y)
        up = self.number("mul", "up", self.or_host("mul", up, self.host.up, of_x))
        return self.call_c_pose("mul", x_data, 8, x_frames, 2, y_data, 8, y_frames, 2, up, given=(x, y))

    def inverse(self, x: Pose, down: Optional[float] = None) -> Pose:
        """X^-1, with the frames exchanged; down is e^-sigma of X."""
        of_x, x_data, x_frames = self.read_pose("inverse", "x", x)
        down = self.number("inverse", "down", self.or_host("inverse", down, self.host.down, of_x))
        return self.call_c_pose("inverse", x_data, 8, x_frames, 2, down)

    def mul_inv(self, x: Pose, y: Pose, ds: Optional[float] = None) -> Pose:
        """X Y^-1, from where Y goes to where X goes; ds is e^(sigma of X - sigma of Y). Refusal 9 where they
        start from two frames."""
        of_x, x_data, x_frames = self.read_pose("mul_inv", "x", x)
        of_y, y_data, y_frames = self.read_pose("mul_inv", "y", y)
        ds = self.number("mul_inv", "ds", self.or_host("mul_inv", ds, self.host.ds, of_x, of_y))
        return self.call_c_pose("mul_inv", x_data, 8, x_frames, 2, y_data, 8, y_frames, 2, ds, given=(x, y))

    def inv_mul(self, x: Pose, y: Pose, down: Optional[float] = None) -> Pose:
        """Y^-1 X, from where X starts to where Y starts; down is e^-sigma of Y. Refusal 9 where they go to two
        frames."""
        _, x_data, x_frames = self.read_pose("inv_mul", "x", x)
        of_y, y_data, y_frames = self.read_pose("inv_mul", "y", y)
        down = self.number("inv_mul", "down", self.or_host("inv_mul", down, self.host.down, of_y))
        return self.call_c_pose("inv_mul", x_data, 8, x_frames, 2, y_data, 8, y_frames, 2, down, given=(x, y))

    def renormalize(self, x: Pose) -> Pose:
        """The pose after one Newton step that brings its quaternion nearer to length 1, with the frames of x,
        which stays as it is."""
        x = require_pose(f"{self.width.package}.renormalize: x", x)
        out = array.array(self.width.code, self.read("renormalize", "x", x.numbers))
        refused = raw.call("renormalize", ctypes_over(out, len(out), self.width), width=self.width)
        if refused:
            raise explained(refused, "renormalize", {}, self.width)
        return answered_pose(out, x.from_, x.to)

    # ---- lists of points: any buffer of x y z of every point, flat or of the shape (n, 3), or a flat list; up is
    # e^sigma of X. The answer is `out`, any buffer of as many numbers, which may be pts itself, or a new list: of
    # numpy and pts's shape where pts is such, else a flat array.

    def move(self, name, x, pts, up, out):
        """Every point moved by the C function of this name."""
        if raw.differs():
            raise raw.other_environment(name, self.width)
        if out is None and self.width.size == 8:
            answer = points.move_fast(name, x, up, pts)
            if answer is not None:
                return answer
        x = self.read(name, "x", x)
        return points.move(name, x, self.number(name, "up", self.or_host(name, up, self.host.up, x)), pts, out,
                           self.width)

    def act_many(self, x: PoseOrNumbers, pts: Numbers, up: Optional[float] = None,
                 out: Optional[Buffer] = None) -> Buffer:
        """Every point moved by the matrix s R, formed once: the bits of helicoid's act_many."""
        return self.move("act_many", x, pts, up, out)

    def act_each(self, x: PoseOrNumbers, pts: Numbers, up: Optional[float] = None,
                 out: Optional[Buffer] = None) -> Buffer:
        """Every point moved by itself: the bits of the job's mark AC, ac at f32."""
        return self.move("act_each", x, pts, up, out)

    def act(self, x: PoseOrNumbers, p: Numbers, up: Optional[float] = None) -> Buffer:
        """A point moved, with the bits of act_each; of poses (n, 8) and points (n, 3) each point by its own pose."""
        return self.move("act_each", x, p, up, None)

    # ---- both signs, both sides, from one evaluation

    def scaled_pair(self, sigma: float, z: float,
                    values: Optional[Numbers] = None) -> Tuple[array.array[float], array.array[float]]:
        """The nine coefficients and the flag at sigma, and those at -sigma; Refusal 1 where z is below zero."""
        sigma, z = self.number("scaled_pair", "sigma", sigma), self.number("scaled_pair", "z", z)
        return self.call_c("scaled_pair", sigma, z, self.or_host("scaled_pair", values, self.host.values, sigma, z))

    def coeffs_armed(self, sigma: float, z: float,
                     values: Optional[Numbers] = None) -> Tuple[array.array[float], array.array[float]]:
        """The arm and its ends, and the nine coefficients and the flag, at sigma; Refusal 1 where z is below zero."""
        sigma, z = self.number("coeffs_armed", "sigma", sigma), self.number("coeffs_armed", "z", z)
        return self.call_c("coeffs_armed", sigma, z, self.or_host("coeffs_armed", values, self.host.values, sigma, z))

    def armed_pair(self, sigma: float, z: float, values: Optional[Numbers] = None) -> Tuple[array.array[float], ...]:
        """Arm and ends at sigma, those at -sigma, and the two of scaled_pair; Refusal 1 where z is below zero."""
        sigma, z = self.number("armed_pair", "sigma", sigma), self.number("armed_pair", "z", z)
        return self.call_c("armed_pair", sigma, z, self.or_host("armed_pair", values, self.host.values, sigma, z))

    def nearest_arm(self, sigma: float, z: float) -> Optional[near.Near]:
        """The least number of neighbouring numbers of this width that z must move, staying finite and not below
        zero, for the arm to change, a Near; None where every such z has the same arm. Where both directions need
        the same count, up is given. Refusal 1 where z is below zero, then 8 where sigma or z is a NaN or infinite."""
        return near.nearest_arm(self.width, sigma, z)

    def block_pair(self, tau: Numbers, values: Optional[Numbers] = None, jl: Optional[Numbers] = None,
                   jl_inv: Optional[Numbers] = None) -> Tuple[array.array[float], ...]:
        """Four blocks: J_l(tau), its inverse, J_r(tau), its inverse; jl is J_l(phi) of the rotation, jl_inv its
        inverse."""
        tau = self.read("block_pair", "tau", tau)
        values = self.or_host("block_pair", values, self.host.tangent_values, tau)
        if jl is None or jl_inv is None:
            hosts = self.or_host("block_pair", None, self.host.rotation_jacobians, tau[:3])
            jl, jl_inv = hosts[0] if jl is None else jl, hosts[1] if jl_inv is None else jl_inv
        return self.call_c("block_pair", tau, values, jl, jl_inv)

    # ---- blocks

    def block_inverse(self, j: Numbers) -> array.array[float]:
        """The inverse of a block; Refusal 2 where e is a zero."""
        return self.call_c("block_inverse", j)

    def adjoint(self, x: PoseOrNumbers, up: Optional[float] = None) -> array.array[float]:
        """Ad_X, a block; up is e^sigma of X."""
        x = self.read("adjoint", "x", x)
        return self.call_c("adjoint", x, self.or_host("adjoint", up, self.host.up, x))

    def act_jacobians_right(self, x: PoseOrNumbers, p: Numbers,
                            up: Optional[float] = None) -> Tuple[array.array[float], ...]:
        """Of X p for X Exp(tau): by phi 9, by rho 9, by sigma 3, and by p 9; up is e^sigma of X."""
        x = self.read("act_jacobians_right", "x", x)
        return self.call_c("act_jacobians_right", x, self.or_host("act_jacobians_right", up, self.host.up, x), p)

    def act_jacobians_left(self, x: PoseOrNumbers, p: Numbers,
                           up: Optional[float] = None) -> Tuple[array.array[float], ...]:
        """Of X p for Exp(tau) X: by phi 9, by rho 9, by sigma 3, and by p 9; up is e^sigma of X."""
        x = self.read("act_jacobians_left", "x", x)
        return self.call_c("act_jacobians_left", x, self.or_host("act_jacobians_left", up, self.host.up, x), p)

    def compose_jacobians_right(self, y: PoseOrNumbers,
                                down: Optional[float] = None) -> Tuple[array.array[float], array.array[float]]:
        """Of X Y, right: by X and by Y, two blocks that read Y alone; down is e^-sigma of Y."""
        y = self.read("compose_jacobians_right", "y", y)
        down = self.or_host("compose_jacobians_right", down, self.host.down, y)
        return self.call_c("compose_jacobians_right", y, down)

    def compose_jacobians_left(self, x: PoseOrNumbers,
                               up: Optional[float] = None) -> Tuple[array.array[float], array.array[float]]:
        """Of X Y, left: by X and by Y, two blocks that read X alone; up is e^sigma of X."""
        x = self.read("compose_jacobians_left", "x", x)
        return self.call_c("compose_jacobians_left", x, self.or_host("compose_jacobians_left", up, self.host.up, x))

    def inverse_jacobian_right(self, x: PoseOrNumbers, up: Optional[float] = None) -> array.array[float]:
        """Of X^-1, right, a block; up is e^sigma of X."""
        x = self.read("inverse_jacobian_right", "x", x)
        return self.call_c("inverse_jacobian_right", x, self.or_host("inverse_jacobian_right", up, self.host.up, x))

    def inverse_jacobian_left(self, x: PoseOrNumbers, down: Optional[float] = None) -> array.array[float]:
        """Of X^-1, left, a block; down is e^-sigma of X."""
        x = self.read("inverse_jacobian_left", "x", x)
        return self.call_c("inverse_jacobian_left", x, self.or_host("inverse_jacobian_left", down, self.host.down, x))


for name in (*raw.FUNCTIONS, "act", "nearest_arm"):
    setattr(Engine, name, arrays.accept_arrays(getattr(Engine, name)))  # each takes arrays of numpy too
