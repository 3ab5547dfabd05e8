"""The functions of sim3 over singles, C's float, by the engine at binary32.

    import sim3
    x = sim3.f32.exp([0, 0, 1.5707964, 0, 0, 0, 0.6931472], from_=3, to=7)
    line = sim3.f32.act_many(x, [1, 0, 0, 2, 0, 0])

All is as in sim3, but that a list is any sequence of numbers, each rounded to the nearest single, or
array('f') or another buffer of singles; and that answers are array('f'). A NaN handed in is a NaN. The
values that are left out are computed in doubles and each is rounded once: sim3.f32.host.
"""
from . import host_f32 as host, raw
from .engine import Engine
from .widths import SINGLE

__all__ = ["act", "host", "nearest_arm", *raw.FUNCTIONS]

# Each function of the table, by the method of its name; they stand one by one for type checkers.
ENGINE = Engine(SINGLE, host)
exp = ENGINE.exp
mul = ENGINE.mul
inverse = ENGINE.inverse
mul_inv = ENGINE.mul_inv
inv_mul = ENGINE.inv_mul
renormalize = ENGINE.renormalize
act_many = ENGINE.act_many
act_each = ENGINE.act_each
scaled_pair = ENGINE.scaled_pair
coeffs_armed = ENGINE.coeffs_armed
armed_pair = ENGINE.armed_pair
block_pair = ENGINE.block_pair
block_inverse = ENGINE.block_inverse
adjoint = ENGINE.adjoint
act_jacobians_right = ENGINE.act_jacobians_right
act_jacobians_left = ENGINE.act_jacobians_left
compose_jacobians_right = ENGINE.compose_jacobians_right
compose_jacobians_left = ENGINE.compose_jacobians_left
inverse_jacobian_right = ENGINE.inverse_jacobian_right
inverse_jacobian_left = ENGINE.inverse_jacobian_left
nearest_arm = ENGINE.nearest_arm
act = ENGINE.act
