"""The functions at f32 that no mark reaches, for which no answers of the Rust are stored: where no operation rounds,
both widths have the same numbers; and the coefficients with their arms have those of the pair, which the marks co
reach."""
import random
import struct

from .common import bits, call_c, packed, same
from sim3 import raw
from sim3.widths import DOUBLE, SINGLE

# What the functions multiply and add, but for roots and quotients: whole numbers so small stay whole and below 2^24.
EXACT = ("mul", "mul_inv", "inv_mul", "inverse", "act_many", "act_each", "adjoint", "act_jacobians_right",
         "act_jacobians_left", "compose_jacobians_right",
         "compose_jacobians_left", "inverse_jacobian_right", "inverse_jacobian_left", "renormalize")
CASES = 200


def count(name):
    return sum(1 if kind == raw.NUMBER else 12 if kind == raw.POINTS else raw.KINDS[kind][0]
               for _, kind in raw.FUNCTIONS[name].takes if kind != raw.FRAMES)


def whole_numbers():
    source = random.Random(21)
    for name in EXACT:
        for _ in range(CASES):
            given = [float(source.randint(-3, 3)) for _ in range(count(name))]
            wide, narrow = (call_c(name, packed(given, width), width=width) for width in (DOUBLE, SINGLE))
            same(narrow[0], wide[0], f"sim3_{name}_f32 of {given}: status")
            expected = struct.unpack(f"<{len(wide[1]) // 8}d", wide[1])
            same(bits(narrow[1], SINGLE), bits(packed(expected, SINGLE), SINGLE), f"sim3_{name}_f32 of {given}")


def arms_beside_pair():
    source, seen = random.Random(22), set()
    for _ in range(3000):
        sigma, z = source.uniform(-1, 1) * 10 ** source.uniform(-4, 1), 10 ** source.uniform(-6, 3)
        data = packed([sigma, z, *(source.uniform(0.1, 1.5) for _ in range(10))], SINGLE)
        pair, one, both = (call_c(name, data, width=SINGLE)[1]
                           for name in ("scaled_pair", "coeffs_armed", "armed_pair"))
        same((one[8:], both[16:]), (pair[:40], pair), f"coefficients with their arms of {data.hex()}")
        same(one[:8], both[:8], f"arm at sigma of {data.hex()}")
        arm, ends, arm_neg, ends_neg = struct.unpack("<4f", both[:16])
        assert {arm, arm_neg} <= {1, 2, 3, 4, 5} and {ends, ends_neg} <= {0, 1}, f"arms of {data.hex()}"
        seen |= {arm}
    same(seen, {1, 2, 3, 4, 5}, "arms that were met")


TESTS = [whole_numbers, arms_beside_pair]
