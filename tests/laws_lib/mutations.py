"""What the laws notice: every function of engine.py with one number of its answer changed, and the law that breaks
first."""
from . import engine

CHANGE = 1e-9

# The functions, and for those that have two sides the side whose answer is changed.
PLAIN = ["exp", "mul", "inverse", "act", "mul_inv", "inv_mul", "block_pair", "adjoint", "ad", "block_identity",
         "block_mul", "block_neg", "block_inverse", "apply",
         "written_dense", "lplus_jacobians", "rplus_jacobians"]
SIDED = ["compose_jacobians", "inverse_jacobian", "act_jacobians"]


def count(answer):
    """How many numbers an answer has, in lists of any depth."""
    return sum(count(part) for part in answer) if isinstance(answer, (list, tuple)) else 1


def mutate(answer, place):
    """The answer with the number at a place, counted through its lists, moved by CHANGE of itself or of 1."""
    if not isinstance(answer, (list, tuple)):
        return answer + CHANGE * max(abs(answer), 1.0) if place == 0 else answer
    parts = []
    for part in answer:
        parts.append(mutate(part, place) if 0 <= place < count(part) else part)
        place -= count(part)
    return parts


def answers(name, side):
    """How many numbers the function answers, by one call."""
    x, tau, point = engine.IDENTITY, [0.1] * 7, [0.5] * 3
    given = {"exp": [tau], "block_pair": [tau], "ad": [tau], "lplus_jacobians": [tau], "rplus_jacobians": [tau],
             "block_identity": [],
             "mul": [x, x], "mul_inv": [x, x], "inv_mul": [x, x], "act": [x, point], "inverse": [x], "adjoint": [x],
             "compose_jacobians": [side, x, x], "inverse_jacobian": [side, x], "act_jacobians": [side, x, point]}
    block = engine.block_identity()
    blocks = {"block_mul": [block, block], "apply": [block, tau]}
    return count(getattr(engine, name)(*{**given, **blocks}.get(name, [block])))


def cases():
    for name in PLAIN:
        yield name, None
    for name in SIDED:
        yield name, "right"
        yield name, "left"


def with_change(name, side, place, run):
    """What run() answers while the function's answer is changed at a place."""
    original = getattr(engine, name)

    def mutated(*given):
        answer = original(*given)
        return mutate(answer, place) if side is None or given[0] == side else answer
    setattr(engine, name, mutated)
    try:
        return run()
    finally:
        setattr(engine, name, original)
