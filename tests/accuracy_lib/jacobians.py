"""Rows of docs/ACCURACY.md on the left Jacobian by blocks, whose answers are those of the mark PA."""
from . import fixed
from .rows import LIMITS, Draw, Row, answers, fixes, mark_of, record, tangents, value_of

# The exponents of the bounds of Q, V and the last column for ρ up to 1, and of the same blocks of the inverse, which
# numbers.py compares with crates/error_bounds/specs/Blocks.antt and InverseBlocks.antt.
BLOCKS = {64: (-42, -45, -46), 32: (-13, -16, -17)}
INVERSE_BLOCKS = {64: (-35, -42, -40), 32: (-9, -15, -14)}
NEAR = {64: 2, 32: 1}  # the arm below whose limit they are bounded
SIZE = 31  # the numbers of a block Jacobian: its blocks a, b and c by columns, f, e


# ---- matrices by columns, in units of 2^-280
def hat(v):
    x, y, z = v
    return [[0, z, -y], [-z, 0, x], [y, -x, 0]]


def times(m, v):
    return [sum(fixed.mul(m[c][r], v[c]) for c in range(3)) for r in range(3)]


def product(a, b):
    return [times(a, column) for column in b]


def combined(*pairs):
    """The sum of m times k over the pairs."""
    return [[sum(fixed.mul(m[c][r], k) for m, k in pairs) for r in range(3)] for c in range(3)]


IDENTITY = [[fixed.ONE, 0, 0], [0, fixed.ONE, 0], [0, 0, fixed.ONE]]


def polynomial(phi, x0, x1, x2):
    """x0 I + x1 W + x2 W², W the matrix of φ × _"""
    w = hat(phi)
    return combined((IDENTITY, x0), (w, x1), (product(w, w), x2))


def quotient(a, b):
    return (a << fixed.PLACES) // b


def rotation_jacobians(phi):
    """J_l(φ) and its inverse, of the rotation alone: by cos(θ/2) and sin(θ/2)/θ."""
    z = sum(fixed.mul(c, c) for c in phi)
    cosine, k = fixed.circle(z)
    half = fixed.ONE >> 1
    if z == 0:
        return IDENTITY, IDENTITY
    cubic = quotient(fixed.ONE - 2 * fixed.mul(k, cosine), z)  # (θ - sin θ) / θ³
    inverse = quotient(fixed.ONE - quotient(cosine, 2 * k), z)  # (1 - θ/2 cot θ/2) / θ²
    return (polynomial(phi, fixed.ONE, 2 * fixed.mul(k, k), cubic), polynomial(phi, fixed.ONE, -half, inverse))


def blocks(phi, rho, c, jl):
    """Q, V and the column of σ, as specs/Blocks.antt has them."""
    v0, v1, v2, w0, w1, w2, dv1, dv2 = c[:8]
    w, xi = hat(phi), hat(rho)
    mu = fixed.cross(phi, rho)
    nu = fixed.cross(phi, mu)
    y = fixed.translation(phi, rho, v0, v1, v2)
    dy = [2 * (fixed.mul(mu[i], dv1) + fixed.mul(nu[i], dv2)) for i in range(3)]
    outer = [[fixed.mul(x, p) for x in dy] for p in phi]
    mixed = combined((product(xi, w), fixed.ONE), (product(w, xi), -2 * fixed.ONE))
    q = combined((product(hat(y), jl), fixed.ONE), (outer, fixed.ONE), (xi, -v1), (mixed, v2))
    return q, polynomial(phi, v0, v1, v2), [-x for x in fixed.translation(phi, rho, w0, w1, w2)]


def inverse_v(phi, z, c):
    """V⁻¹ by its formula, as specs/InverseBlocks.antt has it."""
    v0, v1, v2 = c[:3]
    chi = v0 - fixed.mul(z, v2)
    scale = fixed.mul(chi, chi) + fixed.mul(z, fixed.mul(v1, v1))
    both = fixed.mul(v1, v1) - fixed.mul(v2, chi)
    return polynomial(phi, quotient(fixed.ONE, v0), -quotient(v1, scale), quotient(both, fixed.mul(v0, scale)))


def inverse_blocks(v, q, column, jl_inverse):
    """−V⁻¹ Q J_l(φ)⁻¹, V⁻¹ and −V⁻¹ times the column, as specs/InverseBlocks.antt has them."""
    b = product(product(v, q), jl_inverse)
    return [[-x for x in entries] for entries in b], v, [-x for x in times(v, column)]


# ---- the rows
def flat(m):
    return [x for column in m for x in column]


def left(run, width, count):
    """Q, V and the last column of J_l(τ) below the limit of the series, and the same blocks of its inverse nearer to
    zero, beside those at the computed |φ|² and the exact J_l(φ)."""
    field, mark = "doubles" if width == 64 else "singles", mark_of(width, "PA")
    names = ("Q of the left Jacobian", "V of it", "its last column")
    rows = [Row(f"BlocksTheorem.unit_{field}", width, exponent, name)
            for name, exponent in zip(names, BLOCKS[width], strict=True)]
    inverse_names = (("blocks", "-V⁻¹ Q J_l(φ)⁻¹"), ("v", "the inverse's V⁻¹"), ("blocks", "the inverse's last column"))
    near = [Row(f"InverseBlocksTheorem.{field}", width, exponent, name)
            for (field, name), exponent in zip(inverse_names, INVERSE_BLOCKS[width], strict=True)]
    near_limit, series_limit = LIMITS[width][NEAR[width]], LIMITS[width][3]
    draw = Draw(width, "blocks")
    cases = [*tangents(draw, width, count - count // 2, 1.0, series_limit),
             *tangents(draw, width, count // 2, 1.0, near_limit)]
    exact = [rotation_jacobians(fixes(phi)) for phi, *_ in cases]
    data = run(b"".join(
        record(mark, *phi, *rho, sigma, *[0.0] * 10, *(value_of(width, x) for x in [*flat(jl), *flat(jl_inverse)]))
        for (phi, rho, sigma, _, _), (jl, jl_inverse) in zip(cases, exact, strict=True)))
    actuals = answers(data, mark, len(cases))
    for (phi, rho, sigma, z, delta), (jl, jl_inverse), actual in zip(cases, exact, actuals, strict=True):
        phi, rho, z = fixes(phi), fixes(rho), fixed.of(z)
        c = fixed.coefficients(fixed.of(sigma), z)
        q, v, column = blocks(phi, rho, c, jl)
        rows[0].worst.add(actual[9:18], flat(q))
        rows[1].worst.add(actual[18:27], flat(v))
        rows[2].worst.add(actual[27:30], column)
        if delta < near_limit:
            b, v, f = inverse_blocks(inverse_v(phi, z, c), q, column, jl_inverse)
            near[0].worst.add(actual[SIZE + 9:SIZE + 18], flat(b))
            near[1].worst.add(actual[SIZE + 18:SIZE + 27], flat(v))
            near[2].worst.add(actual[SIZE + 27:SIZE + 30], f)
    return [*rows, *near]
