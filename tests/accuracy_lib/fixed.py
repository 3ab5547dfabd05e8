"""Exact arithmetic as whole numbers of 2^-280: more than 60 digits behind the point of every number of the tests."""
import math

PLACES = 280
ONE = 1 << PLACES


def of(x):
    """A float, exactly: no float of the tests has a digit behind the last place."""
    numerator, denominator = x.as_integer_ratio()
    shift = PLACES - denominator.bit_length() + 1
    if shift < 0:
        raise ValueError(f"{x!r} has digits behind 2^-{PLACES}")
    return numerator << shift


def mul(a, b):
    return a * b >> PLACES


def cross(a, b):
    return [mul(a[1], b[2]) - mul(a[2], b[1]), mul(a[2], b[0]) - mul(a[0], b[2]), mul(a[0], b[1]) - mul(a[1], b[0])]


def rotated(q, v):
    """(v + 2w (u × v)) + 2 u × (u × v)"""
    uv = cross(q[1:], v)
    uuv = cross(q[1:], uv)
    return [v[i] + 2 * mul(q[0], uv[i]) + 2 * uuv[i] for i in range(3)]


def truly_rotated(q, v):
    """q v q̄ / |q|², the true rotation whatever the length of q: rotated has q v q̄ + (1 - |q|²) v."""
    square = sum(mul(c, c) for c in q)
    return [((c - d + mul(square, d)) << PLACES) // square for c, d in zip(rotated(q, v), v, strict=True)]


def moved(q, t, scale, p, rotate=rotated):
    """s R p + t"""
    return [mul(scale, c) + d for c, d in zip(rotate(q, p), t, strict=True)]


def hamilton(p, q):
    pw, px, py, pz = p
    qw, qx, qy, qz = q
    return [mul(pw, qw) - mul(px, qx) - mul(py, qy) - mul(pz, qz),
            mul(pw, qx) + mul(px, qw) + mul(py, qz) - mul(pz, qy),
            mul(pw, qy) - mul(px, qz) + mul(py, qw) + mul(pz, qx),
            mul(pw, qz) + mul(px, qy) - mul(py, qx) + mul(pz, qw)]


def newton(q):
    """q (3 - |q|²) / 2"""
    k = (3 * ONE - sum(mul(c, c) for c in q)) >> 1
    return [mul(c, k) for c in q]


def coefficients(sigma, z):
    """v0 v1 v2 w0 w1 w2 dv1 dv2 chi_delta by their series, until no term counts."""
    v0 = v1 = v2 = w0 = w1 = w2 = dv1 = dv2 = 0
    p, xi, zeta, dxi, dzeta, j = ONE, 0, 0, 0, 0, 0
    first = second = 1
    while j < 12 or p or abs(xi) + abs(zeta) + abs(dxi) + abs(dzeta) > first:
        first = first * (j + 1)  # (j + 1)!
        second = first * (j + 2)
        v0, w0 = v0 + p // first, w0 + p // second
        v1, w1 = v1 + xi // first, w1 + xi // second
        v2, w2 = v2 + zeta // first, w2 + zeta // second
        dv1, dv2 = dv1 + dxi // first, dv2 + dzeta // first
        p, xi, zeta, dxi, dzeta = (mul(p, sigma), mul(sigma, xi) + p - mul(z, zeta), mul(sigma, zeta) + xi,
                                   mul(sigma, dxi) - zeta - mul(z, dzeta), mul(sigma, dzeta) + dxi)
        j += 1
        if j > 120:
            break
    return [v0, v1, v2, w0, w1, w2, dv1, dv2, mul(v0 - mul(z, v2), mul(sigma, sigma) + z)]


def circle(z):
    """cos(θ/2) and sin(θ/2)/θ at z = θ², by their series."""
    quarter, term, cosine, k, n = z >> 2, ONE, 0, 0, 0
    while term:
        cosine, k = cosine + term, k + term // (2 * n + 1)
        term = -mul(term, quarter) // ((2 * n + 1) * (2 * n + 2))
        n += 1
        if n > 120:
            break
    return cosine, k >> 1


def root(z):
    return math.isqrt(z << PLACES)


def exponential(x):
    """e^x, by its series at x / 16."""
    term, total, n = ONE, 0, 0
    while term:
        total, n = total + term, n + 1
        term = mul(term, x >> 4) // n
    for _ in range(4):
        total = mul(total, total)
    return total


def translation(phi, rho, v0, v1, v2):
    """v0 ρ + v1 φ×ρ + v2 φ×(φ×ρ)"""
    mu = cross(phi, rho)
    nu = cross(phi, mu)
    return [mul(v0, rho[i]) + mul(v1, mu[i]) + mul(v2, nu[i]) for i in range(3)]
