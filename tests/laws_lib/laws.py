"""The laws of the group that need no logarithm. Each takes a draw of samples and returns its worst error in units of
rounding."""
import math

from . import engine as g
from .measure import derivative, error, flat, worst

TERMS = 60  # of the series in ad: the last is below 1e-20 where the norm of ad is at most 10


def pose_error(actual, expected):
    """A quaternion and its negative are one rotation: the nearer of the two counts."""
    negative = [-x for x in actual[:4]] + actual[4:]
    return min(error(actual, expected), error(negative, expected))


def block_error(actual, expected):
    return error(flat(g.columns(actual)), flat(g.columns(expected)))


def negated(numbers):
    return [-x for x in numbers]


# ---- the group
def group_axioms(draw):
    """(x y) z = x (y z), 1 x = x 1 = x, x x^-1 = x^-1 x = 1, and the quotients."""
    x, y, z = draw.pose(), draw.pose(), draw.pose()
    back = g.inverse(x)
    return worst([
        pose_error(g.mul(g.mul(x, y), z), g.mul(x, g.mul(y, z))),
        pose_error(g.mul(g.IDENTITY, x), x), pose_error(g.mul(x, g.IDENTITY), x),
        pose_error(g.mul(x, back), g.IDENTITY), pose_error(g.mul(back, x), g.IDENTITY),
        pose_error(g.mul_inv(x, y), g.mul(x, g.inverse(y))), pose_error(g.inv_mul(x, y), g.mul(g.inverse(y), x)),
    ])


def action(draw):
    """(x y) p = x (y p), x^-1 (x p) = p."""
    x, y, p = draw.pose(), draw.pose(), draw.point()
    return worst([error(g.act(g.mul(x, y), p), g.act(x, g.act(y, p))), error(g.act(g.inverse(x), g.act(x, p)), p)])


def one_parameter(draw):
    """Exp((a + b) tau) = Exp(a tau) Exp(b tau), and Exp(-tau) = Exp(tau)^-1."""
    tau = draw.tangent()
    a, b = draw.number(0.5), draw.number(0.5)

    def along(k):
        return g.exp([k * x for x in tau])
    return worst([pose_error(along(a + b), g.mul(along(a), along(b))), pose_error(along(-1.0), g.inverse(along(1.0)))])


def rho_negated(draw):
    """With rho negated, t of Exp and b and f of J_l are negated and the rest stays: exactly, but for the signs of
    zeros."""
    tau = draw.tangent()
    back = tau[:3] + negated(tau[3:6]) + tau[6:]
    x, left = g.exp(tau), g.block_pair(tau)[0]
    return worst([
        error(g.exp(back), x[:4] + negated(x[4:7]) + x[7:]),
        error(g.block_pair(back)[0], left[:9] + negated(left[9:18]) + left[18:27] + negated(left[27:30]) + left[30:]),
    ])


def adjoint_identity(draw):
    """x Exp(tau) x^-1 = Exp(Ad_x tau)."""
    x, tau = draw.pose(), draw.tangent()
    return pose_error(g.mul(g.mul(x, g.exp(tau)), g.inverse(x)), g.exp(g.apply(g.adjoint(x), tau)))


# ---- the Jacobians among themselves
def left_is_ad_right(draw):
    """J_l = Ad_Exp(tau) J_r."""
    tau = draw.tangent()
    left, _, right, _ = g.block_pair(tau)
    return block_error(g.block_mul(g.adjoint(g.exp(tau)), right), left)


def inverses(draw):
    """J J^-1 = J^-1 J = 1 for both sides, and for the inverse of any block."""
    left, left_inv, right, right_inv = g.block_pair(draw.tangent())
    one = g.block_identity()
    pairs = [(left, left_inv), (right, right_inv), (left, g.block_inverse(left))]
    return worst(block_error(g.block_mul(a, b), one) for j, k in pairs for a, b in ((j, k), (k, j)))


def rows(draw):
    """The rows of both sides by Ad, J_l and J_r: plus, product and inverse."""
    tau, x, y = draw.tangent(), draw.pose(), draw.pose()
    left, _, right, _ = g.block_pair(tau)
    one, ad_exp = g.block_identity(), g.adjoint(g.exp(tau))
    lplus, rplus = g.lplus_jacobians(tau), g.rplus_jacobians(tau)
    by_x, by_y = g.compose_jacobians("right", x, y)
    from_x, from_y = g.compose_jacobians("left", x, y)
    return worst([
        block_error(lplus[0], ad_exp), block_error(lplus[1], left),
        block_error(g.block_mul(ad_exp, rplus[0]), one), block_error(rplus[1], right),
        block_error(g.block_mul(g.adjoint(y), by_x), one), block_error(by_y, one),
        block_error(from_x, one), block_error(from_y, g.adjoint(x)),
        block_error(g.inverse_jacobian("right", x), g.block_neg(g.adjoint(x))),
        block_error(g.block_mul(g.inverse_jacobian("left", x), g.adjoint(x)), g.block_neg(one)),
    ])


def dense_order(draw):
    """write_dense writes the columns of the map."""
    left, left_inv, right, right_inv = g.block_pair(draw.tangent())
    return worst(error(flat(g.written_dense(j)), flat(g.columns(j)))
                 for j in (left, left_inv, right, right_inv, g.adjoint(draw.pose())))


# ---- ad
def bracket(a, b):
    return g.apply(g.ad(a), b)


def minus(a, b):
    return [x - y for x, y in zip(a, b)]


def lie_bracket(draw):
    """[a, a] = 0, [a, b] = -[b, a], [[a, b], c] = [a, [b, c]] - [b, [a, c]]."""
    a, b, c = draw.tangent(), draw.tangent(), draw.tangent()
    return worst([
        error(bracket(a, a), [0.0] * 7), error(bracket(a, b), [-x for x in bracket(b, a)]),
        error(bracket(bracket(a, b), c), minus(bracket(a, bracket(b, c)), bracket(b, bracket(a, c)))),
    ])


def series(j, c, first):
    """The sum of j^k c / (k + first)!, from its smallest term."""
    terms, power = [], c
    for k in range(TERMS):
        terms.append([x / math.factorial(k + first) for x in power])
        power = g.apply(j, power)
    return [math.fsum(column) for column in zip(*terms)]


def ad_series(draw):
    """Ad_Exp(a) c, J_l(a) c and J_r(a) c are the series in ad_a."""
    a, c = draw.tangent(), draw.tangent()
    left, _, right, _ = g.block_pair(a)
    j = g.ad(a)
    return worst([
        error(g.apply(g.adjoint(g.exp(a)), c), series(j, c, 0)),
        error(g.apply(left, c), series(j, c, 1)), error(g.apply(right, c), series(g.block_neg(j), c, 1)),
    ])


# ---- the Jacobians as derivatives
def small(pose):
    """The tangent of a pose near 1, to first order: a quaternion near -1 is negated."""
    sign = 1.0 if pose[0] > 0 else -1.0
    return [2 * sign * x for x in pose[1:4]] + pose[4:]


def unit(i, h):
    return [h if row == i else 0.0 for row in range(7)]


def jacobian_error(block, curve):
    """A block against the derivatives of curve(delta), a pose near 1, by the seven parts of delta."""
    found = [derivative(lambda h: small(curve(unit(i, h)))) for i in range(7)]
    return error(flat(g.columns(block)), flat(found))


def plus(a, b):
    return [x + y for x, y in zip(a, b)]


def exp_jacobians(draw):
    """J_r and J_l are the derivatives of Exp, seen from the right and from the left."""
    tau = draw.tangent()
    left, _, right, _ = g.block_pair(tau)
    back = g.inverse(g.exp(tau))
    return worst([
        jacobian_error(right, lambda d: g.mul(back, g.exp(plus(tau, d)))),
        jacobian_error(left, lambda d: g.mul(g.exp(plus(tau, d)), back)),
    ])


def product_jacobians(draw):
    """The derivatives of X Y by X and by Y, both sides."""
    x, y = draw.pose(), draw.pose()
    back = g.inverse(g.mul(x, y))
    by_x, by_y = g.compose_jacobians("right", x, y)
    from_x, from_y = g.compose_jacobians("left", x, y)
    return worst([
        jacobian_error(by_x, lambda d: g.mul(back, g.mul(g.mul(x, g.exp(d)), y))),
        jacobian_error(by_y, lambda d: g.mul(back, g.mul(x, g.mul(y, g.exp(d))))),
        jacobian_error(from_x, lambda d: g.mul(g.mul(g.mul(g.exp(d), x), y), back)),
        jacobian_error(from_y, lambda d: g.mul(g.mul(x, g.mul(g.exp(d), y)), back)),
    ])


def inverse_jacobians(draw):
    """The derivative of X^-1, both sides."""
    x = draw.pose()
    return worst([
        jacobian_error(g.inverse_jacobian("right", x), lambda d: g.mul(x, g.inverse(g.mul(x, g.exp(d))))),
        jacobian_error(g.inverse_jacobian("left", x), lambda d: g.mul(g.inverse(g.mul(g.exp(d), x)), x)),
    ])


def act_jacobians(draw):
    """The derivatives of X p by X, both sides, and by p."""
    x, p = draw.pose(), draw.point()
    errors = []
    moves = {"right": lambda d: g.mul(x, g.exp(d)), "left": lambda d: g.mul(g.exp(d), x)}
    for side, moved in moves.items():
        by_x, by_p = g.act_jacobians(side, x, p)
        found = [derivative(lambda h: g.act(moved(unit(i, h)), p)) for i in range(7)]
        errors.append(error(flat(by_x), flat(found)))
        found = [derivative(lambda h: g.act(x, plus(p, [h if row == i else 0.0 for row in range(3)])))
                 for i in range(3)]
        errors.append(error(flat(by_p), flat(found)))
    return worst(errors)
