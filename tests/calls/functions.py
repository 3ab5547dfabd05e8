"""The functions that tests/calls drives: judge-lib's table (oracle/README.md) with the port's function for each id, six
that the job's marks reach, those of poses with their frames, and the stopped pass over the reciprocals.

A row is: id, name, what goes in, what comes out, the call and, where it can refuse, the case of its answer that holds
the result. In: NAME:KIND, in the order of the record. Out: KIND, or KIND:EXPRESSION where the result r has several
parts. `count`, `index` and `frame` are 64-bit whole numbers and go beside the doubles; a `list` is the last input and
the only output.
"""
from collections import namedtuple

# The doubles of each kind.
WIDTHS = {
    "num": 1, "flag": 1, "byte": 1, "vec": 3, "quat": 4, "four": 4, "coeffs4": 4, "tangent": 7, "seven": 7, "pose": 8,
    "mat": 9, "coeffs": 9, "values": 10, "block": 31, "square": 49,
}
WHOLE = ("count", "index", "frame")

Part = namedtuple("Part", "name kind")
Function = namedtuple("Function", "id name takes gives call answer")

CIRCLE = "circle::kernel::"
SERIES = "series::sim3::"
COEFFS = "coeffs::sim3::"
PAIRS = "pairs::sim3::"
SIDE = "side_jacobians::side::"
HALVES = "v.root, v.sin_half, v.cos_half"
TANGENT_JL = "tau:tangent v:values jl:mat"
TANGENT_BOTH = TANGENT_JL + " inv:mat"
COEFFS_IN = "sigma:num z:num v:values"
SERIES_IN = "sigma:num z:num k:count"
ACT_OUT = "mat:r.rot mat:r.trans vec:r.scale mat:r.point"
TWO_OUT = "block:r.first block:r.second"
POSE_OUT = "pose:r.sim3 byte:r.from byte:r.to"
FRAMES = "from:frame to:frame"
HORNER_OUT = " ".join(f"num:r.{arm}.{sum}.{sign}" for arm in ("series", "series_alone", "closed", "closed_alone")
                      for sum in ("v0", "w0") for sign in ("pos", "neg"))
TWO_FRAMES = FRAMES + " other_from:frame other_to:frame"
POSE, OTHER, JOINED = "framed(p, from, to)", "framed(o, other_from, other_to)", "Ok"

ROWS = [
    (1, "Vec3 scale", "v:vec s:num", "vec", "v.scale(s)"),
    (2, "Vec3 dot", "u:vec v:vec", "num", "u.dot(v)"),
    (3, "Vec3 norm_sq", "v:vec", "num", "v.norm_sq()"),
    (4, "Vec3 cross", "u:vec v:vec", "vec", "u.cross(v)"),
    (5, "Vec3 add", "u:vec v:vec", "vec", "u.add(v)"),
    (6, "Vec3 sub", "u:vec v:vec", "vec", "u.sub(v)"),
    (7, "Vec3 neg", "v:vec", "vec", "v.neg()"),
    (10, "Mat3 transpose", "m:mat", "mat", "m.transpose()"),
    (11, "Mat3 scale", "m:mat s:num", "mat", "m.scale(s)"),
    (12, "Mat3 identity", "", "mat", "Mat3::identity()"),
    (13, "Mat3 add", "a:mat b:mat", "mat", "a.add(b)"),
    (14, "Mat3 sub", "a:mat b:mat", "mat", "a.sub(b)"),
    (15, "Mat3 neg", "m:mat", "mat", "m.neg()"),
    (16, "Mat3 mul", "a:mat b:mat", "mat", "a.mul(b)"),
    (17, "Mat3 mul_vec", "m:mat v:vec", "vec", "m.mul_vec(v)"),
    (18, "Mat3 inverse_adj", "m:mat", "mat:r.inv num:r.det", "m.inverse_adj()"),
    (19, "hat", "v:vec", "mat", "linalg::matrix::hat(v)"),
    (20, "mul_hat", "a:mat v:vec", "mat", "linalg::matrix::mul_hat(a, v)"),
    (21, "hat_mul", "v:vec b:mat", "mat", "linalg::matrix::hat_mul(v, b)"),
    (22, "Mat3 get", "m:mat i:index j:index", "num", "m.get(i, j)", "Ok"),
    (23, "Mat3 set", "m:mat i:index j:index s:num", "mat", "m.set(i, j, s)", "Ok"),
    (24, "Mat3 col", "m:mat j:index", "vec", "m.col(j)", "Ok"),
    (25, "Mat3 row", "m:mat i:index", "vec", "m.row(i)", "Ok"),
    (26, "Mat3 from_rows", "a:vec b:vec c:vec", "mat", "Mat3::from_rows(a, b, c)"),
    (30, "Quat from_wxyz_normalized", "w:num i:num j:num k:num n:num", "quat",
     "Quat::from_wxyz_normalized(w, i, j, k, n)"),
    (31, "Quat from_jpl", "a:four", "quat", "Quat::from_jpl(a)"),
    (32, "Quat conjugate", "q:quat", "quat", "q.conjugate()"),
    (33, "Quat norm_sq", "q:quat", "num", "q.norm_sq()"),
    (34, "Quat to_matrix", "q:quat", "mat", "q.to_matrix()"),
    (35, "Quat mul", "p:quat q:quat", "quat", "p.mul(q)"),
    (36, "Quat renormalize", "q:quat", "quat", "q.renormalized()"),
    (37, "Quat from_xyzw", "a:four", "quat", "Quat::from_xyzw(a)"),
    (38, "Quat to_xyzw", "q:quat", "four", "q.to_xyzw()"),
    (40, "SO3 act", "q:quat v:vec", "vec", "so3::so3::act(q, v)"),
    (41, "SO3 inv_act", "q:quat v:vec", "vec", "so3::so3::inv_act(q, v)"),
    (42, "SO3 exp", "phi:vec v:values", "quat", f"so3::so3::exp(phi, {HALVES})"),
    (50, "exp_coeffs", "z:num v:values", "num:r.k num:r.cos_half", f"{CIRCLE}exp_coeffs(z, {HALVES})", "Ok"),
    (51, "sinc_a_b_d", "z:num v:values", "num:r.sinc num:r.a num:r.b num:r.d",
     f"{CIRCLE}sinc_a_b_d(z, {HALVES}, v.sin)", "Ok"),
    (52, "sinc_value", "z:num v:values", "num", f"{CIRCLE}sinc_value(z, {HALVES})", "Ok"),
    (60, "series, full", SERIES_IN, "coeffs", SERIES + "series(sigma, z, k)", "Ok"),
    (61, "series, v alone", SERIES_IN, "coeffs4", SERIES + "series_v(sigma, z, k)", "Ok"),
    (62, "series, full pair", SERIES_IN, "coeffs:r.pos coeffs:r.neg",
     "pairs::recurrence::series_pair(sigma, z, k)", "Ok"),
    (63, "sim3_coeffs", COEFFS_IN, "coeffs", COEFFS + "sim3_coeffs(sigma, z, v)", "Ok"),
    (64, "sim3_v", COEFFS_IN, "coeffs4", COEFFS + "sim3_v(sigma, z, v)", "Ok"),
    (65, "sim3_v_scaled", COEFFS_IN, "num:r.c.v0 num:r.c.v1 num:r.c.v2 flag:r.scaled",
     COEFFS + "sim3_v_scaled(sigma, z, v)", "Ok"),
    (66, "unscale", "c:coeffs up:num scaled:num", "coeffs",
     f"({COEFFS}Scaled {{ c, scaled: scaled != 0.0 }}).unscale(up)"),
    (67, "sim3_coeffs_scaled", COEFFS_IN, "coeffs:r.c flag:r.scaled", COEFFS + "sim3_coeffs_scaled(sigma, z, v)", "Ok"),
    (68, "sim3_coeffs_scaled_pair", COEFFS_IN, "coeffs:r.pos.c flag:r.pos.scaled coeffs:r.neg.c flag:r.neg.scaled",
     PAIRS + "sim3_coeffs_scaled_pair(sigma, z, v)", "Ok"),
    (69, "sim3_coeffs_armed", COEFFS_IN, "byte:r.arm.number() flag:r.ends coeffs:r.s.c flag:r.s.scaled",
     COEFFS + "sim3_coeffs_armed(sigma, z, v)", "Ok"),
    (70, "Sim3Tangent zero", "", "tangent", "Sim3Tangent::zero()"),
    (71, "Sim3Tangent add", "a:tangent b:tangent", "tangent", "a.add(b)"),
    (72, "Sim3Tangent sub", "a:tangent b:tangent", "tangent", "a.sub(b)"),
    (73, "Sim3Tangent neg", "tau:tangent", "tangent", "tau.neg()"),
    (74, "Sim3Tangent scale", "tau:tangent k:num", "tangent", "tau.scale(k)"),
    (75, "Sim3Tangent dot_acc", "a:tangent b:tangent acc:num", "num", "a.dot_acc(b, acc)"),
    (76, "Sim3Tangent write_dense", "tau:tangent", "seven", "tau.to_dense()"),
    (77, "Sim3Tangent read_dense", "a:seven", "tangent", "Sim3Tangent::from_dense(a)"),
    (80, "Sim3 mul_inv", "p:pose o:pose e:num", "pose", "p.mul_inv(o, e)"),
    (81, "Sim3 inv_mul", "p:pose o:pose down:num", "pose", "p.inv_mul(o, down)"),
    (82, "Sim3 act_many", "p:pose up:num pts:list", "list", "point_lists::act_many(p, up, pts, out)", "Ok"),
    (83, "Sim3 act on each", "p:pose up:num pts:list", "list", "point_lists::act_each(p, up, pts, out)", "Ok"),
    (84, "Sim3 act_jacobians, right", "p:pose up:num v:vec", ACT_OUT, SIDE + "act_jacobians_right(p, up, v)"),
    (85, "Sim3 act_jacobians, left", "p:pose up:num v:vec", ACT_OUT, SIDE + "act_jacobians_left(p, up, v)"),
    (86, "Sim3 adjoint", "p:pose up:num", "block", SIDE + "adjoint(p, up)"),
    (87, "Sim3 ad", "tau:tangent", "block", SIDE + "ad(tau)"),
    (88, "Sim3 jl", TANGENT_JL, "block", SIDE + "jl(tau, v, jl)"),
    (89, "Sim3 jr", TANGENT_JL, "block", SIDE + "jr(tau, v, jl)"),
    (90, "Sim3 jl_inv", TANGENT_BOTH, "block", SIDE + "jl_inv(tau, v, jl, inv)"),
    (91, "Sim3 jr_inv", TANGENT_BOTH, "block", SIDE + "jr_inv(tau, v, jl, inv)"),
    (92, "exp_and_jl", TANGENT_JL, "pose:r.x block:r.jl", SIDE + "exp_and_jl(tau, v, jl)"),
    (93, "Sim3 lplus_jacobians", TANGENT_JL, TWO_OUT, SIDE + "lplus_jacobians(tau, v, jl)"),
    (94, "Sim3 rplus_jacobians", TANGENT_JL, TWO_OUT, SIDE + "rplus_jacobians(tau, v, jl)"),
    (95, "Sim3 compose_jacobians, right", "_p:pose o:pose down:num", TWO_OUT,
     SIDE + "compose_jacobians_right(o, down)"),
    (96, "Sim3 compose_jacobians, left", "p:pose _o:pose up:num", TWO_OUT, SIDE + "compose_jacobians_left(p, up)"),
    (97, "Sim3 inverse_jacobian, right", "p:pose up:num", "block", SIDE + "inverse_jacobian_right(p, up)"),
    (98, "Sim3 inverse_jacobian, left", "p:pose down:num", "block", SIDE + "inverse_jacobian_left(p, down)"),
    (99, "Sim3 rplus", "p:pose up:num tau:tangent v:values", "pose", "p.rplus(up, tau, v)"),
    (100, "Sim3 lplus", "p:pose tau:tangent v:values", "pose", "p.lplus(tau, v)"),
    (101, "Sim3 identity", "", "pose", "Sim3::identity()"),
    (102, "Sim3 renormalize", "p:pose", "pose", "p.renormalized()"),
    (110, "Sim3Jac identity", "", "block", "Sim3Jac::identity()"),
    (111, "Sim3Jac mul", "i:block j:block", "block", "i.mul(j)"),
    (112, "Sim3Jac neg", "j:block", "block", "j.neg()"),
    (113, "Sim3Jac add", "i:block j:block", "block", "i.add(j)"),
    (114, "Sim3Jac scale", "j:block k:num", "block", "j.scale(k)"),
    (115, "Sim3Jac apply", "j:block tau:tangent", "tangent", "j.apply(tau)"),
    (116, "Sim3Jac apply_transpose", "j:block tau:tangent", "tangent", "j.apply_transpose(tau)"),
    (117, "Sim3Jac write_dense", "j:block", "square", "dense_jacobian::write_dense(j)"),
    (118, "Sim3Jac sandwich", "j:block cov:square", "square", "dense_jacobian::sandwich(j, cov)"),
    # Functions that the job's marks reach. judge-lib has no ids for them.
    (200, "Sim3 exp", "tau:tangent v:values", "pose", "Sim3::exp(tau, v)"),
    (201, "Sim3 mul", "p:pose o:pose up:num", "pose", "p.mul(o, up)"),
    (202, "Sim3 inverse", "p:pose down:num", "pose", "p.inverse(down)"),
    (203, "Sim3 act", "p:pose up:num v:vec", "vec", "p.act(up, v)"),
    (204, "block_pair", TANGENT_BOTH, "block:r.left block:r.left_inv block:r.right block:r.right_inv",
     "side_jacobians::pair::block_pair(tau, v, jl, inv)"),
    (205, "Sim3Jac inverse", "j:block", "block", "j.inverse()", "Ok"),
    # Poses with their frames, whose numbers are those of the functions above; framed.py has their answers.
    (210, "Pose from_parts", "p:pose " + FRAMES, POSE_OUT, "Pose::from_parts(p.q, p.t, p.sigma, between(from, to))"),
    (211, "Pose identity", FRAMES, POSE_OUT, "Pose::identity(between(from, to))"),
    (212, "Pose exp", "tau:tangent v:values " + FRAMES, POSE_OUT, "Pose::exp(tau, v, between(from, to))"),
    (213, "Pose mul", "p:pose o:pose up:num " + TWO_FRAMES, POSE_OUT, f"{POSE}.mul({OTHER}, up)", JOINED),
    (214, "Pose inverse", "p:pose down:num " + FRAMES, POSE_OUT, POSE + ".inverse(down)"),
    (215, "Pose mul_inv", "p:pose o:pose ds:num " + TWO_FRAMES, POSE_OUT, f"{POSE}.mul_inv({OTHER}, ds)", JOINED),
    (216, "Pose inv_mul", "p:pose o:pose down:num " + TWO_FRAMES, POSE_OUT, f"{POSE}.inv_mul({OTHER}, down)", JOINED),
    (217, "Pose rplus", "p:pose up:num tau:tangent v:values " + FRAMES, POSE_OUT, POSE + ".rplus(up, tau, v)"),
    (218, "Pose lplus", "p:pose tau:tangent v:values " + FRAMES, POSE_OUT, POSE + ".lplus(tau, v)"),
    (219, "Pose renormalized", "p:pose " + FRAMES, POSE_OUT, POSE + ".renormalized()"),
    (220, "Pose exp_and_jl", TANGENT_JL + " " + FRAMES, "pose:r.x.sim3 block:r.jl byte:r.x.from byte:r.x.to",
     "framed_jacobian::exp_and_jl(tau, v, jl, between(from, to))"),
    # Of the port alone; stopped.py has its answers.
    (221, "pass stopped", "sigma:num k:count stop:count", HORNER_OUT, "series::stopped::pass_stopped(sigma, k, stop)",
     "Ok"),
]


def parts(text, unnamed):
    """The parts of a row's column; an output without an expression is the result itself."""
    words = [word.split(":") for word in text.split()]
    return [Part(word[0], word[1]) if unnamed is None else Part(word[1] if len(word) > 1 else unnamed, word[0])
            for word in words]


def function(id, name, takes, gives, call, answer=None):
    return Function(id, name, parts(takes, None), parts(gives, "r"), call, answer)


FUNCTIONS = [function(*row) for row in ROWS]


def list_name(f):
    """What the files of a function's stored list are called, before .in and .out: its name without commas, with a
    hyphen for each space."""
    return f.name.replace(",", "").replace(" ", "-")


# No two share a file, also where a file system knows no capital letters.
assert len({list_name(f).lower() for f in FUNCTIONS}) == len(FUNCTIONS), "two functions of the table have one name"
