/* The functions of sim3.h at one width, each for one row of its lists; rows.c includes this once for each width, with
 * REAL, CALL, HOST and ROW defined.
 *
 * `in` are the lists that a function takes, in the order of sim3.h, and `out` those that it writes. A list that is None
 * is a host's value, and is computed here by sim3_host.h, so that every row has the bits of the single call. The result
 * is that of the function. */

#define READ(i) ((const REAL *)(in[i].at ? in[i].at + row * in[i].step : NULL))
#define FRAMES(i) ((const uint16_t *)(in[i].at + row * in[i].step))
#define WRITE(i) ((REAL *)(out[i].at + row * out[i].step))
#define WRITE_FRAMES(i) ((uint16_t *)(out[i].at + row * out[i].step))

static uint32_t ROW(exp)(const list *in, const list *out, size_t row) {
    REAL own[10];
    const REAL *tau = READ(0), *values = READ(1);
    if (!values) HOST(tangent_values)(tau, own);
    return CALL(exp)(tau, 7, values ? values : own, 10, FRAMES(2), 2, WRITE(0), 8, WRITE_FRAMES(1), 2);
}

#define ROW_OF_TWO_POSES(name, value)                                                                                  \
    static uint32_t ROW(name)(const list *in, const list *out, size_t row) {                                           \
        const REAL *x = READ(0), *y = READ(2), *given = READ(4);                                                       \
        return CALL(name)(x, 8, FRAMES(1), 2, y, 8, FRAMES(3), 2, given ? *given : (value), WRITE(0), 8,               \
                          WRITE_FRAMES(1), 2);                                                                         \
    }
ROW_OF_TWO_POSES(mul, HOST(up)(x))
ROW_OF_TWO_POSES(mul_inv, HOST(ds)(x, y))
ROW_OF_TWO_POSES(inv_mul, HOST(down)(y))

static uint32_t ROW(inverse)(const list *in, const list *out, size_t row) {
    const REAL *x = READ(0), *given = READ(2);
    return CALL(inverse)(x, 8, FRAMES(1), 2, given ? *given : HOST(down)(x), WRITE(0), 8, WRITE_FRAMES(1), 2);
}

static uint32_t ROW(renormalize)(const list *in, const list *out, size_t row) {
    memcpy(WRITE(0), in[0].at + row * in[0].step, 8 * sizeof(REAL));
    return CALL(renormalize)(WRITE(0), 8);
}

#define ROW_OF_POINT(name, size)                                                                                       \
    static uint32_t ROW(name)(const list *in, const list *out, size_t row) {                                           \
        const REAL *x = READ(0), *given = READ(1);                                                                     \
        return CALL(name)(x, 8, given ? *given : HOST(up)(x), READ(2), 3, WRITE(0), size);                             \
    }
ROW_OF_POINT(act_many, 3)
ROW_OF_POINT(act_each, 3)
ROW_OF_POINT(act_jacobians_right, 30)
ROW_OF_POINT(act_jacobians_left, 30)

#define ROW_OF_COEFFICIENTS(name, size)                                                                                \
    static uint32_t ROW(name)(const list *in, const list *out, size_t row) {                                           \
        REAL own[10];                                                                                                  \
        const REAL sigma = *READ(0), z = *READ(1), *values = READ(2);                                                  \
        if (!values) HOST(values)(sigma, z, own);                                                                      \
        return CALL(name)(sigma, z, values ? values : own, 10, WRITE(0), size);                                        \
    }
ROW_OF_COEFFICIENTS(scaled_pair, 20)
ROW_OF_COEFFICIENTS(coeffs_armed, 12)
ROW_OF_COEFFICIENTS(armed_pair, 24)

static uint32_t ROW(block_pair)(const list *in, const list *out, size_t row) {
    REAL own[10], own_jl[9], own_inv[9];
    const REAL *tau = READ(0), *values = READ(1), *jl = READ(2), *jl_inv = READ(3);
    if (!values) HOST(tangent_values)(tau, own);
    if (!jl || !jl_inv) HOST(rotation_jacobians)(tau, own_jl, own_inv);
    return CALL(block_pair)(tau, 7, values ? values : own, 10, jl ? jl : own_jl, 9, jl_inv ? jl_inv : own_inv, 9,
                            WRITE(0), 124);
}

static uint32_t ROW(block_inverse)(const list *in, const list *out, size_t row) {
    return CALL(block_inverse)(READ(0), 31, WRITE(0), 31);
}

#define ROW_OF_POSE(name, value, size)                                                                                 \
    static uint32_t ROW(name)(const list *in, const list *out, size_t row) {                                           \
        const REAL *x = READ(0), *given = READ(1);                                                                     \
        return CALL(name)(x, 8, given ? *given : HOST(value)(x), WRITE(0), size);                                      \
    }
ROW_OF_POSE(adjoint, up, 31)
ROW_OF_POSE(compose_jacobians_right, down, 62)
ROW_OF_POSE(compose_jacobians_left, up, 62)
ROW_OF_POSE(inverse_jacobian_right, up, 31)
ROW_OF_POSE(inverse_jacobian_left, down, 31)

static uint32_t ROW(nearest_arm)(const list *in, const list *out, size_t row) {
    return CALL(nearest_arm)(*READ(0), *READ(1), (uint64_t *)(out[0].at + row * out[0].step), 3);
}

#undef READ
#undef FRAMES
#undef WRITE
#undef WRITE_FRAMES
#undef ROW_OF_TWO_POSES
#undef ROW_OF_POINT
#undef ROW_OF_COEFFICIENTS
#undef ROW_OF_POSE
#undef REAL
#undef CALL
#undef HOST
#undef ROW
