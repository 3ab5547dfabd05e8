// Written by tools/widths from bindings/rust/raw.rs: edit that one. Digest e47c84b76616931c.
//! The C functions of include/sim3.h at one width, each called through a function over slices. This is the
//! one module with unsafe code, at both widths: every other one forbids it. The declarations are trusted;
//! tests/bindings compares them with the header.

#![allow(unsafe_code)]

extern "C" {
    fn sim3_exp_f32(
        tau: *const f32,
        tau_n: usize,
        values: *const f32,
        values_n: usize,
        frames: *const u16,
        frames_n: usize,
        out: *mut f32,
        out_n: usize,
        out_frames: *mut u16,
        out_frames_n: usize,
    ) -> u32;
    fn sim3_mul_f32(
        x: *const f32,
        x_n: usize,
        x_frames: *const u16,
        x_frames_n: usize,
        y: *const f32,
        y_n: usize,
        y_frames: *const u16,
        y_frames_n: usize,
        up: f32,
        out: *mut f32,
        out_n: usize,
        out_frames: *mut u16,
        out_frames_n: usize,
    ) -> u32;
    fn sim3_inverse_f32(
        x: *const f32,
        x_n: usize,
        x_frames: *const u16,
        x_frames_n: usize,
        down: f32,
        out: *mut f32,
        out_n: usize,
        out_frames: *mut u16,
        out_frames_n: usize,
    ) -> u32;
    fn sim3_mul_inv_f32(
        x: *const f32,
        x_n: usize,
        x_frames: *const u16,
        x_frames_n: usize,
        y: *const f32,
        y_n: usize,
        y_frames: *const u16,
        y_frames_n: usize,
        ds: f32,
        out: *mut f32,
        out_n: usize,
        out_frames: *mut u16,
        out_frames_n: usize,
    ) -> u32;
    fn sim3_inv_mul_f32(
        x: *const f32,
        x_n: usize,
        x_frames: *const u16,
        x_frames_n: usize,
        y: *const f32,
        y_n: usize,
        y_frames: *const u16,
        y_frames_n: usize,
        down: f32,
        out: *mut f32,
        out_n: usize,
        out_frames: *mut u16,
        out_frames_n: usize,
    ) -> u32;
    fn sim3_renormalize_f32(x: *mut f32, x_n: usize) -> u32;
    fn sim3_act_many_f32(
        x: *const f32,
        x_n: usize,
        up: f32,
        pts: *const f32,
        pts_n: usize,
        out: *mut f32,
        out_n: usize,
    ) -> u32;
    fn sim3_act_each_f32(
        x: *const f32,
        x_n: usize,
        up: f32,
        pts: *const f32,
        pts_n: usize,
        out: *mut f32,
        out_n: usize,
    ) -> u32;
    fn sim3_scaled_pair_f32(
        sigma: f32,
        z: f32,
        values: *const f32,
        values_n: usize,
        out: *mut f32,
        out_n: usize,
    ) -> u32;
    fn sim3_coeffs_armed_f32(
        sigma: f32,
        z: f32,
        values: *const f32,
        values_n: usize,
        out: *mut f32,
        out_n: usize,
    ) -> u32;
    fn sim3_armed_pair_f32(
        sigma: f32,
        z: f32,
        values: *const f32,
        values_n: usize,
        out: *mut f32,
        out_n: usize,
    ) -> u32;
    fn sim3_block_pair_f32(
        tau: *const f32,
        tau_n: usize,
        values: *const f32,
        values_n: usize,
        jl: *const f32,
        jl_n: usize,
        jl_inv: *const f32,
        jl_inv_n: usize,
        out: *mut f32,
        out_n: usize,
    ) -> u32;
    fn sim3_block_inverse_f32(j: *const f32, j_n: usize, out: *mut f32, out_n: usize) -> u32;
    fn sim3_adjoint_f32(x: *const f32, x_n: usize, up: f32, out: *mut f32, out_n: usize) -> u32;
    fn sim3_act_jacobians_right_f32(
        x: *const f32,
        x_n: usize,
        up: f32,
        p: *const f32,
        p_n: usize,
        out: *mut f32,
        out_n: usize,
    ) -> u32;
    fn sim3_act_jacobians_left_f32(
        x: *const f32,
        x_n: usize,
        up: f32,
        p: *const f32,
        p_n: usize,
        out: *mut f32,
        out_n: usize,
    ) -> u32;
    fn sim3_compose_jacobians_right_f32(
        y: *const f32,
        y_n: usize,
        down: f32,
        out: *mut f32,
        out_n: usize,
    ) -> u32;
    fn sim3_compose_jacobians_left_f32(
        x: *const f32,
        x_n: usize,
        up: f32,
        out: *mut f32,
        out_n: usize,
    ) -> u32;
    fn sim3_inverse_jacobian_right_f32(
        x: *const f32,
        x_n: usize,
        up: f32,
        out: *mut f32,
        out_n: usize,
    ) -> u32;
    fn sim3_inverse_jacobian_left_f32(
        x: *const f32,
        x_n: usize,
        down: f32,
        out: *mut f32,
        out_n: usize,
    ) -> u32;
    fn sim3_nearest_arm_f32(sigma: f32, z: f32, out: *mut u64, out_n: usize) -> u32;
}

// LISTS, the reason why each call below is sound. The C functions ask of their caller that no pointer is
// null, that each points to as many numbers as its count says, and that what is written overlaps no other
// list. A pointer and a count here are one slice's own, which is never null and aligned, even when it is
// empty; and what is written is borrowed mutably, so no other slice overlaps it. All else, every count and
// every number, they are proved to take. Before each call `expect` looks at the floating-point environment, in
// debug builds.

pub fn exp(
    tau: &[f32],
    values: &[f32],
    frames: &[u16],
    out: &mut [f32],
    out_frames: &mut [u16],
) -> u32 {
    crate::environment::expect();
    // SAFETY: LISTS.
    unsafe {
        sim3_exp_f32(
            tau.as_ptr(),
            tau.len(),
            values.as_ptr(),
            values.len(),
            frames.as_ptr(),
            frames.len(),
            out.as_mut_ptr(),
            out.len(),
            out_frames.as_mut_ptr(),
            out_frames.len(),
        )
    }
}

pub fn mul(
    x: &[f32],
    x_frames: &[u16],
    y: &[f32],
    y_frames: &[u16],
    up: f32,
    out: &mut [f32],
    out_frames: &mut [u16],
) -> u32 {
    crate::environment::expect();
    // SAFETY: LISTS.
    unsafe {
        sim3_mul_f32(
            x.as_ptr(),
            x.len(),
            x_frames.as_ptr(),
            x_frames.len(),
            y.as_ptr(),
            y.len(),
            y_frames.as_ptr(),
            y_frames.len(),
            up,
            out.as_mut_ptr(),
            out.len(),
            out_frames.as_mut_ptr(),
            out_frames.len(),
        )
    }
}

pub fn inverse(
    x: &[f32],
    x_frames: &[u16],
    down: f32,
    out: &mut [f32],
    out_frames: &mut [u16],
) -> u32 {
    crate::environment::expect();
    // SAFETY: LISTS.
    unsafe {
        sim3_inverse_f32(
            x.as_ptr(),
            x.len(),
            x_frames.as_ptr(),
            x_frames.len(),
            down,
            out.as_mut_ptr(),
            out.len(),
            out_frames.as_mut_ptr(),
            out_frames.len(),
        )
    }
}

pub fn mul_inv(
    x: &[f32],
    x_frames: &[u16],
    y: &[f32],
    y_frames: &[u16],
    ds: f32,
    out: &mut [f32],
    out_frames: &mut [u16],
) -> u32 {
    crate::environment::expect();
    // SAFETY: LISTS.
    unsafe {
        sim3_mul_inv_f32(
            x.as_ptr(),
            x.len(),
            x_frames.as_ptr(),
            x_frames.len(),
            y.as_ptr(),
            y.len(),
            y_frames.as_ptr(),
            y_frames.len(),
            ds,
            out.as_mut_ptr(),
            out.len(),
            out_frames.as_mut_ptr(),
            out_frames.len(),
        )
    }
}

pub fn inv_mul(
    x: &[f32],
    x_frames: &[u16],
    y: &[f32],
    y_frames: &[u16],
    down: f32,
    out: &mut [f32],
    out_frames: &mut [u16],
) -> u32 {
    crate::environment::expect();
    // SAFETY: LISTS.
    unsafe {
        sim3_inv_mul_f32(
            x.as_ptr(),
            x.len(),
            x_frames.as_ptr(),
            x_frames.len(),
            y.as_ptr(),
            y.len(),
            y_frames.as_ptr(),
            y_frames.len(),
            down,
            out.as_mut_ptr(),
            out.len(),
            out_frames.as_mut_ptr(),
            out_frames.len(),
        )
    }
}

pub fn renormalize(x: &mut [f32]) -> u32 {
    crate::environment::expect();
    // SAFETY: LISTS.
    unsafe { sim3_renormalize_f32(x.as_mut_ptr(), x.len()) }
}

pub fn act_many(x: &[f32], up: f32, pts: &[f32], out: &mut [f32]) -> u32 {
    crate::environment::expect();
    // SAFETY: LISTS.
    unsafe {
        sim3_act_many_f32(x.as_ptr(), x.len(), up, pts.as_ptr(), pts.len(), out.as_mut_ptr(), out.len())
    }
}

pub fn act_each(x: &[f32], up: f32, pts: &[f32], out: &mut [f32]) -> u32 {
    crate::environment::expect();
    // SAFETY: LISTS.
    unsafe {
        sim3_act_each_f32(x.as_ptr(), x.len(), up, pts.as_ptr(), pts.len(), out.as_mut_ptr(), out.len())
    }
}

pub fn scaled_pair(sigma: f32, z: f32, values: &[f32], out: &mut [f32]) -> u32 {
    crate::environment::expect();
    // SAFETY: LISTS.
    unsafe {
        sim3_scaled_pair_f32(sigma, z, values.as_ptr(), values.len(), out.as_mut_ptr(), out.len())
    }
}

pub fn coeffs_armed(sigma: f32, z: f32, values: &[f32], out: &mut [f32]) -> u32 {
    crate::environment::expect();
    // SAFETY: LISTS.
    unsafe {
        sim3_coeffs_armed_f32(sigma, z, values.as_ptr(), values.len(), out.as_mut_ptr(), out.len())
    }
}

pub fn armed_pair(sigma: f32, z: f32, values: &[f32], out: &mut [f32]) -> u32 {
    crate::environment::expect();
    // SAFETY: LISTS.
    unsafe { sim3_armed_pair_f32(sigma, z, values.as_ptr(), values.len(), out.as_mut_ptr(), out.len()) }
}

pub fn block_pair(tau: &[f32], values: &[f32], jl: &[f32], jl_inv: &[f32], out: &mut [f32]) -> u32 {
    crate::environment::expect();
    // SAFETY: LISTS.
    unsafe {
        sim3_block_pair_f32(
            tau.as_ptr(),
            tau.len(),
            values.as_ptr(),
            values.len(),
            jl.as_ptr(),
            jl.len(),
            jl_inv.as_ptr(),
            jl_inv.len(),
            out.as_mut_ptr(),
            out.len(),
        )
    }
}

pub fn block_inverse(j: &[f32], out: &mut [f32]) -> u32 {
    crate::environment::expect();
    // SAFETY: LISTS.
    unsafe { sim3_block_inverse_f32(j.as_ptr(), j.len(), out.as_mut_ptr(), out.len()) }
}

pub fn adjoint(x: &[f32], up: f32, out: &mut [f32]) -> u32 {
    crate::environment::expect();
    // SAFETY: LISTS.
    unsafe { sim3_adjoint_f32(x.as_ptr(), x.len(), up, out.as_mut_ptr(), out.len()) }
}

pub fn act_jacobians_right(x: &[f32], up: f32, p: &[f32], out: &mut [f32]) -> u32 {
    crate::environment::expect();
    // SAFETY: LISTS.
    unsafe {
        sim3_act_jacobians_right_f32(
            x.as_ptr(),
            x.len(),
            up,
            p.as_ptr(),
            p.len(),
            out.as_mut_ptr(),
            out.len(),
        )
    }
}

pub fn act_jacobians_left(x: &[f32], up: f32, p: &[f32], out: &mut [f32]) -> u32 {
    crate::environment::expect();
    // SAFETY: LISTS.
    unsafe {
        sim3_act_jacobians_left_f32(
            x.as_ptr(),
            x.len(),
            up,
            p.as_ptr(),
            p.len(),
            out.as_mut_ptr(),
            out.len(),
        )
    }
}

pub fn compose_jacobians_right(y: &[f32], down: f32, out: &mut [f32]) -> u32 {
    crate::environment::expect();
    // SAFETY: LISTS.
    unsafe { sim3_compose_jacobians_right_f32(y.as_ptr(), y.len(), down, out.as_mut_ptr(), out.len()) }
}

pub fn compose_jacobians_left(x: &[f32], up: f32, out: &mut [f32]) -> u32 {
    crate::environment::expect();
    // SAFETY: LISTS.
    unsafe { sim3_compose_jacobians_left_f32(x.as_ptr(), x.len(), up, out.as_mut_ptr(), out.len()) }
}

pub fn inverse_jacobian_right(x: &[f32], up: f32, out: &mut [f32]) -> u32 {
    crate::environment::expect();
    // SAFETY: LISTS.
    unsafe { sim3_inverse_jacobian_right_f32(x.as_ptr(), x.len(), up, out.as_mut_ptr(), out.len()) }
}

pub fn inverse_jacobian_left(x: &[f32], down: f32, out: &mut [f32]) -> u32 {
    crate::environment::expect();
    // SAFETY: LISTS.
    unsafe { sim3_inverse_jacobian_left_f32(x.as_ptr(), x.len(), down, out.as_mut_ptr(), out.len()) }
}

pub fn nearest_arm(sigma: f32, z: f32, out: &mut [u64]) -> u32 {
    crate::environment::expect();
    // SAFETY: LISTS.
    unsafe { sim3_nearest_arm_f32(sigma, z, out.as_mut_ptr(), out.len()) }
}
