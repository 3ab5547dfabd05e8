//! The C functions of include/sim3.h at one width, each called through a function over slices. This is the
//! one module with unsafe code, at both widths: every other one forbids it. The declarations are trusted;
//! tests/bindings compares them with the header.

#![allow(unsafe_code)]

#[path = "raw_f32.rs"]
pub mod single;

#[link(name = "sim3", kind = "static")]
extern "C" {
    fn sim3_version() -> *const std::ffi::c_char;
    fn sim3_environment_differs() -> u32;
    fn sim3_environment_enter() -> u32;
    fn sim3_environment_leave(was: u32);
    fn sim3_environment(probe: *const f64, probe_n: usize) -> u32;
    fn sim3_exp(
        tau: *const f64,
        tau_n: usize,
        values: *const f64,
        values_n: usize,
        frames: *const u16,
        frames_n: usize,
        out: *mut f64,
        out_n: usize,
        out_frames: *mut u16,
        out_frames_n: usize,
    ) -> u32;
    fn sim3_mul(
        x: *const f64,
        x_n: usize,
        x_frames: *const u16,
        x_frames_n: usize,
        y: *const f64,
        y_n: usize,
        y_frames: *const u16,
        y_frames_n: usize,
        up: f64,
        out: *mut f64,
        out_n: usize,
        out_frames: *mut u16,
        out_frames_n: usize,
    ) -> u32;
    fn sim3_inverse(
        x: *const f64,
        x_n: usize,
        x_frames: *const u16,
        x_frames_n: usize,
        down: f64,
        out: *mut f64,
        out_n: usize,
        out_frames: *mut u16,
        out_frames_n: usize,
    ) -> u32;
    fn sim3_mul_inv(
        x: *const f64,
        x_n: usize,
        x_frames: *const u16,
        x_frames_n: usize,
        y: *const f64,
        y_n: usize,
        y_frames: *const u16,
        y_frames_n: usize,
        ds: f64,
        out: *mut f64,
        out_n: usize,
        out_frames: *mut u16,
        out_frames_n: usize,
    ) -> u32;
    fn sim3_inv_mul(
        x: *const f64,
        x_n: usize,
        x_frames: *const u16,
        x_frames_n: usize,
        y: *const f64,
        y_n: usize,
        y_frames: *const u16,
        y_frames_n: usize,
        down: f64,
        out: *mut f64,
        out_n: usize,
        out_frames: *mut u16,
        out_frames_n: usize,
    ) -> u32;
    fn sim3_renormalize(x: *mut f64, x_n: usize) -> u32;
    fn sim3_act_many(
        x: *const f64,
        x_n: usize,
        up: f64,
        pts: *const f64,
        pts_n: usize,
        out: *mut f64,
        out_n: usize,
    ) -> u32;
    fn sim3_act_each(
        x: *const f64,
        x_n: usize,
        up: f64,
        pts: *const f64,
        pts_n: usize,
        out: *mut f64,
        out_n: usize,
    ) -> u32;
    fn sim3_scaled_pair(
        sigma: f64,
        z: f64,
        values: *const f64,
        values_n: usize,
        out: *mut f64,
        out_n: usize,
    ) -> u32;
    fn sim3_coeffs_armed(
        sigma: f64,
        z: f64,
        values: *const f64,
        values_n: usize,
        out: *mut f64,
        out_n: usize,
    ) -> u32;
    fn sim3_armed_pair(
        sigma: f64,
        z: f64,
        values: *const f64,
        values_n: usize,
        out: *mut f64,
        out_n: usize,
    ) -> u32;
    fn sim3_block_pair(
        tau: *const f64,
        tau_n: usize,
        values: *const f64,
        values_n: usize,
        jl: *const f64,
        jl_n: usize,
        jl_inv: *const f64,
        jl_inv_n: usize,
        out: *mut f64,
        out_n: usize,
    ) -> u32;
    fn sim3_block_inverse(j: *const f64, j_n: usize, out: *mut f64, out_n: usize) -> u32;
    fn sim3_adjoint(x: *const f64, x_n: usize, up: f64, out: *mut f64, out_n: usize) -> u32;
    fn sim3_act_jacobians_right(
        x: *const f64,
        x_n: usize,
        up: f64,
        p: *const f64,
        p_n: usize,
        out: *mut f64,
        out_n: usize,
    ) -> u32;
    fn sim3_act_jacobians_left(
        x: *const f64,
        x_n: usize,
        up: f64,
        p: *const f64,
        p_n: usize,
        out: *mut f64,
        out_n: usize,
    ) -> u32;
    fn sim3_compose_jacobians_right(
        y: *const f64,
        y_n: usize,
        down: f64,
        out: *mut f64,
        out_n: usize,
    ) -> u32;
    fn sim3_compose_jacobians_left(
        x: *const f64,
        x_n: usize,
        up: f64,
        out: *mut f64,
        out_n: usize,
    ) -> u32;
    fn sim3_inverse_jacobian_right(
        x: *const f64,
        x_n: usize,
        up: f64,
        out: *mut f64,
        out_n: usize,
    ) -> u32;
    fn sim3_inverse_jacobian_left(
        x: *const f64,
        x_n: usize,
        down: f64,
        out: *mut f64,
        out_n: usize,
    ) -> u32;
    fn sim3_root(
        z: f64,
        whole: *mut u64,
        whole_n: usize,
        exponent: *mut i64,
        exponent_n: usize,
        nearest: *mut f64,
        nearest_n: usize,
    ) -> u32;
    fn sim3_nearest_arm(sigma: f64, z: f64, out: *mut u64, out_n: usize) -> u32;
    fn sim3_compare_tangents(
        a: *const u64,
        a_n: usize,
        b: *const u64,
        b_n: usize,
        out: *mut i64,
        out_n: usize,
    ) -> u32;
    fn sim3_sort_tangents(list: *mut u64, list_n: usize) -> u32;
    fn sim3_running_start(pose: *mut f64, pose_n: usize, state: *mut u16, state_n: usize) -> u32;
    fn sim3_running_push(
        pose: *mut f64,
        pose_n: usize,
        state: *mut u16,
        state_n: usize,
        x: *const f64,
        x_n: usize,
        x_frames: *const u16,
        x_frames_n: usize,
        up: f64,
    ) -> u32;
    fn sim3_running_every(state: *mut u16, state_n: usize, n: u16) -> u32;
    fn sim3_renormalize_all(poses: *mut f64, poses_n: usize) -> u32;
    fn sim3_sheets_start(store: *mut u8, store_n: usize) -> u32;
    fn sim3_sheets_put(
        store: *mut u8,
        store_n: usize,
        sheet: u16,
        take: u16,
        x: *const f64,
        x_n: usize,
        x_frames: *const u16,
        x_frames_n: usize,
        out: *mut u16,
        out_n: usize,
    ) -> u32;
    fn sim3_sheets_get(
        store: *const u8,
        store_n: usize,
        sheet: u16,
        take: *mut u16,
        take_n: usize,
        out: *mut f64,
        out_n: usize,
        out_frames: *mut u16,
        out_frames_n: usize,
    ) -> u32;
}

// LISTS, the reason why each call below is sound. The C functions ask of their caller that no pointer is
// null, that each points to as many numbers as its count says, and that what is written overlaps no other
// list. A pointer and a count here are one slice's own, which is never null and aligned, even when it is
// empty; and what is written is borrowed mutably, so no other slice overlaps it. All else, every count and
// every number, they are proved to take. Before each call `expect` looks at the floating-point environment, in
// debug builds.

pub fn version() -> &'static std::ffi::CStr {
    // SAFETY: it gives a text that ends in a zero and stays as long as the library is loaded.
    unsafe { std::ffi::CStr::from_ptr(sim3_version()) }
}

pub fn environment_differs() -> u32 {
    // SAFETY: it reads a register of this thread.
    unsafe { sim3_environment_differs() }
}

pub fn environment_enter() -> u32 {
    // SAFETY: it sets that register to what every process starts with, and what this language counts on.
    unsafe { sim3_environment_enter() }
}

// Restores what environment_enter returned; the guard, which calls it, has no other value.
pub fn environment_leave(was: u32) {
    // SAFETY: the register held that value before, so it is none that the processor refuses.
    unsafe { sim3_environment_leave(was) }
}

pub fn environment(probe: &[f64]) -> u32 {
    // SAFETY: LISTS.
    unsafe { sim3_environment(probe.as_ptr(), probe.len()) }
}

pub fn exp(
    tau: &[f64],
    values: &[f64],
    frames: &[u16],
    out: &mut [f64],
    out_frames: &mut [u16],
) -> u32 {
    crate::environment::expect();
    // SAFETY: LISTS.
    unsafe {
        sim3_exp(
            tau.as_ptr(),
            tau.len(),
            values.as_ptr(),
            values.len(),
            frames.as_ptr(),
            frames.len(),
            out.as_mut_ptr(),
            out.len(),
            out_frames.as_mut_ptr(),
            out_frames.len(),
        )
    }
}

pub fn mul(
    x: &[f64],
    x_frames: &[u16],
    y: &[f64],
    y_frames: &[u16],
    up: f64,
    out: &mut [f64],
    out_frames: &mut [u16],
) -> u32 {
    crate::environment::expect();
    // SAFETY: LISTS.
    unsafe {
        sim3_mul(
            x.as_ptr(),
            x.len(),
            x_frames.as_ptr(),
            x_frames.len(),
            y.as_ptr(),
            y.len(),
            y_frames.as_ptr(),
            y_frames.len(),
            up,
            out.as_mut_ptr(),
            out.len(),
            out_frames.as_mut_ptr(),
            out_frames.len(),
        )
    }
}

pub fn inverse(
    x: &[f64],
    x_frames: &[u16],
    down: f64,
    out: &mut [f64],
    out_frames: &mut [u16],
) -> u32 {
    crate::environment::expect();
    // SAFETY: LISTS.
    unsafe {
        sim3_inverse(
            x.as_ptr(),
            x.len(),
            x_frames.as_ptr(),
            x_frames.len(),
            down,
            out.as_mut_ptr(),
            out.len(),
            out_frames.as_mut_ptr(),
            out_frames.len(),
        )
    }
}

pub fn mul_inv(
    x: &[f64],
    x_frames: &[u16],
    y: &[f64],
    y_frames: &[u16],
    ds: f64,
    out: &mut [f64],
    out_frames: &mut [u16],
) -> u32 {
    crate::environment::expect();
    // SAFETY: LISTS.
    unsafe {
        sim3_mul_inv(
            x.as_ptr(),
            x.len(),
            x_frames.as_ptr(),
            x_frames.len(),
            y.as_ptr(),
            y.len(),
            y_frames.as_ptr(),
            y_frames.len(),
            ds,
            out.as_mut_ptr(),
            out.len(),
            out_frames.as_mut_ptr(),
            out_frames.len(),
        )
    }
}

pub fn inv_mul(
    x: &[f64],
    x_frames: &[u16],
    y: &[f64],
    y_frames: &[u16],
    down: f64,
    out: &mut [f64],
    out_frames: &mut [u16],
) -> u32 {
    crate::environment::expect();
    // SAFETY: LISTS.
    unsafe {
        sim3_inv_mul(
            x.as_ptr(),
            x.len(),
            x_frames.as_ptr(),
            x_frames.len(),
            y.as_ptr(),
            y.len(),
            y_frames.as_ptr(),
            y_frames.len(),
            down,
            out.as_mut_ptr(),
            out.len(),
            out_frames.as_mut_ptr(),
            out_frames.len(),
        )
    }
}

pub fn renormalize(x: &mut [f64]) -> u32 {
    crate::environment::expect();
    // SAFETY: LISTS.
    unsafe { sim3_renormalize(x.as_mut_ptr(), x.len()) }
}

pub fn act_many(x: &[f64], up: f64, pts: &[f64], out: &mut [f64]) -> u32 {
    crate::environment::expect();
    // SAFETY: LISTS.
    unsafe {
        sim3_act_many(x.as_ptr(), x.len(), up, pts.as_ptr(), pts.len(), out.as_mut_ptr(), out.len())
    }
}

pub fn act_each(x: &[f64], up: f64, pts: &[f64], out: &mut [f64]) -> u32 {
    crate::environment::expect();
    // SAFETY: LISTS.
    unsafe {
        sim3_act_each(x.as_ptr(), x.len(), up, pts.as_ptr(), pts.len(), out.as_mut_ptr(), out.len())
    }
}

pub fn scaled_pair(sigma: f64, z: f64, values: &[f64], out: &mut [f64]) -> u32 {
    crate::environment::expect();
    // SAFETY: LISTS.
    unsafe {
        sim3_scaled_pair(sigma, z, values.as_ptr(), values.len(), out.as_mut_ptr(), out.len())
    }
}

pub fn coeffs_armed(sigma: f64, z: f64, values: &[f64], out: &mut [f64]) -> u32 {
    crate::environment::expect();
    // SAFETY: LISTS.
    unsafe {
        sim3_coeffs_armed(sigma, z, values.as_ptr(), values.len(), out.as_mut_ptr(), out.len())
    }
}

pub fn armed_pair(sigma: f64, z: f64, values: &[f64], out: &mut [f64]) -> u32 {
    crate::environment::expect();
    // SAFETY: LISTS.
    unsafe { sim3_armed_pair(sigma, z, values.as_ptr(), values.len(), out.as_mut_ptr(), out.len()) }
}

pub fn block_pair(tau: &[f64], values: &[f64], jl: &[f64], jl_inv: &[f64], out: &mut [f64]) -> u32 {
    crate::environment::expect();
    // SAFETY: LISTS.
    unsafe {
        sim3_block_pair(
            tau.as_ptr(),
            tau.len(),
            values.as_ptr(),
            values.len(),
            jl.as_ptr(),
            jl.len(),
            jl_inv.as_ptr(),
            jl_inv.len(),
            out.as_mut_ptr(),
            out.len(),
        )
    }
}

pub fn block_inverse(j: &[f64], out: &mut [f64]) -> u32 {
    crate::environment::expect();
    // SAFETY: LISTS.
    unsafe { sim3_block_inverse(j.as_ptr(), j.len(), out.as_mut_ptr(), out.len()) }
}

pub fn adjoint(x: &[f64], up: f64, out: &mut [f64]) -> u32 {
    crate::environment::expect();
    // SAFETY: LISTS.
    unsafe { sim3_adjoint(x.as_ptr(), x.len(), up, out.as_mut_ptr(), out.len()) }
}

pub fn act_jacobians_right(x: &[f64], up: f64, p: &[f64], out: &mut [f64]) -> u32 {
    crate::environment::expect();
    // SAFETY: LISTS.
    unsafe {
        sim3_act_jacobians_right(
            x.as_ptr(),
            x.len(),
            up,
            p.as_ptr(),
            p.len(),
            out.as_mut_ptr(),
            out.len(),
        )
    }
}

pub fn act_jacobians_left(x: &[f64], up: f64, p: &[f64], out: &mut [f64]) -> u32 {
    crate::environment::expect();
    // SAFETY: LISTS.
    unsafe {
        sim3_act_jacobians_left(
            x.as_ptr(),
            x.len(),
            up,
            p.as_ptr(),
            p.len(),
            out.as_mut_ptr(),
            out.len(),
        )
    }
}

pub fn compose_jacobians_right(y: &[f64], down: f64, out: &mut [f64]) -> u32 {
    crate::environment::expect();
    // SAFETY: LISTS.
    unsafe { sim3_compose_jacobians_right(y.as_ptr(), y.len(), down, out.as_mut_ptr(), out.len()) }
}

pub fn compose_jacobians_left(x: &[f64], up: f64, out: &mut [f64]) -> u32 {
    crate::environment::expect();
    // SAFETY: LISTS.
    unsafe { sim3_compose_jacobians_left(x.as_ptr(), x.len(), up, out.as_mut_ptr(), out.len()) }
}

pub fn inverse_jacobian_right(x: &[f64], up: f64, out: &mut [f64]) -> u32 {
    crate::environment::expect();
    // SAFETY: LISTS.
    unsafe { sim3_inverse_jacobian_right(x.as_ptr(), x.len(), up, out.as_mut_ptr(), out.len()) }
}

pub fn inverse_jacobian_left(x: &[f64], down: f64, out: &mut [f64]) -> u32 {
    crate::environment::expect();
    // SAFETY: LISTS.
    unsafe { sim3_inverse_jacobian_left(x.as_ptr(), x.len(), down, out.as_mut_ptr(), out.len()) }
}

pub fn root(z: f64, whole: &mut [u64], exponent: &mut [i64], nearest: &mut [f64]) -> u32 {
    crate::environment::expect();
    // SAFETY: LISTS.
    unsafe {
        sim3_root(
            z,
            whole.as_mut_ptr(),
            whole.len(),
            exponent.as_mut_ptr(),
            exponent.len(),
            nearest.as_mut_ptr(),
            nearest.len(),
        )
    }
}

pub fn nearest_arm(sigma: f64, z: f64, out: &mut [u64]) -> u32 {
    crate::environment::expect();
    // SAFETY: LISTS.
    unsafe { sim3_nearest_arm(sigma, z, out.as_mut_ptr(), out.len()) }
}

// The bytes of an f64 are those of a u64, its pattern: the two functions below hand them over as they
// are. Both types have the same size and place in memory, and every pattern is a value of each.
pub fn compare_tangents(a: &[f64; 7], b: &[f64; 7], out: &mut [i64]) -> u32 {
    crate::environment::expect();
    // SAFETY: LISTS, and patterns as above.
    unsafe {
        sim3_compare_tangents(
            a.as_ptr().cast(),
            a.len(),
            b.as_ptr().cast(),
            b.len(),
            out.as_mut_ptr(),
            out.len(),
        )
    }
}

pub fn sort_tangents(list: &mut [crate::Tangent]) -> u32 {
    crate::environment::expect();
    // A tangent is its seven numbers (repr(transparent)) and those of a slice stand in a row, so there are
    // seven times as many numbers.
    // SAFETY: LISTS, and patterns as above.
    unsafe { sim3_sort_tangents(list.as_mut_ptr().cast(), list.len() * 7) }
}

pub fn running_start(pose: &mut [f64], state: &mut [u16]) -> u32 {
    crate::environment::expect();
    // SAFETY: LISTS.
    unsafe { sim3_running_start(pose.as_mut_ptr(), pose.len(), state.as_mut_ptr(), state.len()) }
}

pub fn running_push(
    pose: &mut [f64],
    state: &mut [u16],
    x: &[f64],
    x_frames: &[u16],
    up: f64,
) -> u32 {
    crate::environment::expect();
    // SAFETY: LISTS.
    unsafe {
        sim3_running_push(
            pose.as_mut_ptr(),
            pose.len(),
            state.as_mut_ptr(),
            state.len(),
            x.as_ptr(),
            x.len(),
            x_frames.as_ptr(),
            x_frames.len(),
            up,
        )
    }
}

pub fn running_every(state: &mut [u16], n: u16) -> u32 {
    crate::environment::expect();
    // SAFETY: LISTS.
    unsafe { sim3_running_every(state.as_mut_ptr(), state.len(), n) }
}

pub fn renormalize_all(poses: &mut [f64]) -> u32 {
    crate::environment::expect();
    // SAFETY: LISTS.
    unsafe { sim3_renormalize_all(poses.as_mut_ptr(), poses.len()) }
}

pub fn sheets_start(store: &mut [u8]) -> u32 {
    crate::environment::expect();
    // SAFETY: LISTS.
    unsafe { sim3_sheets_start(store.as_mut_ptr(), store.len()) }
}

pub fn sheets_put(
    store: &mut [u8],
    sheet: u16,
    take: u16,
    x: &[f64],
    x_frames: &[u16],
    out: &mut [u16],
) -> u32 {
    crate::environment::expect();
    // SAFETY: LISTS.
    unsafe {
        sim3_sheets_put(
            store.as_mut_ptr(),
            store.len(),
            sheet,
            take,
            x.as_ptr(),
            x.len(),
            x_frames.as_ptr(),
            x_frames.len(),
            out.as_mut_ptr(),
            out.len(),
        )
    }
}

pub fn sheets_get(
    store: &[u8],
    sheet: u16,
    take: &mut [u16],
    out: &mut [f64],
    out_frames: &mut [u16],
) -> u32 {
    crate::environment::expect();
    // SAFETY: LISTS.
    unsafe {
        sim3_sheets_get(
            store.as_ptr(),
            store.len(),
            sheet,
            take.as_mut_ptr(),
            take.len(),
            out.as_mut_ptr(),
            out.len(),
            out_frames.as_mut_ptr(),
            out_frames.len(),
        )
    }
}
