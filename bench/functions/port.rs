//! The port's side: the wrappers of `tests/calls`, from the static library that `rt` makes of this
//! width. Each takes its numbers in a row, writes the answer's, and returns 0 or a refusal's number.

use helicoid_linalg::float::Float;

/// A wrapper's shape, the widths left out: the inputs and the answer as pointers.
pub type Call = unsafe extern "C" fn(*const Float, *mut Float) -> u32;

/// Declares wrappers, with the names that they have at `f64` and at `f32`.
macro_rules! wrappers {
    ($($name:ident $single:literal)*) => {
        unsafe extern "C" {
            $(#[cfg_attr(single, link_name = $single)]
            pub fn $name(x: *const Float, out: *mut Float) -> u32;)*
        }
    };
}
wrappers! {
    call_63 "call_63_f32"
    call_64 "call_64_f32"
    call_67 "call_67_f32"
    call_68 "call_68_f32"
    call_86 "call_86_f32"
    call_200 "call_200_f32"
    call_201 "call_201_f32"
    call_202 "call_202_f32"
    call_203 "call_203_f32"
    call_204 "call_204_f32"
    call_205 "call_205_f32"
}

// A slice is its pointer and its length.
unsafe extern "C" {
    #[cfg_attr(single, link_name = "call_82_f32")]
    fn call_82(x: *const Float, pts: *const Float, n: usize, out: *mut Float, m: usize) -> u32;
    #[cfg_attr(single, link_name = "call_83_f32")]
    fn call_83(x: *const Float, pts: *const Float, n: usize, out: *mut Float, m: usize) -> u32;
}

/// `act_many` from one list into another.
pub fn act_many(x: &[Float; 9], list: &[Float], out: &mut [Float]) -> u32 {
    // SAFETY: the pointers and lengths are those of slices.
    unsafe { call_82(x.as_ptr(), list.as_ptr(), list.len(), out.as_mut_ptr(), out.len()) }
}

/// The single action on each point, from one list into another.
pub fn act_each(x: &[Float; 9], list: &[Float], out: &mut [Float]) -> u32 {
    // SAFETY: as above.
    unsafe { call_83(x.as_ptr(), list.as_ptr(), list.len(), out.as_mut_ptr(), out.len()) }
}
