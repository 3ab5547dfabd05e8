//! One pass of each side under callgrind, which counts the instructions.
//!
//! Valgrind takes requests through an instruction sequence that does nothing outside of it: the
//! counters are set to zero before a pass and written to a file of their own, with the row's name,
//! after it.

use crate::inputs::{self, Inputs};
use crate::port::Call;
use crate::rows::{Row, Step};
use crate::timing::{answers_len, pass, prepare};
use core::arch::asm;
use helicoid_linalg::float::Float;
use std::ffi::CString;
use std::rc::Rc;

/// Callgrind's requests.
const ZERO: usize = 0x4354_0001;
const DUMP_AS: usize = 0x4354_0003;

/// A request to valgrind with one argument; nothing where valgrind does not run.
#[inline(never)]
fn request(number: usize, argument: usize) {
    let words = [number, argument, 0, 0, 0, 0];
    // SAFETY: the four rotations undo each other and the exchange is with itself.
    unsafe {
        asm!(
            "rol rdi, 3",
            "rol rdi, 13",
            "rol rdi, 61",
            "rol rdi, 51",
            "xchg rbx, rbx",
            in("rax") words.as_ptr(),
            inout("rdx") 0usize => _,
            inout("rdi") 0usize => _,
        );
    }
}

fn count(name: &str, steps: &[Step]) {
    let mut out = vec![0.0; answers_len(steps)];
    prepare(steps, &mut out);
    let calls: usize = steps.iter().map(|s| s.inputs.count()).sum();
    let name = format!("{name} | {} | {calls}", steps[0].inputs.count());
    let name = CString::new(name).expect("no zero byte");
    request(ZERO, 0);
    std::hint::black_box(pass(steps, &mut out, false));
    request(DUMP_AS, name.as_ptr() as usize);
}

/// A call that does nothing: what it counts is the loop's own.
unsafe extern "C" fn nothing(_: *const Float, _: *mut Float) -> u32 {
    0
}

/// Every row's two sides, and the loop alone.
pub fn run(tables: &[(&str, Vec<Row>)]) {
    let x: Rc<Inputs> = Rc::new(inputs::poses());
    count("loop | - | -", &[Step { call: nothing as Call, inputs: x, width: 8, list: None }]);
    for row in tables.iter().flat_map(|(_, rows)| rows) {
        count(&format!("{} | {} | over", row.what, row.arm), &row.over);
        count(&format!("{} | {} | under", row.what, row.arm), &row.under);
    }
}
