//! The table's rows: what is timed over what.

use crate::inputs::{self, list_at, Inputs, ARMS};
use crate::port::{self, *};
use crate::rust;
use helicoid_linalg::float::Float;
use std::rc::Rc;

/// One call for each input, with the answer's width.
pub struct Step {
    pub call: Call,
    pub inputs: Rc<Inputs>,
    pub width: usize,
    /// The call works on a list, which begins at this number of the output and stands there before it.
    pub list: Option<usize>,
}

/// The two sides of a ratio, each one or two steps whose answers stand one after the other.
pub struct Row {
    pub what: String,
    pub arm: &'static str,
    pub over: Vec<Step>,
    pub under: Vec<Step>,
    /// How often a burst passes over the inputs.
    pub passes: usize,
}

/// A function of either side as a call.
macro_rules! call {
    ($f:expr) => {
        // SAFETY: every wrapper takes two pointers and returns a u32; the rows give it inputs and
        // outputs of its widths.
        unsafe { core::mem::transmute::<*const (), Call>($f as *const ()) }
    };
}

fn row(what: &str, arm: &'static str, over: Vec<Step>, under: Vec<Step>) -> Row {
    Row { what: what.into(), arm, over, under, passes: 4 }
}

fn step(call: Call, inputs: &Rc<Inputs>, width: usize) -> Vec<Step> {
    vec![Step { call, inputs: inputs.clone(), width, list: None }]
}

fn two(call: Call, first: &Rc<Inputs>, second: &Rc<Inputs>, width: usize) -> Vec<Step> {
    step(call, first, width).into_iter().chain(step(call, second, width)).collect()
}

/// Poses: a row for each arm of the exponential, the product, the inverse, the action, the adjoint.
pub fn poses() -> Vec<Row> {
    let exp = |arm| {
        let x = Rc::new(inputs::tangents(arm));
        row("exp", arm.name, step(call_200, &x, 8), step(call!(rust::exp), &x, 8))
    };
    let plain = |what, x: Inputs, port, rust, width| {
        let x = Rc::new(x);
        row(what, "", step(port, &x, width), step(rust, &x, width))
    };
    let mut all: Vec<Row> = ARMS.iter().map(exp).collect();
    all.push(plain("mul", inputs::two_poses(), call_201, call!(rust::mul), 8));
    all.push(plain("inverse", inputs::poses(), call_202, call!(rust::inverse), 8));
    all.push(plain("act", inputs::poses_and_points(), call_203, call!(rust::act), 3));
    all.push(plain("adjoint", inputs::poses(), call_86, call!(rust::adjoint), 31));
    all
}

/// The single coefficient entries, in each arm.
pub fn coefficients() -> Vec<Row> {
    let entries: [(&str, Call, Call, usize); 3] = [
        ("sim3_coeffs_scaled", call_67, call!(rust::coeffs_scaled), 10),
        ("sim3_coeffs", call_63, call!(rust::coeffs), 9),
        ("sim3_v", call_64, call!(rust::coeffs_v), 4),
    ];
    let mut all = Vec::new();
    for (what, port, rust, width) in entries {
        for arm in &ARMS {
            let x = Rc::new(inputs::coefficients(arm, 1.0));
            all.push(row(what, arm.name, step(port, &x, width), step(rust, &x, width)));
        }
    }
    all
}

/// The port's scaled pair over the port's two singles, the Rust's two singles, the Rust's pair.
pub fn pairs() -> [Vec<Row>; 3] {
    let single = call!(rust::coeffs_scaled);
    let pair = call!(rust::coeffs_scaled_pair);
    let table = |what: &str, under: &dyn Fn(&Rc<Inputs>, &Rc<Inputs>) -> Vec<Step>| {
        let of = |arm| {
            let at = Rc::new(inputs::coefficients(arm, 1.0));
            let minus = Rc::new(inputs::coefficients(arm, -1.0));
            row(what, arm.name, step(call_68, &at, 20), under(&at, &minus))
        };
        ARMS.iter().map(of).collect()
    };
    [
        table("pair / two port singles", &|x, y| two(call_67, x, y, 10)),
        table("pair / two Rust singles", &|x, y| two(single, x, y, 10)),
        table("pair / Rust pair", &|x, _| step(pair, x, 20)),
    ]
}

/// Blocks: the pair over the Rust's two single sides and over its sides from its own pair, and the
/// inverse.
pub fn blocks() -> Vec<Row> {
    let sides: [(&str, Call); 2] = [
        ("block_pair / two Rust sides", call!(rust::block_singles)),
        ("block_pair / Rust pair", call!(rust::block_pair)),
    ];
    let mut all = Vec::new();
    for (what, rust) in sides {
        for arm in &ARMS {
            let x = Rc::new(inputs::tangents_with_jacobians(arm));
            all.push(row(what, arm.name, step(call_204, &x, 124), step(rust, &x, 124)));
        }
    }
    let x = Rc::new(inputs::blocks());
    let rust = call!(rust::block_inverse);
    all.push(row("block inverse", "", step(call_205, &x, 31), step(rust, &x, 31)));
    all
}

/// A list call as a call: the inputs are pose, up and points, the output is the list, both `OFF`.
macro_rules! list_call {
    ($name:ident, |$x:ident, $list:ident, $out:ident| $body:expr) => {
        unsafe extern "C" fn $name<const N: usize, const OFF: usize>(
            x: *const Float,
            out: *mut Float,
        ) -> u32 {
            // SAFETY: the rows give list_at(OFF) + N numbers and an output of OFF + N.
            let ($x, $list, $out) = unsafe {
                let list = core::slice::from_raw_parts(x.add(list_at(OFF)), N);
                let out = core::slice::from_raw_parts_mut(out.add(OFF), N);
                (&*x.cast::<[Float; 9]>(), list, out)
            };
            $body
        }
    };
}
list_call!(port_many, |x, list, out| port::act_many(x, list, out));
list_call!(port_each, |x, list, out| port::act_each(x, list, out));
list_call!(rust_many, |x, _list, out| {
    rust::act_many(x, out);
    0
});
list_call!(rust_each, |x, _list, out| {
    rust::act_each(x, out);
    0
});

/// The longest list of whole thousands of points, and one that the first cache holds.
const LONG: usize = 3 * 20_000;
const SHORT: usize = 3 * 200;

/// The action on lists of one placement. The Rust works in place, the port from one list into another.
fn lists_at<const OFF: usize>(short: &'static str, long: &'static str) -> Vec<Row> {
    let of = |what, arm, n: usize, port, rust, passes| {
        let x = Rc::new(inputs::list(n / 3, OFF));
        let steps =
            |call| vec![Step { call, inputs: x.clone(), width: OFF + n, list: Some(OFF) }];
        Row { passes, ..row(what, arm, steps(port), steps(rust)) }
    };
    vec![
        of("act_many", short, SHORT, port_many::<SHORT, OFF>, rust_many::<SHORT, OFF>, 50),
        of("act_many", long, LONG, port_many::<LONG, OFF>, rust_many::<LONG, OFF>, 1),
        of("act_each", short, SHORT, port_each::<SHORT, OFF>, rust_each::<SHORT, OFF>, 50),
        of("act_each", long, LONG, port_each::<LONG, OFF>, rust_each::<LONG, OFF>, 1),
    ]
}

/// Lists on 16 bytes, and off them.
pub fn lists() -> Vec<Row> {
    let mut all = lists_at::<0>("200 points", "20,000 points");
    all.extend(lists_at::<1>("200 points, off 16 bytes", "20,000 points, off 16 bytes"));
    all
}
