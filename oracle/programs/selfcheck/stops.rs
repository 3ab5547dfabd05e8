//! A function evaluated where none is expected, at another argument, or not at all, stops.

use helicoid::{LieGroup, Quat, Sim3, SO3};
use helicoid_linalg::handed::{clear, expect, finish, Function, H};
use helicoid_linalg::Point;
use std::panic::{catch_unwind, set_hook, take_hook};

fn act() {
    let _ = Sim3::<H>::identity() * Point([H(1.0), H(2.0), H(3.0)]);
    finish();
}

fn unexpected() {
    act();
}

fn another_argument() {
    expect(Function::Exp, -0.0, 1.0);
    act();
}

fn another_function() {
    expect(Function::ExpM1, 0.0, 1.0);
    act();
}

fn unread() {
    expect(Function::Exp, 0.0, 1.0);
    expect(Function::Exp, 0.0, 1.0);
    act();
}

/// The root of a half turn's logarithm is expected here, its arc tangent never is.
fn logarithm() {
    expect(Function::Sqrt, 1.0, 1.0);
    let half_turn = Quat { w: H(0.0), x: H(1.0), y: H(0.0), z: H(0.0) };
    SO3::from_quat_unchecked(half_turn).log();
}

/// Says of each whether it stops, and how many do not.
pub fn failed() -> usize {
    let cases: [(&str, fn()); 5] = [
        ("a function that nothing expects", unexpected),
        ("another argument", another_argument),
        ("another function", another_function),
        ("a value left unread", unread),
        ("a logarithm", logarithm),
    ];
    let hook = take_hook();
    set_hook(Box::new(|_| {}));
    let stopped = cases.map(|(name, case)| {
        let stopped = catch_unwind(case).is_err();
        clear();
        (name, stopped)
    });
    set_hook(hook);
    for (name, stops) in stopped {
        println!("{}stops at {name}", if stops { "ok      " } else { "FAILED  " });
    }
    stopped.iter().filter(|(_, stops)| !stops).count()
}
