//! Each of the sixteen settings of rounding and flushing, and each unmasked exception, in the Rust binding: what `ask`,
//! the probe and a call report, and that the guard restores all of MXCSR. A failed assertion shows what is wrong.

use std::arch::asm;
use std::panic::{catch_unwind, set_hook};

const PROVED: u32 = 0x1f80;

fn mxcsr() -> u32 {
    let mut csr = 0u32;
    // SAFETY: it stores the register to these four bytes.
    unsafe { asm!("stmxcsr [{}]", in(reg) &mut csr, options(nostack)) }
    csr
}

fn set(csr: u32) {
    // SAFETY: bits of the control and flag fields alone.
    unsafe { asm!("ldmxcsr [{}]", in(reg) &csr, options(nostack)) }
}

/// The bits of a denormal point, moved by a turn, and of a point at f32.
fn answers() -> ([u64; 3], [u32; 3]) {
    let x = sim3::Pose { numbers: [0.6, 0.0, 0.8, 0.0, 0.0, 0.0, 0.0, 0.1], from: 1, to: 1 };
    let single =
        sim3::f32::Pose { numbers: [0.6, 0.0, 0.8, 0.0, 0.0, 0.0, 0.0, 0.1], from: 1, to: 1 };
    let (mut moved, mut moved_single) = ([0.0; 3], [0.0; 3]);
    sim3::act_each(&x, 1.1, &[5e-324, 1e-310, 0.3], &mut moved).unwrap();
    sim3::f32::act_each(&single, 1.1, &[0.1, 0.2, 0.3], &mut moved_single).unwrap();
    (moved.map(f64::to_bits), moved_single.map(f32::to_bits))
}

/// Whether every kind of call panics with a message that names the register.
fn panics(csr: u32) -> bool {
    let calls: [fn(); 4] = [
        || _ = answers(),
        || _ = sim3::root(2.0),
        || _ = sim3::Running::new(),
        || _ = sim3::f32::nearest_arm(0.1, 0.2),
    ];
    let panicked = calls.map(|call| {
        set(csr);
        let result = catch_unwind(call);
        set(PROVED);
        result
            .err()
            .and_then(|payload| payload.downcast::<String>().ok())
            .is_some_and(|message| message.contains(&format!("{csr:04x}")))
    });
    assert!(panicked == [true; 4] || panicked == [false; 4], "{csr:04x}: {panicked:?}");
    panicked[0]
}

fn guarded(csr: u32, expected: &([u64; 3], [u32; 3])) {
    set(csr);
    let guard = sim3::environment::enter();
    let nested = sim3::environment::enter();
    let inside = (sim3::environment::ask(), sim3::environment::probe(), answers());
    drop(nested);
    let still = sim3::environment::ask();
    drop(guard);
    let after = mxcsr();
    set(PROVED);
    assert_eq!(inside, (Ok(()), true, *expected), "{csr:04x}");
    assert_eq!((still, after), (Ok(()), csr), "{csr:04x}");
}

fn main() {
    set_hook(Box::new(|_| ()));
    let expected = answers();
    for i in 0..16 {
        let csr = PROVED | (i & 1) << 15 | (i >> 1 & 1) << 6 | (i >> 2) << 13;
        set(csr);
        let (asked, probe) = (sim3::environment::ask(), sim3::environment::probe());
        set(PROVED);
        assert_eq!((asked.is_ok(), probe), (i == 0, i == 0), "{csr:04x}");
        assert!(asked.is_ok() || asked.unwrap_err().mxcsr == csr, "{csr:04x}: {asked:?}");
        assert_eq!(panics(csr), cfg!(debug_assertions) && i != 0, "{csr:04x}");
        guarded(csr, &expected);
        guarded(csr | 0x3f, &expected);
    }
    for i in 0..6 {
        let csr = PROVED & !(0x80 << i);
        set(csr);
        let asked = sim3::environment::ask();
        set(PROVED);
        assert_eq!(asked.unwrap_err().mxcsr, csr);
        guarded(csr, &expected);
    }
    set(0x9fc0 | 0x2000);
    let asked = sim3::environment::ask().unwrap_err();
    set(PROVED);
    let words = "rounds down, flushes denormal results to zero, reads denormal numbers as zero (MXCSR is bfc0";
    assert!(asked.to_string().contains(words), "{asked}");
}
