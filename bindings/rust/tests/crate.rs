//! The crate as another one sees it: its types, its error, its version, and one answer of each kind.

use sim3::{f32 as single, host, Block, Pose, Refusal, Tangent, Values};
use std::error::Error;

const TAU: Tangent = Tangent([0.1, -0.2, 0.3, 1.0, 2.0, 3.0, 0.5]);

#[test]
fn the_library_has_the_version_of_the_crate() {
    assert_eq!(sim3::version(), env!("CARGO_PKG_VERSION"));
}

#[test]
fn the_environment_is_the_proved_one() {
    assert_eq!(sim3::environment::ask(), Ok(()));
    let proved = sim3::environment::enter();
    assert!(sim3::environment::probe());
    drop(proved);
    assert_eq!(sim3::environment::ask(), Ok(()));
}

#[test]
fn lists_have_names_for_their_parts() {
    assert_eq!((TAU.phi(), TAU.rho(), TAU.sigma()), ([0.1, -0.2, 0.3], [1.0, 2.0, 3.0], 0.5));
    let values = host::tangent_values(&TAU);
    assert_eq!((values.up(), values.down()), (0.5_f64.exp(), (-0.5_f64).exp()));
    let block = Block(std::array::from_fn(|i| i as f64));
    assert_eq!((block.a()[8], block.b()[0], block.c()[8]), (8.0, 9.0, 26.0));
    assert_eq!((block.f(), block.e()), ([27.0, 28.0, 29.0], 30.0));
    assert_eq!(Values::from([1.0; 10]).len(), 10);
    assert_eq!(<[f64; 7]>::from(TAU)[6], TAU[6]);
}

#[test]
fn a_pose_and_its_inverse_cancel() -> Result<(), Box<dyn Error>> {
    let x = sim3::exp(&TAU, &host::tangent_values(&TAU), 3, 7);
    let back = sim3::mul(&x, &sim3::inverse(&x, host::down(&x)), host::up(&x))?;
    assert_eq!((back.from, back.to), (7, 7));
    let one = [1.0, 0.0, 0.0, 0.0, 0.0, 0.0, 0.0, 0.0];
    assert!(back.numbers.iter().zip(one).all(|(x, y)| (x - y).abs() < 1e-12), "{back:?}");
    Ok(())
}

#[test]
fn a_refusal_is_an_error_in_words() {
    let [x, y] = [(3, 7), (3, 7)].map(|(from, to)| Pose { numbers: [0.0; 8], from, to });
    let refused: Box<dyn Error> = sim3::mul(&x, &y, 1.0).unwrap_err().into();
    assert!(
        refused.to_string().contains("x starts from frame 3, and y goes to frame 7"),
        "{refused}"
    );
    assert_eq!(sim3::block_inverse(&Block([0.0; 31])), Err(Refusal::EIsZero));
}

#[test]
fn singles_stand_beside() {
    let tau = single::Tangent(TAU.0.map(|x| x as f32));
    let x = single::exp(&tau, &single::host::tangent_values(&tau), 3, 7);
    let wide = sim3::exp(&TAU, &host::tangent_values(&TAU), 3, 7);
    assert!(x.numbers.iter().zip(wide.numbers).all(|(x, y)| (f64::from(*x) - y).abs() < 1e-5));
}
