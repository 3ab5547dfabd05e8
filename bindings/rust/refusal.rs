//! What the engine does not answer.

#![forbid(unsafe_code)]

use std::fmt;

/// A refusal of the engine. The arrays' sizes are in the types, so number 100, another list of a
/// wrong length, cannot arise here.
#[derive(Clone, Copy, Debug, PartialEq, Eq)]
pub enum Refusal {
    /// 1: z is below zero.
    BelowZero,
    /// 2: e of a block is a zero.
    EIsZero,
    /// 5: `pts` is no multiple of 3 or longer than 65,535, or `out` has another length.
    PointsLength { pts: usize, out: usize },
    /// 8: z is a NaN or +infinity; of `nearest_arm`, also sigma is a NaN or an infinity.
    NotFinite,
    /// 5: there are more than 1,024 tangents.
    TooManyTangents { tangents: usize },
    /// 9: the frames do not meet. `x` and `y` are the two that would have to be one: X's from and Y's
    /// to in X Y, both froms in X Y⁻¹, both tos in Y⁻¹ X; of [`crate::Running::push`], the running pose's
    /// from and X's to.
    Frames { join: Join, x: u16, y: u16 },
    /// 10: the take is the one that is kept of its sheet.
    SameTake { sheet: u16, take: u16 },
    /// 11: the sheet would be the 513th.
    TooManySheets { sheet: u16 },
    /// 12: nothing was ever kept of the sheet.
    NeverKept { sheet: u16 },
}

/// The functions that join two poses.
#[derive(Clone, Copy, Debug, PartialEq, Eq)]
pub enum Join {
    Mul,
    MulInv,
    InvMul,
    Push,
}

impl Refusal {
    /// Its number in include/sim3.h.
    pub fn number(self) -> u32 {
        match self {
            Refusal::BelowZero => 1,
            Refusal::EIsZero => 2,
            Refusal::PointsLength { .. } => 5,
            Refusal::NotFinite => 8,
            Refusal::Frames { .. } => 9,
            Refusal::TooManyTangents { .. } => 5,
            Refusal::SameTake { .. } => 10,
            Refusal::TooManySheets { .. } => 11,
            Refusal::NeverKept { .. } => 12,
        }
    }
}

impl fmt::Display for Refusal {
    fn fmt(&self, f: &mut fmt::Formatter) -> fmt::Result {
        write!(f, "refusal {}: ", self.number())?;
        match *self {
            Refusal::BelowZero => {
                write!(f, "z is below zero; hand in a squared angle, as host::norm_sq gives it")
            }
            Refusal::EIsZero => {
                write!(
                    f,
                    "e, the last number of the block, is zero; such a block has no inverse, so leave it out or \
                     look at e first"
                )
            }
            Refusal::PointsLength { pts, .. } if pts % 3 != 0 => {
                write!(f, "pts has {pts} numbers, which is no multiple of 3; hand in x y z of every point, flat")
            }
            Refusal::PointsLength { pts, out } if pts != out => {
                write!(
                    f,
                    "out has {out} numbers where pts has {pts}; hand in an out of the same length"
                )
            }
            Refusal::PointsLength { pts, .. } => {
                write!(f, "pts has {pts} numbers; at most 65535 (21845 points) are taken at once, so move it in pieces")
            }
            Refusal::NotFinite => {
                write!(
                    f,
                    "z, or sigma where nearest_arm was asked, is a NaN or infinite; it has no root with what is \
                     left and no neighbours, so look at it first"
                )
            }
            Refusal::Frames { join: Join::Mul, x, y } => {
                write!(
                    f,
                    "x starts from frame {x}, and y goes to frame {y}; X Y wants one frame there, so hand the \
                     poses in the other way round, or an inverse"
                )
            }
            Refusal::Frames { join: Join::MulInv, x, y } => {
                write!(
                    f,
                    "x starts from frame {x}, and y from frame {y}; X Y^-1 wants one frame there, so hand in \
                     two poses that start from it"
                )
            }
            Refusal::Frames { join: Join::InvMul, x, y } => {
                write!(
                    f,
                    "x goes to frame {x}, and y to frame {y}; Y^-1 X wants one frame there, so hand in two \
                     poses that go to it"
                )
            }
            Refusal::Frames { join: Join::Push, x, y } => {
                write!(
                    f,
                    "the running pose starts from frame {x}, and x goes to frame {y}; running X wants one frame \
                     there, so hand in a pose that goes to it"
                )
            }
            Refusal::SameTake { sheet, take } => {
                write!(f, "take {take} is the one that is kept of sheet {sheet}; number the takes of a sheet anew")
            }
            Refusal::TooManySheets { sheet } => {
                write!(f, "sheet {sheet} would be the 513th; 512 are kept, so begin another store")
            }
            Refusal::NeverKept { sheet } => {
                write!(f, "nothing was ever kept of sheet {sheet}; look which sheets were put")
            }
            Refusal::TooManyTangents { tangents } => {
                write!(f, "there are {tangents} tangents; at most 1024 are put in order at once, so hand in fewer")
            }
        }
    }
}

impl std::error::Error for Refusal {}
