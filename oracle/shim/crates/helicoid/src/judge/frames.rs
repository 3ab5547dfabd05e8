//! The frames of a pose: the numbers of the two it goes between. The Rust's poses have none, so the
//! request's rules are written here, and the published functions see the eight numbers alone.

/// Where a pose goes from and where to.
#[derive(Clone, Copy)]
pub struct Frames {
    pub from: u16,
    pub to: u16,
}

/// The refusal of a product whose frames do not meet.
pub const DO_NOT_MEET: u8 = 9;

impl Frames {
    /// `X Y`: the left pose starts where the right one ends, and the product goes all the way.
    pub fn product(left: Frames, right: Frames) -> Result<Frames, u8> {
        if left.from == right.to {
            Ok(Frames { from: right.from, to: left.to })
        } else {
            Err(DO_NOT_MEET)
        }
    }

    /// `X⁻¹`: the way back.
    pub fn inverse(self) -> Frames {
        Frames { from: self.to, to: self.from }
    }
}
