//! The kept sheets of a job: what its SH records leave behind, and what SQ asks of it. The Rust has
//! nothing of this: the rules are the request's, over a plain map from a sheet's number.

use super::frames::Frames;
use crate::Sim3;
use helicoid_linalg::handed::H;
use std::collections::BTreeMap;

/// So many sheets are kept at most.
const MOST_SHEETS: usize = 512;

/// What SH says of a pose that it does not refuse.
const NEW: u8 = 1;
const REPLACES: u8 = 2;
const OLDER: u8 = 3;

/// The refusals: a take equal to the one kept, one sheet too many, a sheet never kept.
const SAME_TAKE: u8 = 10;
const TOO_MANY: u8 = 11;
const NEVER_KEPT: u8 = 12;

/// A take of a sheet: its number, its pose and that pose's frames.
#[derive(Clone, Copy)]
pub struct Take {
    pub number: u16,
    pub pose: Sim3<H>,
    pub frames: Frames,
}

/// Of each sheet the highest take among those accepted; none at a job's begin.
#[derive(Default)]
pub struct Sheets(BTreeMap<u16, Take>);

impl Sheets {
    /// SH: says what the take is to its sheet, and which take stood before, 0 for none. A refusal
    /// changes nothing, and neither does an older take.
    pub fn bring(&mut self, sheet: u16, new: Take) -> Result<(u8, u16), u8> {
        let Some(old) = self.0.get(&sheet).map(|kept| kept.number) else {
            if self.0.len() == MOST_SHEETS {
                return Err(TOO_MANY);
            }
            self.0.insert(sheet, new);
            return Ok((NEW, 0));
        };
        if new.number == old {
            return Err(SAME_TAKE);
        }
        if new.number < old {
            return Ok((OLDER, old));
        }
        self.0.insert(sheet, new);
        Ok((REPLACES, old))
    }

    /// SQ: the take that is kept of a sheet.
    pub fn kept(&self, sheet: u16) -> Result<Take, u8> {
        self.0.get(&sheet).copied().ok_or(NEVER_KEPT)
    }
}
