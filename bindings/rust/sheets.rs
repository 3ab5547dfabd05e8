//! Retaken sheets: the pose of the highest take for each of up to 512 sheets.
#![forbid(unsafe_code)]

use crate::{raw, unexpected, Pose, Refusal};

/// How many bytes the store of the C functions has.
const SIZE: usize = 167_938;

/// The outcome of [`Sheets::put`], with the take that was kept before.
#[derive(Clone, Copy, Debug, PartialEq, Eq)]
pub enum Shelved {
    /// It is the first of its sheet.
    New,
    /// It replaces one of a lower take.
    Replaced(u16),
    /// One of a higher take stays.
    Older(u16),
}

/// For each sheet the pose of the highest take.
#[derive(Clone, Debug)]
pub struct Sheets {
    store: Vec<u8>,
}

impl Default for Sheets {
    fn default() -> Sheets {
        Sheets::new()
    }
}

impl Sheets {
    /// Nothing is kept yet.
    pub fn new() -> Sheets {
        let mut sheets = Sheets { store: vec![0; SIZE] };
        match raw::sheets_start(&mut sheets.store) {
            0 => sheets,
            refused => unexpected(refused),
        }
    }

    /// A shot of a sheet: it is kept if none of that sheet is, or one of a lower take. Refused where the
    /// take is the one that is kept, and where the sheet would be the 513th; then nothing changes.
    pub fn put(&mut self, sheet: u16, take: u16, x: &Pose) -> Result<Shelved, Refusal> {
        let mut outcome = [0; 2];
        let frames = [x.from, x.to];
        match raw::sheets_put(&mut self.store, sheet, take, &x.numbers, &frames, &mut outcome) {
            0 => Ok(match outcome {
                [1, _] => Shelved::New,
                [2, before] => Shelved::Replaced(before),
                [_, before] => Shelved::Older(before),
            }),
            10 => Err(Refusal::SameTake { sheet, take }),
            11 => Err(Refusal::TooManySheets { sheet }),
            refused => unexpected(refused),
        }
    }

    /// The take and the pose that are kept of a sheet; refused where none was ever kept.
    pub fn get(&self, sheet: u16) -> Result<(u16, Pose), Refusal> {
        let (mut take, mut numbers, mut frames) = ([0], [0.0; 8], [0; 2]);
        match raw::sheets_get(&self.store, sheet, &mut take, &mut numbers, &mut frames) {
            0 => Ok((take[0], Pose { numbers, from: frames[0], to: frames[1] })),
            12 => Err(Refusal::NeverKept { sheet }),
            refused => unexpected(refused),
        }
    }
}
