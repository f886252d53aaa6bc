//! Whether recoveries follow what survives.
use crate::fault::{Error, Fault};
use crate::foreign::{self, CStray, Summary};

/// Two different determinants survive in one slot: the process delivered another message than a survivor names.
#[derive(Clone, Copy, Debug, PartialEq, Eq)]
pub struct Stray {
    /// The first instant with such a slot, as a number of entries.
    pub instant: u32,
    /// The receiver of the least such slot.
    pub process: u8,
    /// The receive sequence number of the slot.
    pub rsn: u32,
    /// The position of the first delivery with a survivor of the slot, from 0.
    pub first: u32,
    /// The position of the first delivery with another survivor of the slot.
    pub second: u32,
}

/// What a status and the struct beside it tell.
pub(crate) fn told(status: u32, told: &CStray) -> Result<Option<Stray>, Error> {
    let CStray { instant, process, rsn, first, second, line, fault, kind } = *told;
    match (status, kind) {
        (foreign::OK, 0) => Ok(None),
        (foreign::OK, 1) => Ok(Some(Stray { instant, process, rsn, first, second })),
        (foreign::OK, _) => Err(Error::OtherVersion),
        (foreign::FAULT, _) => Err(Fault::told(&Summary { line, fault, ..Summary::default() })),
        _ => Err(Error::of_status(status)),
    }
}
