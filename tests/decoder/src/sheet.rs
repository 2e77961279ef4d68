//! The caller's sheet of attribute identifiers (refusal 17).

use crate::attribute::ATTRIBUTES;
use crate::refusal::Refusal;

/// The identifiers of the eight attributes in the rules' order: Detail,
/// RecordedActivities, UnrecordedActivities, DiscontinuityCount,
/// MaxActivities, Accumulate, Forward, Deliver.
#[derive(Clone, Copy, Debug, PartialEq, Eq)]
pub struct Sheet {
    pub identifiers: [u32; ATTRIBUTES],
}

impl Sheet {
    pub fn new(identifiers: [u32; ATTRIBUTES]) -> Sheet {
        Sheet { identifiers }
    }

    /// Eight different numbers from 1 to 2^31 - 1.
    pub fn is_sound(&self) -> bool {
        let different = |(index, identifier): (usize, &u32)| {
            !self.identifiers.iter().take(index).any(|x| x == identifier)
        };
        let range = 1..=(i32::MAX as u32);
        self.identifiers.iter().all(|x| range.contains(x))
            && self.identifiers.iter().enumerate().all(different)
    }

    pub(crate) fn require_sound(&self) -> Result<(), Refusal> {
        if self.is_sound() {
            Ok(())
        } else {
            Err(Refusal::whole(17))
        }
    }

    /// Which attribute an identifier names, if any.
    pub fn attribute(&self, identifier: u32) -> Option<usize> {
        self.identifiers.iter().position(|&x| x == identifier)
    }
}
