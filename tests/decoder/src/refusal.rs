//! Refusals: a number from the rules' table and a place in the message.

/// A refusal with its number (1 to 18) and place. Places other than 0 occur
/// with 3, 4 and 5 only.
#[derive(Clone, Copy, Debug, PartialEq, Eq, Hash)]
pub struct Refusal {
    pub number: u8,
    pub place: usize,
}

impl Refusal {
    #[inline]
    pub(crate) const fn new(number: u8, place: usize) -> Refusal {
        Refusal { number, place }
    }

    /// A refusal that has place 0 by the table.
    #[inline]
    pub(crate) const fn whole(number: u8) -> Refusal {
        Refusal { number, place: 0 }
    }

    /// The one line that the listing program prints, with its newline.
    pub fn line(&self) -> String {
        format!("refused {} {}\n", self.number, self.place)
    }
}
