//! How often each entry gave each answer: a comparison in which some answer, or
//! some kind of case, never came would be blind there.

mod counts;
mod headed;
pub mod messages;
pub mod traces;

pub use counts::Counts;
use decoder::{Form, Layout};
use std::fmt;

/// Numbers that an entry has to have given, each at least so often in a run of
/// the usual length. An entry may have several, and gives no other number.
pub type Floor = (&'static str, &'static [u32], u64);

/// Counts for each form in which calls name their message.
#[derive(Default)]
pub struct Spread {
    pub plain: Counts,
    pub embedded: Counts,
}

impl Spread {
    pub fn of(&mut self, layout: Layout) -> &mut Counts {
        match layout.form {
            Form::Plain => &mut self.plain,
            Form::Embedded => &mut self.embedded,
        }
    }
}

impl fmt::Display for Spread {
    fn fmt(&self, to: &mut fmt::Formatter) -> fmt::Result {
        for (form, counts) in [("plain", &self.plain), ("embedded", &self.embedded)] {
            if !counts.is_empty() {
                write!(to, " {form}\n{counts}")?;
            }
        }
        Ok(())
    }
}
