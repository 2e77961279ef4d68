//! A message as a call is given it: the lent buffer, the length, and the
//! options with the form.

use super::numbers::Spare;
use decoder::generate::Lent;
use decoder::Layout;

/// A lent message with all that one call says of it.
#[derive(Clone, Copy, Debug)]
pub struct Given<'a> {
    pub buffer: &'a [u8],
    pub length: usize,
    /// The form that the call names, whatever the bytes are.
    pub layout: Layout,
    pub spare: Spare,
}

impl<'a> Given<'a> {
    /// A generated message, in the form that it is to be read in.
    pub fn of(lent: &'a Lent, spare: Spare) -> Given<'a> {
        Given {
            buffer: &lent.buffer,
            length: lent.length,
            layout: lent.layout,
            spare,
        }
    }

    /// The whole buffer as a message, with no other bits in the options.
    pub fn whole(buffer: &'a [u8], layout: Layout) -> Given<'a> {
        Given {
            buffer,
            length: buffer.len(),
            layout,
            spare: Spare::NONE,
        }
    }

    /// The options of a function that looks at the form alone.
    pub fn options(&self) -> u32 {
        self.spare.reading(self.layout)
    }

    /// Those of a decision on forwarding.
    pub fn forwarding(&self, supporting: bool) -> u32 {
        self.spare.forwarding(self.layout, supporting)
    }
}
