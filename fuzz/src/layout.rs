//! The bytes of an input: choices, then the message, then the lent group.
//!
//! A PCF header starts with a byte 0, the first of its Type, and an embedded
//! header with `EPH `. So an input that starts with either is a message of that
//! form, and a file with a message in it is an input as it stands; the choices
//! are then the ordinary ones. Any other start says that choices come first, and
//! the first byte's lowest bit which form the message is to be read in.

use crate::structure::{put_word, word};
use decoder::{Form, Layout};

/// Bytes that the choices take.
pub const CHOICES: usize = 30;

/// What an embedded message starts with.
pub const IDENTIFIER: [u8; 4] = *b"EPH ";

/// What one byte chooses, by its place. 0 is always the ordinary choice.
#[derive(Clone, Copy, Debug)]
pub enum Choice {
    /// The length that is given for the message.
    Length = 1,
    /// Room behind the message.
    Room,
    /// Size of the report's buffer.
    Report,
    /// Level, settings and order of the events, and option bits that mean nothing.
    Event,
    /// The number that stands for the low level.
    Low,
    Sheet,
    /// How the sheet is changed.
    Change,
    /// Which Activity group.
    Number,
    /// The identifier of a named string.
    Name,
    /// Place and depth of one structure.
    Place,
    Depth,
    /// Whether the message is swollen to a size near the largest, and the user
    /// data that compose is given with it.
    Swell,
    /// What becomes of the lent group.
    Group,
    /// Size of the buffer that is composed into.
    Composed,
    /// At which edge of guarded memory the buffers lie.
    Edge,
}

/// Where the form is chosen: an odd number is the plain one, an even one, which
/// is not 0, the embedded one.
const FORM: usize = 0;
/// How many bytes at the input's end are the lent group.
const GROUP_LENGTH: usize = 16;
/// One choice for each of the eight values.
const VALUES: usize = 18;
/// A number for all choices that want one that stands in no table.
const FREE: usize = 26;

/// An input, taken apart.
#[derive(Clone, Debug)]
pub struct Input {
    pub choices: [u8; CHOICES],
    pub message: Vec<u8>,
    /// Empty for the ordinary group.
    pub group: Vec<u8>,
}

impl Input {
    /// A message to be read in this form, with the ordinary choices.
    pub fn new(message: &[u8], layout: Layout) -> Input {
        let input = Input {
            choices: [0; CHOICES],
            message: message.to_vec(),
            group: Vec::new(),
        };
        input.in_layout(layout)
    }

    pub fn parse(bytes: &[u8]) -> Input {
        if bytes.starts_with(&IDENTIFIER) {
            return Input::new(bytes, Layout::EMBEDDED);
        }
        let choices = match bytes.first_chunk::<CHOICES>() {
            Some(choices) if choices[FORM] != 0 => *choices,
            _ => return Input::new(bytes, Layout::PLAIN),
        };
        let length = u16::from_be_bytes([choices[GROUP_LENGTH], choices[GROUP_LENGTH + 1]]);
        let rest = &bytes[CHOICES..];
        let split = rest.len().saturating_sub(usize::from(length));
        Input {
            choices,
            message: rest[..split].to_vec(),
            group: rest[split..].to_vec(),
        }
    }

    /// The bytes that are parsed to this input.
    pub fn bytes(&self) -> Vec<u8> {
        let mut choices = self.choices;
        // The engine's inputs are far shorter than this.
        let length = u16::try_from(self.group.len()).unwrap_or(u16::MAX);
        choices[GROUP_LENGTH..GROUP_LENGTH + 2].copy_from_slice(&length.to_be_bytes());
        [&choices[..], &self.message, &self.group].concat()
    }

    /// The form that the message is to be read in.
    pub fn layout(&self) -> Layout {
        if self.choices[FORM].is_multiple_of(2) {
            Layout::EMBEDDED
        } else {
            Layout::PLAIN
        }
    }

    pub fn in_layout(mut self, layout: Layout) -> Input {
        self.choices[FORM] = match layout.form {
            Form::Plain => 1,
            Form::Embedded => 2,
        };
        self
    }

    pub fn choice(&self, which: Choice) -> u8 {
        self.choices[which as usize]
    }

    pub fn choose(mut self, which: Choice, choice: u8) -> Input {
        self.choices[which as usize] = choice;
        self
    }

    /// The choice for one of the eight values.
    pub fn value(&self, attribute: usize) -> u8 {
        self.choices[VALUES + attribute]
    }

    pub fn free(&self) -> u32 {
        word(&self.choices, FREE)
    }

    pub fn with_free(mut self, number: u32) -> Input {
        put_word(&mut self.choices, FREE, number);
        self
    }
}
