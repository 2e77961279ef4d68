//! The numbers of an embedded header, read off the bytes: what a case is like
//! is not asked of either side.

use decoder::{Form, Layout};

const IDENTIFIER: [u8; 4] = *b"EPH ";

/// An embedded header where the length is no reason for 1.
pub(super) struct Headed {
    pub length: usize,
    /// StrucLength: where the PCF part is said to end.
    pub end: usize,
    pub version: u32,
    /// Which bytes of the identifier are wrong.
    pub wrong_bytes: Vec<usize>,
}

impl Headed {
    pub(super) fn of(buffer: &[u8], length: usize) -> Option<Headed> {
        if length > buffer.len() || !(68..=65_536).contains(&length) {
            return None;
        }
        let wrong = |&at: &usize| buffer[at] != IDENTIFIER[at];
        Some(Headed {
            length,
            end: word(buffer, 8)? as usize,
            version: word(buffer, 4)?,
            wrong_bytes: (0..4).filter(wrong).collect(),
        })
    }

    /// The same where there is no cause of 18.
    pub(super) fn sound(buffer: &[u8], length: usize) -> Option<Headed> {
        Headed::of(buffer, length).filter(|headed| headed.causes().is_empty())
    }

    /// Which of the causes of 18 it has: identifier, Version, StrucLength below
    /// 68, above the message, no multiple of 4.
    pub(super) fn causes(&self) -> Vec<u32> {
        let causes = [
            !self.wrong_bytes.is_empty(),
            self.version != 1,
            self.end < 68,
            self.end > self.length,
            !self.end.is_multiple_of(4),
        ];
        (0..).zip(causes).filter(|x| x.1).map(|x| x.0).collect()
    }

    /// Bytes of user data, where the header is sound.
    pub(super) fn user_data(&self) -> usize {
        self.length - self.end
    }
}

fn word(bytes: &[u8], at: usize) -> Option<u32> {
    let four = bytes.get(at..)?.first_chunk()?;
    Some(u32::from_be_bytes(*four))
}

/// A size of user data as a number: 0 to 3 as they are, 4 for less than 64, 5
/// for up to 4,096, and 6 for more.
pub(super) fn size_number(user_data: usize) -> u32 {
    match user_data {
        0..=3 => user_data as u32,
        4..64 => 4,
        64..=4096 => 5,
        _ => 6,
    }
}

/// What is counted of embedded messages is none of a plain one's.
pub(super) fn is_plain(layout: Layout) -> bool {
    layout.form == Form::Plain
}
